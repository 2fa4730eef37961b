#include <stdio.h>
#include <string.h>
static const char *name = "wiz";
static void say(const char *what, int n)
{
    printf("%s %s: %d\n", __func__, what, n);
}
int main(int argc, char *argv[])
{
    char buffer[8] = "ab";
    const char *mode = "fast";
    say("first", (int) strlen(name));
    say(mode, strcmp(mode, "fast"));
    if (strcmp(mode, "slow") == 0)
        printf("slow\n");
    buffer[1] += 1;
    printf("%c%d %-6s|%6s|\n", 'q', buffer[1], "l", "r");
    fprintf(stderr, "hidden\n");
    puts("a \"quoted\" 100%");
    printf("tab\there \x41 \103 %%\n");
    return 0;
}
