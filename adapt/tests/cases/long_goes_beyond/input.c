#include <stdio.h>
int main(void)
{
    long l = 3, big;
    unsigned u = 3000000000u;
    int i;
    big = l * 2;
    l++;
    i = l + 4;
    printf("%ld %d %ld\n", big, i, l);
    if (l + 1 > 2)
        printf("more\n");
    printf("%d %d\n", u > 5, u / 2 > 5);
    printf("%u\n", u >> 1);
    return 0;
}
