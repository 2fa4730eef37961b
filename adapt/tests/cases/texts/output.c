/* Made from input.c for 1 ranks, by
   adapt/adapt.py input.c --ranks 1 */
int main(void)
{
    int buffer[8] = {97, 98};
    {
        int n = 3;
        printf("say first: %d\n", n);
    }
    {
        int n_1 = 0;
        printf("say fast: %d\n", n_1);
    }
    buffer[1] = buffer[1] + 1 << 24 >> 24;
    printf("q%d l     |     r|\n", buffer[1]);
    printf("a \"quoted\" 100%%\n");
    printf("tab\there A C %%\n");
    return 0;
}
