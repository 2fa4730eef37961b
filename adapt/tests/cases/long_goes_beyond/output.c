/* Made from input.c for 1 ranks, by
   adapt/adapt.py input.c --ranks 1 */
int main(void)
{
    int l = 3;
    int big;
    int u = -1294967296;
    int i;
    big = l * 2;
    l++;
    i = l + 4;
    printf("%d %d %d\n", big, i, l);
    if (l + 1 > 2) {
        printf("more\n");
    }
    printf("%d %d\n", (u ^ INT_MIN) > -2147483643, (u / 2 ^ INT_MIN) > -2147483643);
    printf("%d\n", u >> 1 & 2147483647);
    return 0;
}
