/* Made from input.c for 1 ranks, by
   adapt/adapt.py input.c --ranks 1 */
int main(void)
{
    int c = 127;
    int u = 255;
    int s = -32768;
    int h = 65535;
    int n = 5;
    int m = 7;
    int b = 1;
    c++;
    c = c << 24 >> 24;
    u++;
    u = u & 255;
    s--;
    s = s << 16 >> 16;
    h = h + 2 & 65535;
    printf("%d %d %d %d %d\n", c, u, s, h, b);
    printf("%d %d\n", (n - m ^ INT_MIN) > INT_MIN, n - m < 0);
    printf("%d %d\n", -56, 255);
    u = 44;
    c = u << 24 >> 24;
    printf("%d %d %d\n", c, u, -1);
    {
        int i = 250;
        while (1) {
            if (!(i >= 250)) {
                break;
            }
            printf("%d ", i);
            i++;
            i = i & 255;
        }
    }
    printf("\n");
    return 0;
}
