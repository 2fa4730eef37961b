/* Made from input.c for 1 ranks, by
   adapt/adapt.py input.c --ranks 1 */
int next(int n[])
{
    n[0]++;
    return n[0];
}

int pure(int k)
{
    return k * 2;
}

int main(void)
{
    int n[1];
    int x = 10;
    int a[6] = {0};
    int w1 = next(n);
    x = x + w1;
    printf("%d\n", x);
    int w3 = n[0];
    int w2 = next(n);
    x = w3 + w2;
    printf("%d\n", x);
    int w4 = next(n);
    int w5 = next(n);
    printf("%d %d\n", w4, w5);
    int w6 = pure(x);
    int w7 = pure(n[0]);
    printf("%d %d\n", w6, w7);
    int w8 = next(n);
    a[n[0]] = w8;
    printf("%d\n", a[4] + a[5]);
    int w9 = next(n);
    int w11 = w9 == 6 != 0;
    if (w11) {
        int w10 = next(n);
        w11 = w10 == 7 != 0;
    }
    int w13 = w11 != 0;
    if (!w13) {
        int w12 = next(n);
        w13 = w12 != 0;
    }
    if (w13) {
        printf("%d\n", n[0]);
    }
    int w14 = next(n);
    int w16;
    if (w14) {
        int w15 = next(n);
        w16 = w15;
    } else {
        w16 = 0;
    }
    x = w16;
    n[0]++;
    printf("%d %d\n", x, n[0] * 2);
    return 0;
}
