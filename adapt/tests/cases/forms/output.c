/* Made from input.c for 1 ranks, by
   adapt/adapt.py input.c --ranks 1 */
int next(int counter[])
{
    counter[0]++;
    return counter[0];
}

int fact(int n)
{
    int w3;
    if (n <= 1) {
        w3 = 1;
    } else {
        int w2 = n;
        int w1 = fact(n - 1);
        w3 = w2 * w1;
    }
    return w3;
}

void swap(int a[], int b[])
{
    int t = a[0];
    a[0] = b[0];
    b[0] = t;
}

int sum(int p[], int n)
{
    int s = 0;
    while (1) {
        int w1 = n;
        n--;
        if (!w1) {
            break;
        }
        s += p[n];
    }
    return s;
}

int pick(int k)
{
    int w1 = k;
    int w2 = 0;
    do {
        if (w2 || w1 == 0) {
            w2 = 1;
            return 10;
        }
        if (w2 || w1 == 1) {
            w2 = 1;
        }
        if (w2 || w1 == 2) {
            w2 = 1;
            return 20;
        }
        if (1) {
            w2 = 1;
            return 30;
        }
    } while (0);
}

int side(int v)
{
    printf("<%d>", v);
    return v;
}

void bump(int g[], int tab[])
{
    g[0] += 2;
    tab[5] = g[0];
}

int main(void)
{
    int g[1] = {3};
    int tab[6] = {1, 2, 0, 4};
    int counter[1];
    int i;
    int j = 0;
    int a[6];
    int x = 1;
    int y = 2;
    int h[5];
    int n = 0;
    int c = 97;
    int u = 250;
    int s = 32767;
    int z = -294967296;
    int l = 12;
    MPI_Init(NULL, NULL);
    {
        i = 0;
        j = 5;
        while (1) {
            if (!(i < j)) {
                break;
            }
            printf("%d:%d ", i, j);
            i++;
            j--;
        }
    }
    printf("\n");
    for (i = 0; i < 2; i++) {
        for (j = 0; j < 3; j++) {
            a[i * 3 + j] = i * 3 + j;
        }
    }
    printf("%d %d %d\n", a[5], a[4], a[5]);
    a[3] = 42;
    printf("%d\n", a[3]);
    swap(&x, &y);
    swap(a, a + 5);
    printf("%d %d %d %d\n", x, y, a[0], a[5]);
    int w1 = sum(a, 3);
    int w2 = sum(tab, 6);
    printf("%d %d\n", w1, w2);
    c = c + 30 << 24 >> 24;
    u = u + 10 & 255;
    s++;
    s = s << 16 >> 16;
    printf("%d %d %d\n", c, u, s);
    printf("%d %d\n", (z ^ INT_MIN) > -2147483643, (z >> 4 & 268435455) > 0);
    i = 0;
    while (1) {
        int w3 = i;
        i++;
        if (!(w3 < 5)) {
            break;
        }
        if (i == 2) {
            continue;
        }
        if (i == 4) {
            break;
        }
        printf("w%d ", i);
    }
    printf("%d\n", i);
    i = 0;
    {
        int w4 = 1;
        while (1) {
            if (!w4) {
                i++;
                if (!(i < 3)) {
                    break;
                }
            }
            w4 = 0;
            if (i == 1) {
                continue;
            }
            printf("d%d ", i);
        }
    }
    printf("\n");
    for (i = 0; i < 6; i++) {
        int w5 = i;
        int w6 = 0;
        do {
            if (w6 || w5 == 1) {
                w6 = 1;
                n += 1;
            }
            if (w6 || w5 == 2) {
                w6 = 1;
                n += 10;
                break;
            }
            if (w6 || w5 == 3) {
                w6 = 1;
                if (n > 5) {
                    break;
                }
                n += 100;
            }
            if (1) {
                w6 = 1;
                n += 1000;
            }
        } while (0);
    }
    printf("%d\n", n);
    int w7 = side(0);
    int w9 = w7 != 0;
    if (w9) {
        int w8 = side(1);
        w9 = w8 != 0;
    }
    if (w9) {
        printf("no");
    }
    int w10 = side(1);
    int w12 = w10 != 0;
    if (!w12) {
        int w11 = side(2);
        w12 = w11 != 0;
    }
    if (w12) {
        printf("yes\n");
    }
    int w13 = side(3);
    int w16;
    if (w13) {
        int w14 = side(4);
        w16 = w14;
    } else {
        int w15 = side(5);
        w16 = w15;
    }
    printf("%d\n", w16);
    y = 9;
    x = y;
    n = 2;
    h[n] = x;
    int w17 = n;
    n++;
    h[w17] += 1;
    printf("%d %d %d %d\n", h[2], x, y, n);
    int w18 = next(counter);
    int w19 = next(counter);
    int w20 = fact(6);
    int w21 = pick(2);
    int w22 = pick(0);
    int w23 = pick(9);
    printf("%d %d %d\n", w18 + 10 * w19, w20, w21 + w22 + w23);
    bump(g, tab);
    printf("%d %d %d %d\n", g[0], tab[5], 7, (x - 1) * (x - 1));
    printf("%d %d %d\n", 5, 6, 24);
    {
        int w24 = next(counter);
        i = w24;
        {
            int w26 = 1;
            while (1) {
                if (!w26) {
                    int w25 = next(counter);
                    i += w25;
                }
                w26 = 0;
                if (!(i < 8)) {
                    break;
                }
                if (i == 5) {
                    continue;
                }
                printf("f%d ", i);
            }
        }
    }
    printf("\n");
    for (int w27 = 0; w27 < 5; w27++) {
        h[w27] = 0;
    }
    printf("%d text q%%\n", h[2]);
    printf("%5d|%-4d|%03d|%x|%d|%d\n", 7, 8, 9, 255, 12, l);
    i = 3;
    j = i + 4;
    printf("%d %d\n", i, j);
    x = 5;
    int w28 = x;
    x++;
    x += w28 > 4 ? 2 : 3;
    {
        int i_1 = 8;
        i_1 += 2;
        printf("%d\n", i_1);
    }
    printf("%d\n", i);
    int m = -7;
    printf("%d %d %d\n", m / 2, m % 2, m >> 1);
    printf("%d\n", !(i == 3) + !h[0] * 2 - -3);
    MPI_Finalize();
    return 0;
}
