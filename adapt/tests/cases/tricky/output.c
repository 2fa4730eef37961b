/* Made from input.c for 1 ranks, by
   adapt/adapt.py input.c --ranks 1 */
int bump(int p[], int by, int calls[])
{
    calls[0]++;
    p[0] += by;
    return p[0];
}

void fill(int dst[], int src[], int n)
{
    int dst_at1 = 0;
    for (int w1 = 0; w1 < 6; w1++) {
        dst[dst_at1 + w1] = src[w1];
    }
    dst_at1 += 1;
    dst[dst_at1] = 99;
}

int walk(int p[])
{
    int p_at1 = 0;
    int s = 0;
    while (p[p_at1]) {
        s = s * 10 + p[p_at1];
        p_at1++;
    }
    return s;
}

int rec(int a[], int i)
{
    if (i == 0) {
        return a[0];
    }
    int w2 = a[i];
    int w1 = rec(a, i - 1);
    return w2 + w1;
}

int last(int n)
{
    int w1 = n;
    int w2 = 0;
    do {
        if (w2 || w1 == 1) {
            w2 = 1;
            return 10;
        }
        if (w2 || w1 == 2) {
            w2 = 1;
            {
                n += 5;
                break;
            }
        }
        if (1) {
            w2 = 1;
            return n < 0 ? -n : n;
        }
    } while (0);
    return n;
}

int mix(int h, int c)
{
    h ^= c;
    h *= 16777619;
    return h;
}

int main(void)
{
    int calls[1];
    int glob = 3;
    int n = 5;
    int a[6] = {1, 2, 3, 4, 5};
    int b[6];
    int i;
    int j;
    int k = 2;
    int q_at1 = 0;
    q_at1 = 1;
    int r_at1 = 0;
    int t[4] = {1, 0, 2, 3};
    MPI_Status st;
    int h = -2128831035;
    int w[6] = {104, 101, 108, 108, 111};
    int sh = 5;
    int big = 1;
    int c8 = 3;
    i = 0;
    int w1 = i;
    i++;
    a[w1] = 4;
    int w3 = a[i];
    int w2 = i;
    i++;
    a[i] = w3 + w2;
    printf("%d %d %d\n", a[0], a[1], i);
    fill(b, a, 6);
    printf("%d %d %d\n", b[0], b[1], b[5]);
    int w4 = 0;
    do {
        int k_1 = -3;
        if (k_1 < 0) {
            w4 = -1;
            break;
        }
        if (k_1 == 0) {
            w4 = 7;
            break;
        }
        w4 = k_1 * 2;
        break;
    } while (0);
    int w5 = 0;
    do {
        int k_2 = 0;
        if (k_2 < 0) {
            w5 = -1;
            break;
        }
        if (k_2 == 0) {
            w5 = 7;
            break;
        }
        w5 = k_2 * 2;
        break;
    } while (0);
    int w6 = 0;
    do {
        int k_3 = 4;
        if (k_3 < 0) {
            w6 = -1;
            break;
        }
        if (k_3 == 0) {
            w6 = 7;
            break;
        }
        w6 = k_3 * 2;
        break;
    } while (0);
    printf("%d %d %d\n", w4, w5, w6);
    int w7 = walk(a);
    int w8 = rec(a, 4);
    printf("%d %d\n", w7, w8);
    r_at1 = q_at1;
    q_at1++;
    a[r_at1] += 100;
    printf("%d %d %d\n", a[q_at1], a[r_at1], a[1]);
    q_at1 = 4;
    printf("%d %d\n", a[q_at1 + -1], a[q_at1 + -2]);
    {
        i = 0;
        j = 10;
        {
            int w9 = 1;
            while (1) {
                if (!w9) {
                    i += 3;
                    j--;
                }
                w9 = 0;
                if (!(i < j)) {
                    break;
                }
                if (i == 3) {
                    continue;
                }
                if (j < 7) {
                    break;
                }
                printf("%d,%d ", i, j);
            }
        }
    }
    printf("\n");
    int w10 = last(1);
    int w11 = last(2);
    int w12 = last(-8);
    int w13 = last(9);
    printf("%d %d %d %d\n", w10, w11, w12, w13);
    for (i = 0; w[i]; i++) {
        int w14 = mix(h, w[i] & 255);
        h = w14;
    }
    printf("%x\n", h);
    i = 4;
    j = 5;
    k = i + j;
    int w17;
    if (i > 3) {
        int w15 = j;
        j--;
        w17 = w15;
    } else {
        int w16 = i;
        i--;
        w17 = w16;
    }
    k += w17;
    printf("%d %d %d\n", k, i, j);
    {
        int w18 = 1;
        while (1) {
            if (!w18) {
                k--;
                if (!(k > 5)) {
                    break;
                }
            }
            w18 = 0;
            if (k % 2) {
                continue;
            }
            k -= 2;
        }
    }
    printf("%d\n", k);
    while (1) {
        int w19 = k < 10 != 0;
        if (w19) {
            k += 2;
            w19 = k != 9 != 0;
        }
        int w21 = w19 != 0;
        if (!w21) {
            int w20 = k;
            k++;
            w21 = w20 == 11 != 0;
        }
        if (!w21) {
            break;
        }
        printf("k%d ", k);
    }
    printf("\n");
    sh = sh * 20000 << 16 >> 16;
    c8 = c8 - 5 & 255;
    c8 = c8 >> 1 & 255;
    big = big << 3;
    big = big + sh;
    printf("%d %d %d\n", sh, c8, big);
    t[2] ^= t[3];
    t[1] = !t[1];
    printf("%d %d %d %d\n", t[0], t[1], t[2], t[3]);
    i = 5;
    int w23;
    if (i > 3 && i < 9) {
        int w22 = bump(&i, 1, calls);
        w23 = w22 * 2;
    } else {
        w23 = -1;
    }
    i = w23;
    printf("%d %d\n", i, calls[0]);
    {
        int i_1 = 3;
        for (int i_2 = 0; i_2 < 2; i_2++) {
            int i_3 = 7;
            i_3++;
            printf("%d ", i_3);
        }
        printf("%d\n", i_1);
    }
    printf("%d %d %d\n", -3, -1, -3);
    printf("%d %d\n", 8, 4);
    printf("%d\n", 124);
    printf("%d\n", 1);
    printf("%d %d\n", h >> 28 & 15, 3);
    glob -= 3;
    if (!glob) {
        printf("zero\n");
    } else {
        if (glob) {
            printf("no\n");
        }
    }
    while (1) {
        int w24 = n;
        n--;
        if (w24 <= 3) {
            break;
        }
        printf("n%d ", n);
    }
    printf("\n");
    {
        int z_at1 = 0;
        int z_set1 = 0;
        z_set1 = 0;
        int y_at1 = 0;
        for (i = 0; i < 3; i++) {
            if (i == 1) {
                z_set1 = 1;
                z_at1 = i;
            }
            if (z_set1) {
                printf("z%d ", a[z_at1]);
            } else {
                printf("null ");
            }
        }
        y_at1 = z_at1;
        a[y_at1 + 1] = 55;
        printf("%d\n", a[2]);
    }
    for (int w25 = 0; w25 < 6; w25++) {
        b[w25] = 0;
    }
    for (int w26 = 0; w26 < 2; w26++) {
        b[1 + w26] = -1;
    }
    printf("%d %d %d %d\n", b[0], b[1], b[2], b[3]);
    {
        int d = 3;
        d = d * 2;
        d = d + i;
        if (d > 8) {
            printf("%d.0 %d\n", d, d);
        }
    }
    {
        int x = 1;
        int y = 2;
        x ^= y;
        y ^= x;
        x ^= y;
        printf("%d %d\n", x, y);
        i = x;
        printf("%d\n", i);
    }
    {
        int buf[4];
        for (i = 0; i < 3; i++) {
            buf[i] = 97 + i * 60 << 24 >> 24;
        }
        printf("%d %d %d\n", buf[0], buf[1], buf[2]);
    }
    {
        int e = 5;
        int w27 = e;
        int w28 = 0;
        do {
            if (w28 || w27 == 0) {
                w28 = 1;
                printf("P");
                break;
            }
            if (w28 || w27 == 5) {
                w28 = 1;
                printf("R");
            }
            if (w28 || w27 == 4) {
                w28 = 1;
                printf("Q\n");
            }
        } while (0);
    }
    return 0;
}
