/* Made from input.c for 1 ranks, by
   adapt/adapt.py input.c --ranks 1 */
int hash(int x)
{
    x ^= x << 13;
    x ^= x >> 17 & 32767;
    x ^= x << 5;
    return x;
}

int find(int v[], int n, int want)
{
    int i;
    for (i = 0; i < n; i++) {
        if (v[i] == want) {
            return i;
        }
    }
    return -1;
}

void fill(int v[], int n)
{
    for (int i = 0; i < n; i++) {
        v[i] = i * i;
        if (v[i] > 8) {
            break;
        }
    }
}

int deep(int n, int depth[])
{
    depth[(n + 5) % 5]++;
    if (n <= 0) {
        return 0;
    }
    int w1 = deep(n - 1, depth);
    int w2 = deep(n - 2, depth);
    return w1 + w2;
}

int mix(int a, int b)
{
    b = b + 1 << 16 >> 16;
    a = a * 2 + b;
    return a;
}

int cond(int a, int total[])
{
    int w3;
    if (a > 2) {
        int w1 = total[0];
        total[0]++;
        w3 = w1;
    } else {
        int w2 = total[0];
        total[0]--;
        w3 = w2;
    }
    return w3;
}

int isit(int rank, int root)
{
    if (rank == root) {
        return 1;
    }
    return 0;
}

int main(void)
{
    int total[1];
    int depth[5];
    int grid[32];
    int v[10] = {0};
    int i;
    int r = 0;
    int w[3] = {5, 6, 7};
    int h = 1;
    int x = 3;
    int size;
    MPI_Init(NULL, NULL);
    MPI_Comm_size(MPI_COMM_WORLD, &size);
    do {
        for (int q = 0; q < 4; q++) {
            total[0] += q;
        }
    } while (0);
    do {
        for (int q_1 = 0; q_1 < x; q_1++) {
            total[0] += q_1;
        }
    } while (0);
    printf("%d\n", total[0]);
    fill(v, 10);
    printf("%d %d %d\n", v[2], v[3], v[4]);
    fill(v + 5, 3);
    int w2 = v[7];
    int w1 = find(v, 10, 9);
    printf("%d %d\n", w2, w1);
    v[6] = 77;
    printf("%d %d\n", v[6], v[5]);
    for (i = 0; i < 4; i++) {
        for (int j = 0; j < 4; j++) {
            grid[i * 8 + j * 2] = i - j;
            grid[i * 8 + j * 2 + 1] = i * j;
        }
    }
    printf("%d %d %d\n", grid[14], grid[31], 32);
    for (i = 0; i < 3; i++) {
        int w3 = hash(h);
        h = w3;
    }
    printf("%x %d\n", h, (h ^ INT_MIN) > -2147483548);
    int w4 = deep(5, depth);
    printf("%d ", w4);
    printf("%d\n", depth[1]);
    int w5 = mix(4, 32767);
    printf("%d\n", w5);
    int w6 = cond(3, total);
    printf("%d", w6);
    int w7 = cond(1, total);
    printf(" %d", w7);
    printf(" %d\n", total[0]);
    int w8 = isit(0, 0);
    int w10 = w8 != 0;
    if (w10) {
        int w9 = isit(1, 0);
        w10 = !w9 != 0;
    }
    int w12 = w10 != 0;
    if (w12) {
        int w11 = find(w, 3, 6);
        r = w11;
        w12 = r >= 0 != 0;
    }
    if (w12 && w[r] == 6) {
        printf("found %d\n", r);
    }
    while (1) {
        x = x * 3 % 11;
        if (!(x != 1)) {
            break;
        }
        if (x == 9) {
            printf("nine ");
            continue;
        }
        printf("x%d ", x);
    }
    printf("\n");
    for (i = 0;; i++) {
        if (i > 20) {
            break;
        }
        int w13 = i % 4;
        int w14 = 0;
        do {
            if (w14 || w13 == 0) {
                w14 = 1;
                if (i == 8) {
                    break;
                }
                total[0] += i;
                break;
            }
            if (w14 || w13 == 1) {
                w14 = 1;
                total[0]++;
            }
        } while (0);
        if (i == 10) {
            break;
        }
    }
    printf("%d %d\n", i, total[0]);
    {
        int x_1 = 1;
        {
            int x_2 = 2;
            r = x_2;
        }
        r += x_1 * 10;
    }
    printf("%d %d\n", r, x);
    printf("%d %d %d %d\n", -3, -2, 9, 10);
    printf("a\tb\\\"%%\n");
    printf("put\n");
    printf("%d\n", 1);
    i = 5;
    int w15 = i;
    i--;
    i--;
    i = w15 - i;
    v[2] = 4;
    v[1] = v[2];
    v[0] = v[1];
    v[1]++;
    printf("%d %d %d\n", v[0], v[1], v[2]);
    printf("%d %d\n", 66, 2);
    do {
        i = 3;
    } while (0);
    do {
        x--;
    } while (x > 0);
    printf("%d %d %d\n", i, x, 40);
    if (x) {
    } else {
        if (i == 3) {
            printf("ok\n");
        } else {
            printf("bad\n");
        }
    }
    MPI_Finalize();
    return 0;
}
