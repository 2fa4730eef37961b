#include <stdio.h>
#include <stdlib.h>
#include <string.h>
#include <mpi.h>
typedef unsigned char u8;
static int calls, glob = 3;
static int bump(int *p, int by) { calls++; *p += by; return *p; }
static void fill(int *dst, const int *src, int n) { memcpy(dst, src, n * sizeof(int)); dst += 1; *dst = 99; }
static int early(MPI_Status *s, int k) { if (k < 0) return -1; if (k == 0) { s->MPI_ERROR = 0; return 7; } return k * 2; }
static int walk(int *p) { int s = 0; while (*p) { s = s * 10 + *p; ++p; } return s; }
static int rec(int a[], int i) { if (i == 0) return a[0]; return a[i] + rec(a, i - 1); }
static int last(int n) { switch (n) { case 1: return 10; case 2: { n += 5; break; } default: return n < 0 ? -n : n; } return n; }
static unsigned mix(unsigned h, u8 c) { h ^= c; h *= 16777619u; return h; }
int main(void)
{
    int a[6] = {1, 2, 3, 4, 5, 0}, b[6], i, j, k = 2, *q = a + 1, *r, t[2][2] = {{1}, {2, 3}};
    MPI_Status st; unsigned h = 2166136261u; char w[6] = "hello"; short sh = 5; long big = 1; u8 c8 = 3;
    i = 0; a[i++] = 4; a[i] = a[i] + i++; printf("%d %d %d\n", a[0], a[1], i);
    fill(b, a, 6); printf("%d %d %d\n", b[0], b[1], b[5]);
    printf("%d %d %d\n", early(&st, -3), early(&st, 0), early(&st, 4));
    printf("%d %d\n", walk(a), rec(a, 4));
    r = q; q++; r[0] += 100; printf("%d %d %d\n", *q, *r, a[1]); q = &a[4]; printf("%d %d\n", q[-1], *(q - 2));
    for (i = 0, j = 10; i < j; i += 3, j--) { if (i == 3) continue; if (j < 7) break; printf("%d,%d ", i, j); } printf("\n");
    printf("%d %d %d %d\n", last(1), last(2), last(-8), last(9));
    for (i = 0; w[i]; i++) h = mix(h, w[i]); printf("%x\n", h);
    k = (i = 4) + (j = 5); k += i > 3 ? j-- : i--; printf("%d %d %d\n", k, i, j);
    do { if (k % 2) continue; k -= 2; } while (--k > 5); printf("%d\n", k);
    while (k < 10 && (k += 2) != 9 || k++ == 11) printf("k%d ", k); printf("\n");
    sh *= 20000; c8 -= 5; c8 >>= 1; big <<= 3; big += sh; printf("%d %d %ld\n", sh, c8, big);
    t[1][0] ^= t[1][1]; t[0][1] = !t[0][1]; printf("%d %d %d %d\n", t[0][0], t[0][1], t[1][0], t[1][1]);
    i = 5; i = i > 3 && i < 9 ? bump(&i, 1) * 2 : -1; printf("%d %d\n", i, calls);
    { int i = 3; for (int i = 0; i < 2; i++) { int i = 7; i++; printf("%d ", i); } printf("%d\n", i); }
    printf("%d %d %d\n", -7 / 2, -7 % 3, 7 / -2); printf("%d %d\n", 5 - -3, - -4); printf("%d\n", ~0 & 0x7f ^ 3 | 8 << 1);
    printf("%d\n", (unsigned) -1 > 5 && sizeof(a) > 20 && (int) sizeof(w) - 7 < 0); printf("%u %u\n", h >> 28, 10u / 3u);
    if (!(glob -= 3)) { printf("zero\n"); } else if (glob) printf("no\n");
    for (;;) { static int n = 5; if (n-- <= 3) break; printf("n%d ", n); } printf("\n");
    { int *z = NULL, *y; for (i = 0; i < 3; i++) { if (i == 1) z = &a[i]; if (z) printf("z%d ", *z); else printf("null "); } y = z; y[1] = 55; printf("%d\n", a[2]); }
    memset(b, 0, sizeof b); memset(b + 1, -1, 2 * sizeof(int)); printf("%d %d %d %d\n", b[0], b[1], b[2], b[3]);
    { double d = 3; d *= 2; d += i; if (d > 8.0) printf("%.1f %g\n", d, d); }
    { int x = 1, y = 2; x ^= y, y ^= x, x ^= y; printf("%d %d\n", x, y); i = x, y; printf("%d\n", i); }
    { char buf[4]; for (i = 0; i < 3; i++) buf[i] = 'a' + i * 60; printf("%d %d %d\n", buf[0], buf[1], buf[2]); }
    { enum { P, Q = 4, R } e = R; switch (e) { case P: printf("P"); break; case R: printf("R"); case Q: printf("Q\n"); } }
    return 0;
}
