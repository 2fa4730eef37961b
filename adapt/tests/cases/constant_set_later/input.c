#include <stdio.h>
static int g;
static int late;
static const int K = 7;
static int f(void)
{
    return late;
}
int main(void)
{
    int n = 3, a[10], *p = &n;
    printf("%d %d\n", g, f());
    g = 5;
    late = 6;
    *p = 4;
    for (int i = 0; i < n; i++)
        a[i] = i * K;
    printf("%d %d %d %d\n", n, a[n - 1], g, f());
    if (sizeof(int) == 4)
        printf("four\n");
    else
        printf("%d\n", rand());
    return 0;
}
