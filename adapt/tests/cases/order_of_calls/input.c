#include <stdio.h>
static int n;
static int next(void)
{
    return ++n;
}
static int pure(int k)
{
    return k * 2;
}
int main(void)
{
    int x = 10, a[6] = {0};
    x = x + next();
    printf("%d\n", x);
    x = n + next();
    printf("%d\n", x);
    printf("%d %d\n", next(), next());
    printf("%d %d\n", pure(x), pure(n));
    a[n] = next();
    printf("%d\n", a[4] + a[5]);
    if (next() == 6 && next() == 7 || next())
        printf("%d\n", n);
    x = next() ? next() : 0;
    printf("%d %d\n", x, (n++, n * 2));
    return 0;
}
