#include <stdio.h>
#include <stdlib.h>
static int total(const int *p, int n)
{
    int sum = 0;
    while (n-- > 0)
        sum += *p++;
    return sum;
}
int main(void)
{
    int a[5] = {1, 2, 3, 4, 5};
    int *p = a, *end;
    int n = 0;
    *p++ = 7;
    p[1] += 10;
    printf("%d %d %d\n", a[0], a[2], *p);
    p += 2;
    *p-- = 40;
    printf("%d %d %d\n", *p, a[3], total(a + 1, 3));
    for (p = a; n < 5; p++, n++)
        printf("%d ", *p);
    printf("\n");
    return 0;
}
