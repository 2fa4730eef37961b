#include <stdio.h>
/* A pointer to an element whose index changes later. */
int main(void)
{
    int a[4] = {1, 2, 3, 4}, i = 1;
    int *p = &a[i], *q = a;
    i = 3;
    printf("%d %d\n", *p, p[1]);
    *p = 9;
    printf("%d %d\n", a[1], a[i]);
    while (q < a + 4 && *q != 4)
        q++;
    printf("%d\n", *q);
    return 0;
}
