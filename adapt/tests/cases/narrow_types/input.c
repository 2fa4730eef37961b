#include <stdio.h>
#include <stdint.h>
int main(void)
{
    signed char c = 127;
    unsigned char u = 255;
    short s = -32768;
    uint16_t h = 65535;
    unsigned n = 5, m = 7;
    _Bool b = 12;
    c++;
    u++;
    s--;
    h += 2;
    printf("%d %d %d %d %d\n", c, u, s, h, b);
    printf("%d %d\n", n - m > 0, (int) (n - m) < 0);
    printf("%d %d\n", (char) 200, (unsigned char) -1);
    c = u = 300;
    printf("%d %d %d\n", c, u, '\xff');
    for (unsigned char i = 250; i >= 250; i++)
        printf("%d ", i);
    printf("\n");
    return 0;
}
