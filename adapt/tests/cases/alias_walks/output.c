/* Made from input.c for 1 ranks, by
   adapt/adapt.py input.c --ranks 1 */
int total(int p[], int n)
{
    int p_at1 = 0;
    int sum = 0;
    while (1) {
        int w1 = n;
        n--;
        if (!(w1 > 0)) {
            break;
        }
        int w2 = p_at1;
        p_at1++;
        sum += p[w2];
    }
    return sum;
}

int main(void)
{
    int a[5] = {1, 2, 3, 4, 5};
    int p_at1 = 0;
    p_at1 = 0;
    int n = 0;
    int w1 = p_at1;
    p_at1++;
    a[w1] = 7;
    a[p_at1 + 1] += 10;
    printf("%d %d %d\n", a[0], a[2], a[p_at1]);
    p_at1 += 2;
    int w2 = p_at1;
    p_at1--;
    a[w2] = 40;
    int w4 = a[p_at1];
    int w5 = a[3];
    int w3 = total(a + 1, 3);
    printf("%d %d %d\n", w4, w5, w3);
    {
        p_at1 = 0;
        while (1) {
            if (!(n < 5)) {
                break;
            }
            printf("%d ", a[p_at1]);
            p_at1++;
            n++;
        }
    }
    printf("\n");
    return 0;
}
