/* Made from input.c for 1 ranks, by
   adapt/adapt.py input.c --ranks 1 */
int main(void)
{
    int a[4] = {1, 2, 3, 4};
    int i = 1;
    int p_at1 = 0;
    p_at1 = i;
    int q_at1 = 0;
    q_at1 = 0;
    i = 3;
    printf("%d %d\n", a[p_at1], a[p_at1 + 1]);
    a[p_at1] = 9;
    printf("%d %d\n", a[1], a[i]);
    while (q_at1 < 4 && a[q_at1] != 4) {
        q_at1++;
    }
    printf("%d\n", a[q_at1]);
    return 0;
}
