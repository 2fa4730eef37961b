/* Made from input.c for 1 ranks, by
   adapt/adapt.py input.c --ranks 1 */
int f(int late[])
{
    return late[0];
}

int main(void)
{
    int g;
    int late[1];
    int n = 3;
    int a[10];
    int w1 = f(late);
    printf("%d %d\n", g, w1);
    g = 5;
    late[0] = 6;
    n = 4;
    for (int i = 0; i < n; i++) {
        a[i] = i * 7;
    }
    int w2 = f(late);
    printf("%d %d %d %d\n", n, a[n - 1], g, w2);
    printf("four\n");
    return 0;
}
