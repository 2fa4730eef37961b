/* Made from input.c for 1 ranks, by
   adapt/adapt.py input.c --ranks 1 */
int count(int n[])
{
    int w1 = n[0];
    n[0]++;
    return w1;
}

int main(void)
{
    int n[1] = {10};
    int k;
    int here;
    MPI_Status s;
    for (int i = 0; i < 2; i++) {
        here++;
        int w1 = count(n);
        printf("%d %d\n", w1, here);
        {
            k += 3;
            printf("%d\n", k);
        }
    }
    return 0;
}
