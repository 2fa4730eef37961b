#include <mpi.h>
#include <stdio.h>
static int count(void)
{
    static int n = 10;
    return n++;
}
static void put(MPI_Status *s)
{
    static int k;
    k += 3;
    printf("%d\n", k);
}
int main(void)
{
    MPI_Status s;
    for (int i = 0; i < 2; i++) {
        static int here;
        here++;
        printf("%d %d\n", count(), here);
        put(&s);
    }
    return 0;
}
