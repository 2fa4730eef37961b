#include <mpi.h>
#include <stdio.h>
struct pair { int a, b; };
int main(int argc, char **argv)
{
    struct pair p;
    double d = 0.5;
    int i = 0, *q = &i, a[3];
    MPI_Datatype t;
    MPI_Request r;
    p.a = 1;
    d = d / 2;
    goto out;
    q = a;
    MPI_Type_vector(2, 1, 2, MPI_INT, &t);
    MPI_Send(&i, 1, t, 0, 0, MPI_COMM_WORLD);
    MPI_Ibarrier(MPI_COMM_WORLD, &r);
    MPI_Send("text", 4, MPI_CHAR, 0, 0, MPI_COMM_WORLD);
    printf("%*d %+d\n", i, i, i);
    rand();
    p.b = 2;
out:
    return 0;
}
