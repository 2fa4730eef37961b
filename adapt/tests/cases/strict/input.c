#include <mpi.h>
#include <stdio.h>
int main(int argc, char **argv)
{
    char c = 'x';
    MPI_Init(&argc, &argv);
    MPI_Bcast(&c, 1, MPI_CHAR, 0, MPI_COMM_WORLD);
    printf("%d\n", c);
    MPI_Finalize();
    return 0;
}
