#include <mpi.h>
#include <stdio.h>

int main(int argc, char **argv)
{
    int rank, total;
    MPI_Init(&argc, &argv);
    MPI_Comm_rank(MPI_COMM_WORLD, &rank);
    total = rank * 10;
    printf("%d\n", totl);
    MPI_Finalize();
    return 0;
}
