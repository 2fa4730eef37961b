#include <mpi.h>
#include <stdio.h>
int main(int argc, char **argv)
{
    int rank;
    char got[6];
    MPI_Status s;
    MPI_Init(&argc, &argv);
    MPI_Comm_rank(MPI_COMM_WORLD, &rank);
    s.MPI_TAG = 9;
    if (rank == 0)
        MPI_Send("hello", 6, MPI_CHAR, 1, 4, MPI_COMM_WORLD);
    else {
        MPI_Recv(got, 6, MPI_CHAR, 0, 4, MPI_COMM_WORLD, &s);
        printf("%d %d %d %d\n", got[0], got[4], got[5], s.MPI_TAG);
    }
    MPI_Finalize();
    return 0;
}
