#include <mpi.h>
#include <stdio.h>
int main(int argc, char **argv)
{
    int rank, v[8] = {1, 2, 3, 4, 5, 6, 7, 8}, bytes;
    MPI_Datatype pair, mine = MPI_INT;
    MPI_Op op = MPI_SUM;
    MPI_Init(&argc, &argv);
    MPI_Comm_rank(MPI_COMM_WORLD, &rank);
    MPI_Type_contiguous(2, MPI_INT, &pair);
    MPI_Type_commit(&pair);
    if (rank == 0)
        v[1] = v[3] = 0;
    MPI_Bcast(v, 2, pair, 1, MPI_COMM_WORLD);
    printf("%d %d\n", v[1], v[3]);
    MPI_Type_size(pair, &bytes);
    MPI_Bcast(v, 4 * sizeof(int), MPI_BYTE, 0, MPI_COMM_WORLD);
    if (rank)
        op = MPI_MAX;
    op = MPI_MAX;
    MPI_Allreduce(&rank, &bytes, 1, mine, op, MPI_COMM_WORLD);
    printf("%d\n", bytes);
    MPI_Type_free(&pair);
    MPI_Finalize();
    return 0;
}
