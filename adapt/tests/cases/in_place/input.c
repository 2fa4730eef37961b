#include <mpi.h>
#include <stdio.h>
int main(int argc, char **argv)
{
    int rank, size, v[3] = {0}, s = 2, w;
    MPI_Init(&argc, &argv);
    MPI_Comm_rank(MPI_COMM_WORLD, &rank);
    MPI_Comm_size(MPI_COMM_WORLD, &size);
    int all[size], twice[size][2];
    v[rank] = rank + 1;
    MPI_Allgather(MPI_IN_PLACE, 0, MPI_DATATYPE_NULL, v, 1, MPI_INT,
                  MPI_COMM_WORLD);
    printf("%d %d %d\n", v[0], v[1], v[2]);
    MPI_Allreduce(MPI_IN_PLACE, v, 3, MPI_INT, MPI_SUM, MPI_COMM_WORLD);
    printf("%d\n", v[2]);
    MPI_Exscan(&s, &w, 1, MPI_INT, MPI_SUM, MPI_COMM_WORLD);
    if (rank > 0)
        printf("%d\n", w);
    MPI_Sendrecv_replace(&rank, 1, MPI_INT, (rank + 1) % size, 0,
                         (rank + size - 1) % size, 0, MPI_COMM_WORLD,
                         MPI_STATUS_IGNORE);
    printf("%d\n", rank);
    for (int i = 0; i < size; i++) {
        all[i] = i;
        twice[i][0] = twice[i][1] = all[i] * 2;
    }
    printf("%d\n", twice[size - 1][1]);
    MPI_Finalize();
    return 0;
}
