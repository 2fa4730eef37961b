#include <mpi.h>
#include <stdio.h>
/* The arguments of an init are those of its call, whatever they are later. */
int main(int argc, char **argv)
{
    int rank, to, tag = 4, count = 2, v[3] = {1, 2, 3}, w[3] = {0, 0, 0};
    MPI_Request r, many[2];
    MPI_Status s;
    MPI_Init(&argc, &argv);
    MPI_Comm_rank(MPI_COMM_WORLD, &rank);
    to = 1 - rank;
    if (rank == 0)
        MPI_Send_init(v, count, MPI_INT, to, tag, MPI_COMM_WORLD, &r);
    else
        MPI_Recv_init(w, count, MPI_INT, to, tag, MPI_COMM_WORLD, &r);
    to = 7;
    tag = 99;
    count = 0;
    for (int turn = 0; turn < 2; turn++) {
        v[0] = 10 + turn;
        MPI_Start(&r);
        MPI_Wait(&r, &s);
        printf("%d %d\n", w[0], w[1]);
    }
    if (r != MPI_REQUEST_NULL)
        MPI_Request_free(&r);
    printf("%d\n", r == MPI_REQUEST_NULL);
    for (int i = 0; i < 2; i++) {
        if (rank == 0)
            MPI_Recv_init(&w[i], 1, MPI_INT, 1, i, MPI_COMM_WORLD, &many[i]);
        else
            MPI_Ssend_init(&v[i], 1, MPI_INT, 0, i, MPI_COMM_WORLD, &many[i]);
    }
    MPI_Startall(2, many);
    MPI_Waitall(2, many, MPI_STATUSES_IGNORE);
    printf("%d %d\n", w[0], w[1]);
    MPI_Finalize();
    return 0;
}
