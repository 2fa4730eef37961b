/* Requests, statuses and communicators in memory that is asked for. */
#include <mpi.h>
#include <stdio.h>
#include <stdlib.h>

int main(int argc, char **argv)
{
    int rank, size, i, sum = 0;
    int got[4];
    MPI_Request *requests;
    MPI_Status *statuses;
    MPI_Comm *copies = malloc(2 * sizeof(MPI_Comm));

    MPI_Init(&argc, &argv);
    MPI_Comm_rank(MPI_COMM_WORLD, &rank);
    MPI_Comm_size(MPI_COMM_WORLD, &size);
    requests = malloc(2 * 4 * sizeof(MPI_Request));
    statuses = (MPI_Status *) malloc(2 * 4 * sizeof(*statuses));
    for (i = 0; i < 2; i++)
        MPI_Comm_dup(MPI_COMM_WORLD, &copies[i]);
    for (i = 0; i < size; i++) {
        MPI_Irecv(&got[i], 1, MPI_INT, i, 5, copies[1], &requests[i]);
        MPI_Isend(&rank, 1, MPI_INT, i, 5, copies[1], requests + size + i);
    }
    MPI_Waitall(2 * size, requests, statuses);
    for (i = 0; i < size; i++)
        sum += got[i] + statuses[i].MPI_TAG;
    printf("%d: %d\n", rank, sum);
    for (i = 0; i < 2; i++)
        MPI_Comm_free(copies + i);
    free(requests);
    free(statuses);
    free(copies);
    MPI_Finalize();
    return 0;
}
