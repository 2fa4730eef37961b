/* Calls whose work is not done here, or that give what is not there. */
#include <mpi.h>
#include <stdio.h>
#include <stdlib.h>
#include <unistd.h>

int main(int argc, char **argv)
{
    char name[MPI_MAX_OBJECT_NAME];
    int length = 7, size = 0, rank, got;
    char *buffer = malloc(1000);

    MPI_Init(&argc, &argv);
    alarm(60);
    MPI_Comm_rank(MPI_COMM_WORLD, &rank);
    MPI_Comm_get_name(MPI_COMM_WORLD, name, &length);
    MPI_Buffer_attach(buffer, 1000);
    if (rank == 0) {
        MPI_Bsend(&rank, 1, MPI_INT, 1, 0, MPI_COMM_WORLD);
    } else if (rank == 1) {
        MPI_Recv(&got, 1, MPI_INT, 0, 0, MPI_COMM_WORLD, MPI_STATUS_IGNORE);
        printf("got %d\n", got);
    }
    MPI_Buffer_detach(&buffer, &size);
    free(buffer);
    printf("%d %d\n", length, size);
    MPI_Finalize();
    return 0;
}
