#include <mpi.h>
#include <stdio.h>

/* Rank 0 takes a message from anyone and then one from rank 2, which sends one alone. */
int main(void) {
  int rank, any, last;
  MPI_Comm_rank(MPI_COMM_WORLD, &rank);
  if (rank == 0) {
    MPI_Recv(&any, 1, MPI_INT, MPI_ANY_SOURCE, 1, MPI_COMM_WORLD, MPI_STATUS_IGNORE);
    MPI_Recv(&last, 1, MPI_INT, 2, 1, MPI_COMM_WORLD, MPI_STATUS_IGNORE);
    printf("%d then %d\n", any, last);
  } else
    MPI_Send(&rank, 1, MPI_INT, 0, 1, MPI_COMM_WORLD);
  return 0;
}
