#include <stdio.h>
#include <mpi.h>
/* Rank 0 takes a message from anyone, and then one from rank 2. */
int main(void) {
  int rank, one, other;
  MPI_Comm_rank(MPI_COMM_WORLD, &rank);
  if (rank > 0) {
    MPI_Send(&rank, 1, MPI_INT, 0, 5, MPI_COMM_WORLD);
  } else {
    MPI_Recv(&one, 1, MPI_INT, MPI_ANY_SOURCE, 5, MPI_COMM_WORLD, MPI_STATUS_IGNORE);
    MPI_Recv(&other, 1, MPI_INT, 2, 5, MPI_COMM_WORLD, MPI_STATUS_IGNORE);
    printf("%d and %d\n", one, other);
  }
  return 0;
}
