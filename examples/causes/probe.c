#include <stdio.h>
#include <mpi.h>
/* Rank 0 sends after it has seen a message of rank 2, which it does not receive. */
int main(void) {
  int rank, x = 0;
  MPI_Status status;
  MPI_Init(NULL, NULL);
  MPI_Comm_rank(MPI_COMM_WORLD, &rank);
  if (rank == 1) MPI_Send(&rank, 1, MPI_INT, 2, 9, MPI_COMM_WORLD);
  if (rank == 2) MPI_Recv(&x, 1, MPI_INT, MPI_ANY_SOURCE, 9, MPI_COMM_WORLD, MPI_STATUS_IGNORE);
  if (rank == 2) MPI_Send(&x, 1, MPI_INT, 0, 8, MPI_COMM_WORLD);
  if (rank == 0) MPI_Probe(2, 8, MPI_COMM_WORLD, &status);
  if (rank == 0) MPI_Send(&rank, 1, MPI_INT, 2, 9, MPI_COMM_WORLD);
  if (rank == 2) MPI_Recv(&x, 1, MPI_INT, MPI_ANY_SOURCE, 9, MPI_COMM_WORLD, MPI_STATUS_IGNORE);
  MPI_Finalize();
  return 0;
}
