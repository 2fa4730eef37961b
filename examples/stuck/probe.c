#include <mpi.h>

/* Rank 0 looks for a message of another tag than the one that rank 1 sends. */
int main(void) {
  int rank, x = 7;
  MPI_Status status;
  MPI_Comm_rank(MPI_COMM_WORLD, &rank);
  if (rank == 0) {
    MPI_Probe(MPI_ANY_SOURCE, 5, MPI_COMM_WORLD, &status);
    MPI_Recv(&x, 1, MPI_INT, status.MPI_SOURCE, 5, MPI_COMM_WORLD, MPI_STATUS_IGNORE);
  }
  if (rank == 1) MPI_Send(&x, 1, MPI_INT, 0, 6, MPI_COMM_WORLD);
  return 0;
}
