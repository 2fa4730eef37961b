#include <mpi.h>

/* Rank 2 never enters the barrier: it waits for a message of rank 0, which is in it. */
int main(void) {
  int rank, x = 0;
  MPI_Comm_rank(MPI_COMM_WORLD, &rank);
  if (rank == 2) MPI_Recv(&x, 1, MPI_INT, 0, 1, MPI_COMM_WORLD, MPI_STATUS_IGNORE);
  MPI_Barrier(MPI_COMM_WORLD);
  if (rank == 0) MPI_Send(&x, 1, MPI_INT, 2, 1, MPI_COMM_WORLD);
  return 0;
}
