#include <stdio.h>
#include <mpi.h>
/* Rank 1 freed its communicator, and enters a barrier on it. */
int main(void) {
  int rank;
  MPI_Comm twin;
  MPI_Init(NULL, NULL);
  MPI_Comm_rank(MPI_COMM_WORLD, &rank);
  MPI_Comm_dup(MPI_COMM_WORLD, &twin);
  if (rank == 1) MPI_Comm_free(&twin);
  MPI_Barrier(twin);
  printf("rank %d goes on\n", rank);
  MPI_Finalize();
  return 0;
}
