#include <stdio.h>
#include <mpi.h>
/* Rank 1 enters a reduce whose root is nobody: only a message may go there. */
int main(void) {
  int rank, sum;
  MPI_Init(NULL, NULL);
  MPI_Comm_rank(MPI_COMM_WORLD, &rank);
  if (rank == 1) MPI_Reduce(&rank, &sum, 1, MPI_INT, MPI_SUM, MPI_PROC_NULL, MPI_COMM_WORLD);
  printf("rank %d goes on\n", rank);
  MPI_Finalize();
  return 0;
}
