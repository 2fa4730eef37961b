#include <stdio.h>
#include <mpi.h>
/* Rank 1 enters a broadcast of more ints than a message may have. */
int main(void) {
  int rank, x[1];
  MPI_Init(NULL, NULL);
  MPI_Comm_rank(MPI_COMM_WORLD, &rank);
  if (rank == 1) MPI_Bcast(x, 65537, MPI_INT, 0, MPI_COMM_WORLD);
  printf("rank %d goes on\n", rank);
  MPI_Finalize();
  return 0;
}
