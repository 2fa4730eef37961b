#include <stdio.h>
#include <mpi.h>
/* Rank 1 enters a broadcast whose root is not there. */
int main(void) {
  int rank, x = 7;
  MPI_Init(NULL, NULL);
  MPI_Comm_rank(MPI_COMM_WORLD, &rank);
  if (rank == 1) MPI_Bcast(&x, 1, MPI_INT, 2, MPI_COMM_WORLD);
  printf("rank %d goes on\n", rank);
  MPI_Finalize();
  return 0;
}
