#include <stdio.h>
#include <mpi.h>
/* Rank 0 sends with any tag: only a receive may leave that open. */
int main(void) {
  int rank, x = 7;
  MPI_Init(NULL, NULL);
  MPI_Comm_rank(MPI_COMM_WORLD, &rank);
  if (rank == 0) MPI_Send(&x, 1, MPI_INT, 1, MPI_ANY_TAG, MPI_COMM_WORLD);
  printf("rank %d goes on\n", rank);
  MPI_Finalize();
  return 0;
}
