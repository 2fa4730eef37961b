#include <stdio.h>
#include <mpi.h>
/* Rank 0 sends two ints of a buffer of one. */
int main(void) {
  int rank, x[1];
  MPI_Init(NULL, NULL);
  MPI_Comm_rank(MPI_COMM_WORLD, &rank);
  x[0] = 7;
  if (rank == 0) MPI_Send(x, 2, MPI_INT, 1, 5, MPI_COMM_WORLD);
  printf("rank %d goes on\n", rank);
  MPI_Finalize();
  return 0;
}
