#include <stdio.h>
#include <mpi.h>
/* Rank 1 receives from a rank that is not there. */
int main(void) {
  int rank, x;
  MPI_Init(NULL, NULL);
  MPI_Comm_rank(MPI_COMM_WORLD, &rank);
  if (rank == 1) MPI_Recv(&x, 1, MPI_INT, -3, 5, MPI_COMM_WORLD, MPI_STATUS_IGNORE);
  printf("rank %d goes on\n", rank);
  MPI_Finalize();
  return 0;
}
