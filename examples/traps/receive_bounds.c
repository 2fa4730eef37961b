#include <stdio.h>
#include <mpi.h>
/* Rank 1 has room for one int, and says two. */
int main(void) {
  int rank, x[1];
  MPI_Init(NULL, NULL);
  MPI_Comm_rank(MPI_COMM_WORLD, &rank);
  if (rank == 1) MPI_Recv(x, 2, MPI_INT, 0, 5, MPI_COMM_WORLD, MPI_STATUS_IGNORE);
  printf("rank %d goes on\n", rank);
  MPI_Finalize();
  return 0;
}
