#include <stdio.h>
#include <mpi.h>
/* Rank 1 has one piece to send to two ranks. */
int main(void) {
  int rank, some[2], all[2];
  MPI_Init(NULL, NULL);
  MPI_Comm_rank(MPI_COMM_WORLD, &rank);
  MPI_Alltoall(some + rank, 1, MPI_INT, all, 1, MPI_INT, MPI_COMM_WORLD);
  printf("rank %d goes on\n", rank);
  MPI_Finalize();
  return 0;
}
