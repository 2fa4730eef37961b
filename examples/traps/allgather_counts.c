#include <stdio.h>
#include <mpi.h>
/* Rank 1 receives another number of ints than each rank sends. */
int main(void) {
  int rank, all[4];
  MPI_Init(NULL, NULL);
  MPI_Comm_rank(MPI_COMM_WORLD, &rank);
  MPI_Allgather(&rank, 1, MPI_INT, all, 1 + rank, MPI_INT, MPI_COMM_WORLD);
  printf("rank %d goes on\n", rank);
  MPI_Finalize();
  return 0;
}
