#include <stdio.h>
#include <mpi.h>
/* The root of a gather receives another number of ints than each rank sends. */
int main(void) {
  int rank, all[4];
  MPI_Init(NULL, NULL);
  MPI_Comm_rank(MPI_COMM_WORLD, &rank);
  MPI_Gather(&rank, 1, MPI_INT, all, 2, MPI_INT, 0, MPI_COMM_WORLD);
  printf("rank %d goes on\n", rank);
  MPI_Finalize();
  return 0;
}
