#include <stdio.h>
#include <mpi.h>
/* The root of a scatter sends another number of ints than each rank receives. */
int main(void) {
  int rank, x, all[4];
  MPI_Init(NULL, NULL);
  MPI_Comm_rank(MPI_COMM_WORLD, &rank);
  MPI_Scatter(all, 2, MPI_INT, &x, 1, MPI_INT, 0, MPI_COMM_WORLD);
  printf("rank %d goes on\n", rank);
  MPI_Finalize();
  return 0;
}
