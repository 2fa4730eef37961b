#include <stdio.h>
#include <mpi.h>
/* The root of a scatter has one piece of two. */
int main(void) {
  int rank, x, all[1];
  MPI_Init(NULL, NULL);
  MPI_Comm_rank(MPI_COMM_WORLD, &rank);
  MPI_Scatter(all, 1, MPI_INT, &x, 1, MPI_INT, 0, MPI_COMM_WORLD);
  printf("rank %d goes on\n", rank);
  MPI_Finalize();
  return 0;
}
