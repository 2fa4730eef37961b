#include <stdio.h>
#include <mpi.h>
/* What does not matter is not checked: away from the root, what a reduce and a gather give there, and what a scatter sends. */
int main(void) {
  int rank, sum, mine, all[2], tens[2] = {10, 20};
  MPI_Init(NULL, NULL);
  MPI_Comm_rank(MPI_COMM_WORLD, &rank);
  if (rank == 0) {
    MPI_Reduce(&rank, &sum, 1, MPI_INT, MPI_SUM, 0, MPI_COMM_WORLD);
    MPI_Gather(&rank, 1, MPI_INT, all, 1, MPI_INT, 0, MPI_COMM_WORLD);
    MPI_Scatter(tens, 1, MPI_INT, &mine, 1, MPI_INT, 0, MPI_COMM_WORLD);
    printf("sum %d, all %d %d\n", sum, all[0], all[1]);
  } else {
    MPI_Reduce(&rank, NULL, 1, MPI_INT, MPI_SUM, 0, MPI_COMM_WORLD);
    MPI_Gather(&rank, 1, MPI_INT, NULL, -1, MPI_INT, 0, MPI_COMM_WORLD);
    MPI_Scatter(NULL, -1, MPI_INT, &mine, 1, MPI_INT, 0, MPI_COMM_WORLD);
  }
  printf("rank %d has %d\n", rank, mine);
  MPI_Finalize();
  return 0;
}
