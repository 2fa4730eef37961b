#include <stdio.h>
#include <mpi.h>
/* Rank 1 has one int for a reduction of two. */
int main(void) {
  int rank, all[2];
  MPI_Init(NULL, NULL);
  MPI_Comm_rank(MPI_COMM_WORLD, &rank);
  MPI_Allreduce(&rank, all, rank + 1, MPI_INT, MPI_SUM, MPI_COMM_WORLD);
  printf("rank %d goes on\n", rank);
  MPI_Finalize();
  return 0;
}
