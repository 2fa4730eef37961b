#include <stdio.h>
#include <mpi.h>
/* Rank 1 has no room for what a scan gives. */
int main(void) {
  int rank, sum[1];
  MPI_Init(NULL, NULL);
  MPI_Comm_rank(MPI_COMM_WORLD, &rank);
  MPI_Scan(&rank, sum + rank, 1, MPI_INT, MPI_SUM, MPI_COMM_WORLD);
  printf("rank %d goes on\n", rank);
  MPI_Finalize();
  return 0;
}
