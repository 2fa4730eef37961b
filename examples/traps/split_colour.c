#include <stdio.h>
#include <mpi.h>
/* Rank 1 has a colour that is below 0 and is not MPI_UNDEFINED. */
int main(void) {
  int rank;
  MPI_Comm half;
  MPI_Init(NULL, NULL);
  MPI_Comm_rank(MPI_COMM_WORLD, &rank);
  MPI_Comm_split(MPI_COMM_WORLD, -rank, 0, &half);
  printf("rank %d goes on\n", rank);
  MPI_Finalize();
  return 0;
}
