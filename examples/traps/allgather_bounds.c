#include <stdio.h>
#include <mpi.h>
/* Rank 1 has room for one piece of two. */
int main(void) {
  int rank, all[2];
  MPI_Init(NULL, NULL);
  MPI_Comm_rank(MPI_COMM_WORLD, &rank);
  MPI_Allgather(&rank, 1, MPI_INT, all + rank, 1, MPI_INT, MPI_COMM_WORLD);
  printf("rank %d goes on\n", rank);
  MPI_Finalize();
  return 0;
}
