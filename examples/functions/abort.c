#include <stdio.h>
#include <mpi.h>
/* The last rank aborts with a code, while the others wait for it. */
int main(void) {
  int rank, size;
  MPI_Init(NULL, NULL);
  MPI_Comm_rank(MPI_COMM_WORLD, &rank);
  MPI_Comm_size(MPI_COMM_WORLD, &size);
  printf("rank %d begins\n", rank);
  fflush(stdout);
  if (rank == size - 1) MPI_Abort(MPI_COMM_WORLD, 5);
  MPI_Barrier(MPI_COMM_WORLD);
  printf("rank %d goes on\n", rank);
  MPI_Finalize();
  return 0;
}
