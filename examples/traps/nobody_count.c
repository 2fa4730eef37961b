#include <stdio.h>
#include <mpi.h>
/* Rank 0 sends to nobody, with a bad count: what goes to MPI_PROC_NULL is checked as any send. */
int main(void) {
  int rank, x = 7;
  MPI_Init(NULL, NULL);
  MPI_Comm_rank(MPI_COMM_WORLD, &rank);
  if (rank == 0) MPI_Send(&x, 65537, MPI_INT, MPI_PROC_NULL, 5, MPI_COMM_WORLD);
  printf("rank %d goes on\n", rank);
  MPI_Finalize();
  return 0;
}
