#include <stdio.h>
#include <mpi.h>
/* Rank 0 has no colour in a split and needs only itself: its send may come before the first receive. */
int main(void) {
  int rank, x = 0;
  MPI_Comm some;
  MPI_Init(NULL, NULL);
  MPI_Comm_rank(MPI_COMM_WORLD, &rank);
  if (rank == 1) MPI_Send(&rank, 1, MPI_INT, 2, 9, MPI_COMM_WORLD);
  if (rank == 2) MPI_Recv(&x, 1, MPI_INT, MPI_ANY_SOURCE, 9, MPI_COMM_WORLD, MPI_STATUS_IGNORE);
  MPI_Comm_split(MPI_COMM_WORLD, rank == 0 ? MPI_UNDEFINED : 0, rank, &some);
  if (rank == 0) MPI_Send(&rank, 1, MPI_INT, 2, 9, MPI_COMM_WORLD);
  if (rank == 2) MPI_Recv(&x, 1, MPI_INT, MPI_ANY_SOURCE, 9, MPI_COMM_WORLD, MPI_STATUS_IGNORE);
  MPI_Finalize();
  return 0;
}
