#include <mpi.h>
/* 1,400 messages: too many for a picture. */
int main(void) {
  int rank, i, x = 0;
  MPI_Comm_rank(MPI_COMM_WORLD, &rank);
  for (i = 0; i < 1400; i++)
    if (rank == 0)
      MPI_Send(&x, 1, MPI_INT, 1, 1, MPI_COMM_WORLD);
    else
      MPI_Recv(&x, 1, MPI_INT, 0, 1, MPI_COMM_WORLD, MPI_STATUS_IGNORE);
  return 0;
}
