#include <stdio.h>
#include <mpi.h>
/* Rank 1 completes a receive into a variable whose block has ended. */
int main(void) {
  int rank;
  MPI_Request request;
  MPI_Init(NULL, NULL);
  MPI_Comm_rank(MPI_COMM_WORLD, &rank);
  if (rank == 0) MPI_Send(&rank, 1, MPI_INT, 1, 5, MPI_COMM_WORLD);
  if (rank == 1) {
    {
      int x;
      MPI_Irecv(&x, 1, MPI_INT, 0, 5, MPI_COMM_WORLD, &request);
    }
    MPI_Wait(&request, MPI_STATUS_IGNORE);
  }
  printf("rank %d goes on\n", rank);
  MPI_Finalize();
  return 0;
}
