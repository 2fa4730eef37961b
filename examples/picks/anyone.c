#include <stdio.h>
#include <mpi.h>
/* Ranks 1 and 2 send their numbers to rank 0, which completes whichever receive is ready. */
int main(int argc, char **argv) {
  int rank, index, came[2];
  MPI_Request requests[2];
  MPI_Status status;
  MPI_Init(&argc, &argv);
  MPI_Comm_rank(MPI_COMM_WORLD, &rank);
  if (rank == 0) {
    MPI_Irecv(&came[0], 1, MPI_INT, 1, 1, MPI_COMM_WORLD, &requests[0]);
    MPI_Irecv(&came[1], 1, MPI_INT, 2, 1, MPI_COMM_WORLD, &requests[1]);
    MPI_Waitany(2, requests, &index, &status);
    printf("first %d\n", came[index]);
    MPI_Waitany(2, requests, &index, &status);
    printf("then %d\n", came[index]);
  } else {
    MPI_Send(&rank, 1, MPI_INT, 0, 1, MPI_COMM_WORLD);
  }
  MPI_Finalize();
  return 0;
}
