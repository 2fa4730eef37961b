#include <stdio.h>
#include <mpi.h>
#define MESSAGES 200000
/* Rank 1 sends messages with rising tags, and rank 0 receives them by falling ones: each receive is for the message that was sent last. */
int main(int argc, char **argv) {
  int rank, i, got, sum = 0;
  MPI_Init(&argc, &argv);
  MPI_Comm_rank(MPI_COMM_WORLD, &rank);
  if (rank == 1) {
    for (i = 0; i < MESSAGES; i++) MPI_Send(&i, 1, MPI_INT, 0, i, MPI_COMM_WORLD);
  } else {
    for (i = MESSAGES - 1; i >= 0; i--) {
      MPI_Recv(&got, 1, MPI_INT, 1, i, MPI_COMM_WORLD, MPI_STATUS_IGNORE);
      sum += got;
    }
    printf("%d\n", sum);
  }
  MPI_Finalize();
  return 0;
}
