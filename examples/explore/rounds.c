#include <stdio.h>
#include <mpi.h>
/* Three times each rank sends its number to the next one, and prints that of the one before. */
int main(void) {
  int rank, size, got, round;
  MPI_Comm_rank(MPI_COMM_WORLD, &rank);
  MPI_Comm_size(MPI_COMM_WORLD, &size);
  for (round = 0; round < 3; round++) {
    MPI_Send(&rank, 1, MPI_INT, (rank + 1) % size, 1, MPI_COMM_WORLD);
    MPI_Recv(&got, 1, MPI_INT, (rank + size - 1) % size, 1, MPI_COMM_WORLD, MPI_STATUS_IGNORE);
    printf("%d\n", got);
  }
  return 0;
}
