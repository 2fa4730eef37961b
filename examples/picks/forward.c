#include <stdio.h>
#include <mpi.h>
/* Rank 0 sends to rank 2 and then to rank 1, which forwards it to rank 2. Rank 2 receives twice from any source. */
int main(int argc, char **argv) {
  int rank, x = 0, first = 0, second = 0;
  MPI_Status status;
  MPI_Init(&argc, &argv);
  MPI_Comm_rank(MPI_COMM_WORLD, &rank);
  if (rank == 0) {
    x = 10;
    MPI_Send(&x, 1, MPI_INT, 2, 1, MPI_COMM_WORLD);
    MPI_Send(&x, 1, MPI_INT, 1, 1, MPI_COMM_WORLD);
  } else if (rank == 1) {
    MPI_Recv(&x, 1, MPI_INT, 0, 1, MPI_COMM_WORLD, &status);
    x++;
    MPI_Send(&x, 1, MPI_INT, 2, 1, MPI_COMM_WORLD);
  } else {
    MPI_Recv(&first, 1, MPI_INT, MPI_ANY_SOURCE, 1, MPI_COMM_WORLD, &status);
    MPI_Recv(&second, 1, MPI_INT, MPI_ANY_SOURCE, 1, MPI_COMM_WORLD, &status);
    printf("%d then %d\n", first, second);
  }
  MPI_Finalize();
  return 0;
}
