#include <stdio.h>
#include <mpi.h>
/* Each rank of a pair sends its neighbour some squares. Rank 0 takes a greeting of each other rank, from whoever comes first, and all add up. */
int main(int argc, char **argv) {
  int rank, other, from, i, sum = 0, all;
  int mine[8], theirs[8];
  MPI_Status status;
  MPI_Init(&argc, &argv);
  MPI_Comm_rank(MPI_COMM_WORLD, &rank);
  other = rank % 2 == 0 ? rank + 1 : rank - 1;
  for (i = 0; i < 8; i++) mine[i] = (rank + i) * (rank + i);
  MPI_Sendrecv(mine, 8, MPI_INT, other, 1, theirs, 8, MPI_INT, other, 1, MPI_COMM_WORLD, &status);
  for (i = 0; i < 8; i++) sum += theirs[i];
  if (rank == 0) {
    for (i = 1; i < 4; i++) {
      MPI_Recv(&from, 1, MPI_INT, MPI_ANY_SOURCE, 2, MPI_COMM_WORLD, &status);
      sum = sum * 2 + from;
    }
  } else {
    MPI_Send(&rank, 1, MPI_INT, 0, 2, MPI_COMM_WORLD);
  }
  MPI_Allreduce(&sum, &all, 1, MPI_INT, MPI_SUM, MPI_COMM_WORLD);
  printf("sum %d of %d\n", sum, all);
  MPI_Finalize();
  return 0;
}
