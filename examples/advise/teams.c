#include <stdio.h>
#include <mpi.h>
#define TEAM 3
#define N 8
/* Two teams of three ranks. In a team each rank gets the block of the one before it; then the first team tells the second one sum. */
int main(int argc, char **argv) {
  int rank, first, i, other, sum = 0, mine[N], theirs[N];
  MPI_Init(&argc, &argv);
  MPI_Comm_rank(MPI_COMM_WORLD, &rank);
  first = rank - rank % TEAM;
  for (i = 0; i < N; i++) mine[i] = rank + i;
  MPI_Send(mine, N, MPI_INT, first + (rank + 1) % TEAM, 1, MPI_COMM_WORLD);
  MPI_Recv(theirs, N, MPI_INT, first + (rank + 2) % TEAM, 1, MPI_COMM_WORLD, MPI_STATUS_IGNORE);
  for (i = 0; i < N; i++) sum += theirs[i];
  if (rank == TEAM - 1) MPI_Send(&sum, 1, MPI_INT, TEAM, 2, MPI_COMM_WORLD);
  if (rank == TEAM) {
    MPI_Recv(&other, 1, MPI_INT, TEAM - 1, 2, MPI_COMM_WORLD, MPI_STATUS_IGNORE);
    printf("sum %d\n", sum + other);
  }
  MPI_Finalize();
  return 0;
}
