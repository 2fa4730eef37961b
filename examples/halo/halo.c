#include <stdio.h>
#include <mpi.h>
#define CELLS 4
#define TURNS 2
/* A row of cells, CELLS a rank: each becomes the sum of itself and its neighbours, on a ring of ranks. */
int main(void) {
  int rank, size, left, right, turn, i, row[CELLS + 2], next[CELLS];
  MPI_Request request[4];
  MPI_Comm_rank(MPI_COMM_WORLD, &rank);
  MPI_Comm_size(MPI_COMM_WORLD, &size);
  left = (rank + size - 1) % size;
  right = (rank + 1) % size;
  for (i = 1; i <= CELLS; i++) row[i] = rank * CELLS + i;
  for (turn = 0; turn < TURNS; turn++) {
    MPI_Irecv(&row[0], 1, MPI_INT, left, 1, MPI_COMM_WORLD, &request[0]);
    MPI_Irecv(&row[CELLS + 1], 1, MPI_INT, right, 2, MPI_COMM_WORLD, &request[1]);
    MPI_Isend(&row[CELLS], 1, MPI_INT, right, 1, MPI_COMM_WORLD, &request[2]);
    MPI_Isend(&row[1], 1, MPI_INT, left, 2, MPI_COMM_WORLD, &request[3]);
    MPI_Waitall(4, request, MPI_STATUSES_IGNORE);
    for (i = 1; i <= CELLS; i++) next[i - 1] = row[i - 1] + row[i] + row[i + 1];
    for (i = 1; i <= CELLS; i++) row[i] = next[i - 1];
  }
  printf("rank %d:", rank);
  for (i = 1; i <= CELLS; i++) printf(" %d", row[i]);
  printf("\n");
  return 0;
}
