#include <stdio.h>
#include <mpi.h>
#define MOST 4
/* Each collective of the language, first on all ranks and then on each half of them, in whose communicator the ranks fall. */

/* Ends a line with some ints. */
void line(int count, int values[]) {
  int i;
  for (i = 0; i < count; i++) printf(" %d", values[i]);
  printf("\n");
}

/* The ints of a rank are first, first + 1 and so on. What a rank gets only as the root is printed by the root alone. */
void collectives(MPI_Comm comm, int first) {
  int rank, size, i, last, mine[MOST], got[2 * MOST];
  MPI_Comm_rank(comm, &rank);
  MPI_Comm_size(comm, &size);
  printf("rank %d of %d\n", rank, size);
  last = size - 1;
  for (i = 0; i < size; i++) mine[i] = first + i;
  MPI_Barrier(comm);
  got[0] = first;
  MPI_Bcast(got, 1, MPI_INT, last, comm);
  printf("bcast");
  line(1, got);
  MPI_Reduce(mine, got, 2, MPI_INT, MPI_SUM, 0, comm);
  if (rank == 0) {
    printf("reduce");
    line(2, got);
  }
  MPI_Allreduce(mine, got, 2, MPI_INT, MPI_MAX, comm);
  printf("allreduce");
  line(2, got);
  MPI_Scan(mine, got, 2, MPI_INT, MPI_SUM, comm);
  printf("scan");
  line(2, got);
  MPI_Gather(mine, 2, MPI_INT, got, 2, MPI_INT, 0, comm);
  if (rank == 0) {
    printf("gather");
    line(2 * size, got);
  }
  MPI_Scatter(mine, 1, MPI_INT, got, 1, MPI_INT, last, comm);
  printf("scatter");
  line(1, got);
  MPI_Allgather(mine, 1, MPI_INT, got, 1, MPI_INT, comm);
  printf("allgather");
  line(size, got);
  MPI_Alltoall(mine, 1, MPI_INT, got, 1, MPI_INT, comm);
  printf("alltoall");
  line(size, got);
}

/* A communicator made by a dup, and one that the last rank is not in. */
void communicators(MPI_Comm half, int rank, int first) {
  int sum;
  MPI_Comm twin = MPI_COMM_NULL, three;
  MPI_Comm_dup(half, &twin);
  printf("twin is half %d, is null %d\n", twin == half, twin == MPI_COMM_NULL);
  MPI_Allreduce(&first, &sum, 1, MPI_INT, MPI_SUM, twin);
  printf("twin sum %d\n", sum);
  MPI_Comm_free(&twin);
  printf("twin is null %d\n", twin == MPI_COMM_NULL);
  MPI_Comm_split(MPI_COMM_WORLD, rank == 3 ? MPI_UNDEFINED : 0, rank, &three);
  if (three == MPI_COMM_NULL) {
    printf("not in three\n");
  } else {
    MPI_Scan(&first, &sum, 1, MPI_INT, MPI_SUM, three);
    printf("three scan %d\n", sum);
  }
}

int main(int argc, char **argv) {
  int rank, first;
  MPI_Comm half;
  MPI_Init(&argc, &argv);
  MPI_Comm_rank(MPI_COMM_WORLD, &rank);
  first = 10 * (rank + 1);
  collectives(MPI_COMM_WORLD, first);
  MPI_Comm_split(MPI_COMM_WORLD, rank / 2, -rank, &half);
  collectives(half, first);
  communicators(half, rank, first);
  MPI_Finalize();
  return 0;
}
