#include <stdio.h>
#include <limits.h>
#include <mpi.h>
#define RANKS 3
#define COUNT 12
/* Each reduction operation by a reduce, an allreduce and a scan of three ranks' ints, on the values at which it could go wrong: a line of
   the table has the ints of a rank, a column those that meet. */

/* Ends a line with some ints. */
void line(int values[]) {
  int i;
  for (i = 0; i < COUNT; i++) printf(" %d", values[i]);
  printf("\n");
}

int main(int argc, char **argv) {
  int rank, i, mine[COUNT], got[COUNT];
  int table[RANKS * COUNT] = {
    0, 1, -1, 2, 0, 6, 0, INT_MAX, INT_MAX, INT_MIN, INT_MIN, INT_MAX,
    0, 1, -1, 0, 5, 3, -1, 1, INT_MAX, -1, INT_MIN, INT_MIN,
    0, 1, -1, 1, 0, 0, INT_MAX, 0, 3, 1, INT_MIN, -1
  };
  MPI_Init(&argc, &argv);
  MPI_Comm_rank(MPI_COMM_WORLD, &rank);
  for (i = 0; i < COUNT; i++) mine[i] = table[rank * COUNT + i];

  MPI_Reduce(mine, got, COUNT, MPI_INT, MPI_MAX, 0, MPI_COMM_WORLD);
  if (rank == 0) {
    printf("max reduce");
    line(got);
  }
  MPI_Allreduce(mine, got, COUNT, MPI_INT, MPI_MAX, MPI_COMM_WORLD);
  printf("max allreduce");
  line(got);
  MPI_Scan(mine, got, COUNT, MPI_INT, MPI_MAX, MPI_COMM_WORLD);
  printf("max scan");
  line(got);

  MPI_Reduce(mine, got, COUNT, MPI_INT, MPI_MIN, 0, MPI_COMM_WORLD);
  if (rank == 0) {
    printf("min reduce");
    line(got);
  }
  MPI_Allreduce(mine, got, COUNT, MPI_INT, MPI_MIN, MPI_COMM_WORLD);
  printf("min allreduce");
  line(got);
  MPI_Scan(mine, got, COUNT, MPI_INT, MPI_MIN, MPI_COMM_WORLD);
  printf("min scan");
  line(got);

  MPI_Reduce(mine, got, COUNT, MPI_INT, MPI_SUM, 0, MPI_COMM_WORLD);
  if (rank == 0) {
    printf("sum reduce");
    line(got);
  }
  MPI_Allreduce(mine, got, COUNT, MPI_INT, MPI_SUM, MPI_COMM_WORLD);
  printf("sum allreduce");
  line(got);
  MPI_Scan(mine, got, COUNT, MPI_INT, MPI_SUM, MPI_COMM_WORLD);
  printf("sum scan");
  line(got);

  MPI_Reduce(mine, got, COUNT, MPI_INT, MPI_PROD, 0, MPI_COMM_WORLD);
  if (rank == 0) {
    printf("prod reduce");
    line(got);
  }
  MPI_Allreduce(mine, got, COUNT, MPI_INT, MPI_PROD, MPI_COMM_WORLD);
  printf("prod allreduce");
  line(got);
  MPI_Scan(mine, got, COUNT, MPI_INT, MPI_PROD, MPI_COMM_WORLD);
  printf("prod scan");
  line(got);

  MPI_Reduce(mine, got, COUNT, MPI_INT, MPI_LAND, 0, MPI_COMM_WORLD);
  if (rank == 0) {
    printf("land reduce");
    line(got);
  }
  MPI_Allreduce(mine, got, COUNT, MPI_INT, MPI_LAND, MPI_COMM_WORLD);
  printf("land allreduce");
  line(got);
  MPI_Scan(mine, got, COUNT, MPI_INT, MPI_LAND, MPI_COMM_WORLD);
  printf("land scan");
  line(got);

  MPI_Reduce(mine, got, COUNT, MPI_INT, MPI_BAND, 0, MPI_COMM_WORLD);
  if (rank == 0) {
    printf("band reduce");
    line(got);
  }
  MPI_Allreduce(mine, got, COUNT, MPI_INT, MPI_BAND, MPI_COMM_WORLD);
  printf("band allreduce");
  line(got);
  MPI_Scan(mine, got, COUNT, MPI_INT, MPI_BAND, MPI_COMM_WORLD);
  printf("band scan");
  line(got);

  MPI_Reduce(mine, got, COUNT, MPI_INT, MPI_LOR, 0, MPI_COMM_WORLD);
  if (rank == 0) {
    printf("lor reduce");
    line(got);
  }
  MPI_Allreduce(mine, got, COUNT, MPI_INT, MPI_LOR, MPI_COMM_WORLD);
  printf("lor allreduce");
  line(got);
  MPI_Scan(mine, got, COUNT, MPI_INT, MPI_LOR, MPI_COMM_WORLD);
  printf("lor scan");
  line(got);

  MPI_Reduce(mine, got, COUNT, MPI_INT, MPI_BOR, 0, MPI_COMM_WORLD);
  if (rank == 0) {
    printf("bor reduce");
    line(got);
  }
  MPI_Allreduce(mine, got, COUNT, MPI_INT, MPI_BOR, MPI_COMM_WORLD);
  printf("bor allreduce");
  line(got);
  MPI_Scan(mine, got, COUNT, MPI_INT, MPI_BOR, MPI_COMM_WORLD);
  printf("bor scan");
  line(got);

  MPI_Reduce(mine, got, COUNT, MPI_INT, MPI_LXOR, 0, MPI_COMM_WORLD);
  if (rank == 0) {
    printf("lxor reduce");
    line(got);
  }
  MPI_Allreduce(mine, got, COUNT, MPI_INT, MPI_LXOR, MPI_COMM_WORLD);
  printf("lxor allreduce");
  line(got);
  MPI_Scan(mine, got, COUNT, MPI_INT, MPI_LXOR, MPI_COMM_WORLD);
  printf("lxor scan");
  line(got);

  MPI_Reduce(mine, got, COUNT, MPI_INT, MPI_BXOR, 0, MPI_COMM_WORLD);
  if (rank == 0) {
    printf("bxor reduce");
    line(got);
  }
  MPI_Allreduce(mine, got, COUNT, MPI_INT, MPI_BXOR, MPI_COMM_WORLD);
  printf("bxor allreduce");
  line(got);
  MPI_Scan(mine, got, COUNT, MPI_INT, MPI_BXOR, MPI_COMM_WORLD);
  printf("bxor scan");
  line(got);

  MPI_Finalize();
  return 0;
}
