#include <stdio.h>
#include <mpi.h>
/* All ranks split off with one colour and one key: their places are those that they had, in whatever order they come. */
int main(void) {
  int rank, place;
  MPI_Comm all;
  MPI_Comm_rank(MPI_COMM_WORLD, &rank);
  MPI_Comm_split(MPI_COMM_WORLD, 0, 7, &all);
  MPI_Comm_rank(all, &place);
  printf("rank %d is %d\n", rank, place);
  MPI_Comm_free(&all);
  return 0;
}
