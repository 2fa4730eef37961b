#include <mpi.h>
#include <stdio.h>
/* Eight ranks in two rows: each row adds up its ranks, and rank 0 gets the greater sum. */
int main(void) {
  int rank, sum, most;
  MPI_Comm row;
  MPI_Comm_rank(MPI_COMM_WORLD, &rank);
  MPI_Comm_split(MPI_COMM_WORLD, rank / 4, rank, &row);
  MPI_Allreduce(&rank, &sum, 1, MPI_INT, MPI_SUM, row);
  MPI_Reduce(&sum, &most, 1, MPI_INT, MPI_MAX, 0, MPI_COMM_WORLD);
  if (rank == 0) printf("most %d\n", most);
  MPI_Barrier(row);
  MPI_Comm_free(&row);
  return 0;
}
