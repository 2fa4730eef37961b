#include <stdio.h>
#include <mpi.h>
#define WORKERS 4
#define ROUNDS 5
/* Each worker counts for a while and tells rank 0, which takes whoever comes first. The total tells the order of arrival. */
int main(int argc, char **argv) {
  int rank, round, i, work, total = 1;
  MPI_Status status;
  MPI_Init(&argc, &argv);
  MPI_Comm_rank(MPI_COMM_WORLD, &rank);
  if (rank == 0) {
    for (i = 0; i < WORKERS * ROUNDS; i++) {
      MPI_Recv(&work, 1, MPI_INT, MPI_ANY_SOURCE, 1, MPI_COMM_WORLD, &status);
      total = (total * 31 + status.MPI_SOURCE * 7 + work) % 1000003;
    }
    printf("total %d\n", total);
  } else {
    for (round = 0; round < ROUNDS; round++) {
      for (i = 0; i < 500; i++) work = (i * rank + round) % 5;
      MPI_Send(&work, 1, MPI_INT, 0, 1, MPI_COMM_WORLD);
    }
  }
  MPI_Finalize();
  return 0;
}
