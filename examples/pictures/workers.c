#include <stdio.h>
#include <mpi.h>
#define WORKERS 2
#define STEPS 3
/* Rank 0 hands out steps to whoever asks first. Which worker is slowed down by the last step depends on the order. */
int main(int argc, char **argv) {
  int rank, step, done, result, total = 0;
  MPI_Status status;
  MPI_Init(&argc, &argv);
  MPI_Comm_rank(MPI_COMM_WORLD, &rank);
  if (rank == 0) {
    step = 0;
    done = 0;
    while (done < WORKERS) {
      MPI_Recv(&result, 1, MPI_INT, MPI_ANY_SOURCE, 1, MPI_COMM_WORLD, &status);
      total = total * 2 + result;
      if (step < STEPS) {
        step++;
        MPI_Send(&step, 1, MPI_INT, status.MPI_SOURCE, 2, MPI_COMM_WORLD);
      } else {
        done++;
        MPI_Send(NULL, 0, MPI_INT, status.MPI_SOURCE, 3, MPI_COMM_WORLD);
      }
    }
    printf("total %d\n", total);
  } else {
    result = 0;
    do {
      MPI_Send(&result, 1, MPI_INT, 0, 1, MPI_COMM_WORLD);
      MPI_Recv(&step, 1, MPI_INT, 0, MPI_ANY_TAG, MPI_COMM_WORLD, &status);
      result = rank * 10 + step;
    } while (status.MPI_TAG == 2);
  }
  MPI_Finalize();
  return 0;
}
