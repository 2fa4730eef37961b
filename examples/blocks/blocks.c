#include <stdio.h>
#include <mpi.h>
#define N 256
int main(int argc, char **argv) {
  int rank, size, i, sum = 0, big[N]; /* one block */
  MPI_Status st;
  MPI_Init(&argc, &argv);
  MPI_Comm_rank(MPI_COMM_WORLD, &rank);
  MPI_Comm_size(MPI_COMM_WORLD, &size);
  for (i = 0; i < N; i++) big[i] = rank;
  if (rank == 0) {
    for (i = 1; i < size; i++) {
      MPI_Recv(big, N, MPI_INT, MPI_ANY_SOURCE, 1, MPI_COMM_WORLD, &st);
      sum += big[N - 1] * st.MPI_SOURCE;
    }
    printf("sum %d\n", sum);
  } else {
    MPI_Send(big, N, MPI_INT, 0, 1, MPI_COMM_WORLD);
  }
  MPI_Finalize();
  return 0;
}
