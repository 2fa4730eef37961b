#include <stdio.h>
#include <mpi.h>
#define CLIENTS 3
#define ROUNDS 2
#define GET 1
#define PUT 2
#define VALUE 3
/* Rank 0 keeps a counter. A client gets it, adds one, and puts it back; between the two another client may get it too. */
int main(void) {
  int counter = 0, rank, value = 0, k;
  MPI_Status status;
  MPI_Init(NULL, NULL);
  MPI_Comm_rank(MPI_COMM_WORLD, &rank);
  if (rank == 0) {
    for (k = 0; k < 2 * ROUNDS * CLIENTS; k++) {
      MPI_Recv(&value, 1, MPI_INT, MPI_ANY_SOURCE, MPI_ANY_TAG, MPI_COMM_WORLD, &status);
      if (status.MPI_TAG == GET) {
        MPI_Send(&counter, 1, MPI_INT, status.MPI_SOURCE, VALUE, MPI_COMM_WORLD);
      } else {
        counter = value;
      }
    }
    printf("counter %d\n", counter);
  } else {
    for (k = 0; k < ROUNDS; k++) {
      MPI_Send(NULL, 0, MPI_INT, 0, GET, MPI_COMM_WORLD);
      MPI_Recv(&value, 1, MPI_INT, 0, VALUE, MPI_COMM_WORLD, MPI_STATUS_IGNORE);
      value++;
      MPI_Send(&value, 1, MPI_INT, 0, PUT, MPI_COMM_WORLD);
    }
  }
  MPI_Finalize();
  return 0;
}
