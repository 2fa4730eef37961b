#include <mpi.h>
/* The message that this rank waits for never comes, so it tests until the run has as many events as a run may have. */
int main(int argc, char **argv) {
  int x, flag = 0;
  MPI_Request request;
  MPI_Init(&argc, &argv);
  MPI_Irecv(&x, 1, MPI_INT, 0, 5, MPI_COMM_WORLD, &request);
  while (!flag) MPI_Test(&request, &flag, MPI_STATUS_IGNORE);
  MPI_Finalize();
  return 0;
}
