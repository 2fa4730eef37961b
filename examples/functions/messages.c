#include <stdio.h>
#include <mpi.h>
/* Each way to send and to receive: on a ring, each rank sends to the next one and receives from the one before it. */

/* Standard sends are buffered, so all may send first. */
void standard(int mine, int next, int before) {
  int count, two[2], got[3];
  MPI_Status status;
  two[0] = mine;
  two[1] = mine + 1;
  MPI_Send(two, 2, MPI_INT, next, 1, MPI_COMM_WORLD);
  MPI_Recv(got, 3, MPI_INT, before, 1, MPI_COMM_WORLD, &status);
  MPI_Get_count(&status, MPI_INT, &count);
  printf("recv %d %d from %d tag %d count %d\n", got[0], got[1], status.MPI_SOURCE, status.MPI_TAG, count);
}

/* Synchronous ones are not, so the odd ranks receive first. */
void synchronous(int mine, int next, int before, int rank) {
  int got;
  if (rank % 2 == 0) MPI_Ssend(&mine, 1, MPI_INT, next, 2, MPI_COMM_WORLD);
  MPI_Recv(&got, 1, MPI_INT, before, 2, MPI_COMM_WORLD, MPI_STATUS_IGNORE);
  if (rank % 2 == 1) MPI_Ssend(&mine, 1, MPI_INT, next, 2, MPI_COMM_WORLD);
  printf("ssend %d\n", got);
}

void both(int mine, int next, int before) {
  int got;
  MPI_Status status;
  MPI_Sendrecv(&mine, 1, MPI_INT, next, 3, &got, 1, MPI_INT, before, 3, MPI_COMM_WORLD, &status);
  printf("sendrecv %d from %d tag %d\n", got, status.MPI_SOURCE, status.MPI_TAG);
}

void nonblocking(int mine, int next, int before) {
  int got[2];
  MPI_Request receiving, sending, requests[2];
  MPI_Status status, statuses[2];
  MPI_Irecv(&got[0], 1, MPI_INT, before, 4, MPI_COMM_WORLD, &receiving);
  MPI_Isend(&mine, 1, MPI_INT, next, 4, MPI_COMM_WORLD, &sending);
  MPI_Wait(&receiving, &status);
  MPI_Wait(&sending, MPI_STATUS_IGNORE);
  printf("isend %d from %d, is null %d\n", got[0], status.MPI_SOURCE, receiving == MPI_REQUEST_NULL);
  MPI_Irecv(&got[1], 1, MPI_INT, before, 5, MPI_COMM_WORLD, &requests[0]);
  MPI_Issend(&mine, 1, MPI_INT, next, 5, MPI_COMM_WORLD, &requests[1]);
  MPI_Waitall(2, requests, statuses);
  printf("issend %d from %d\n", got[1], statuses[0].MPI_SOURCE);
}

/* A message is looked at before it is received. */
void probes(int mine, int next, int before) {
  int count, found, got[4];
  MPI_Status status;
  MPI_Send(&mine, 1, MPI_INT, next, 6, MPI_COMM_WORLD);
  MPI_Probe(MPI_ANY_SOURCE, 6, MPI_COMM_WORLD, &status);
  MPI_Get_count(&status, MPI_INT, &count);
  MPI_Recv(got, count, MPI_INT, status.MPI_SOURCE, status.MPI_TAG, MPI_COMM_WORLD, MPI_STATUS_IGNORE);
  printf("probe %d from %d count %d\n", got[0], status.MPI_SOURCE, count);
  MPI_Send(NULL, 0, MPI_INT, next, 7, MPI_COMM_WORLD);
  do MPI_Iprobe(before, MPI_ANY_TAG, MPI_COMM_WORLD, &found, &status); while (!found);
  MPI_Get_count(&status, MPI_INT, &count);
  MPI_Recv(NULL, 0, MPI_INT, before, 7, MPI_COMM_WORLD, MPI_STATUS_IGNORE);
  printf("iprobe from %d tag %d count %d\n", status.MPI_SOURCE, status.MPI_TAG, count);
}

/* What goes to MPI_PROC_NULL or comes from there is nothing. */
void nobody(int mine) {
  int count, got = mine;
  MPI_Status status;
  MPI_Send(&mine, 1, MPI_INT, MPI_PROC_NULL, 8, MPI_COMM_WORLD);
  MPI_Recv(&got, 1, MPI_INT, MPI_PROC_NULL, 8, MPI_COMM_WORLD, &status);
  MPI_Get_count(&status, MPI_INT, &count);
  printf("nobody %d, is null %d, any tag %d, count %d\n", got, status.MPI_SOURCE == MPI_PROC_NULL, status.MPI_TAG == MPI_ANY_TAG, count);
}

int main(void) {
  int rank, size, mine, next, before;
  MPI_Init(NULL, NULL);
  MPI_Comm_rank(MPI_COMM_WORLD, &rank);
  MPI_Comm_size(MPI_COMM_WORLD, &size);
  mine = 10 * (rank + 1);
  next = (rank + 1) % size;
  before = (rank + size - 1) % size;
  standard(mine, next, before);
  synchronous(mine, next, before, rank);
  both(mine, next, before);
  nonblocking(mine, next, before);
  probes(mine, next, before);
  nobody(mine);
  MPI_Finalize();
  return 0;
}
