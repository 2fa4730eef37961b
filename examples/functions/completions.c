#include <stdio.h>
#include <mpi.h>
#define WORKERS 3
#define DATA 1
#define ASK 2
#define SENT 3
/* Each completion of the language: rank 0 posts a receive from each worker, and a worker sends its next int when it is asked. Its ints are
   10 times its rank plus 1, 2 and so on. */

/* When this is done, the worker's message is there to be received. */
void ask(int worker) {
  MPI_Send(NULL, 0, MPI_INT, worker, ASK, MPI_COMM_WORLD);
  MPI_Recv(NULL, 0, MPI_INT, worker, SENT, MPI_COMM_WORLD, MPI_STATUS_IGNORE);
}

/* The last request is a null one, which no completion chooses. */
void waitany(void) {
  int i, index, got[WORKERS];
  MPI_Request requests[WORKERS + 1];
  MPI_Status status;
  for (i = 0; i < WORKERS; i++) MPI_Irecv(&got[i], 1, MPI_INT, i + 1, DATA, MPI_COMM_WORLD, &requests[i]);
  requests[WORKERS] = MPI_REQUEST_NULL;
  ask(2);
  MPI_Waitany(WORKERS + 1, requests, &index, &status);
  printf("waitany %d from %d: %d\n", index, status.MPI_SOURCE, got[index]);
  ask(3);
  ask(1);
  MPI_Waitany(WORKERS + 1, requests, &index, &status);
  printf("waitany %d from %d: %d\n", index, status.MPI_SOURCE, got[index]);
  MPI_Waitany(WORKERS + 1, requests, &index, &status);
  printf("waitany %d from %d: %d\n", index, status.MPI_SOURCE, got[index]);
  MPI_Waitany(WORKERS + 1, requests, &index, &status);
  printf("waitany is undefined %d, any source %d\n", index == MPI_UNDEFINED, status.MPI_SOURCE == MPI_ANY_SOURCE);
}

void waitsome(void) {
  int i, count, got[WORKERS], indices[WORKERS];
  MPI_Request requests[WORKERS];
  MPI_Status statuses[WORKERS];
  for (i = 0; i < WORKERS; i++) MPI_Irecv(&got[i], 1, MPI_INT, i + 1, DATA, MPI_COMM_WORLD, &requests[i]);
  ask(3);
  ask(1);
  MPI_Waitsome(WORKERS, requests, &count, indices, statuses);
  printf("waitsome %d:", count);
  for (i = 0; i < count; i++) printf(" %d from %d: %d", indices[i], statuses[i].MPI_SOURCE, got[indices[i]]);
  printf("\n");
  ask(2);
  MPI_Waitsome(WORKERS, requests, &count, indices, MPI_STATUSES_IGNORE);
  printf("waitsome %d: %d: %d\n", count, indices[0], got[indices[0]]);
  MPI_Waitsome(WORKERS, requests, &count, indices, statuses);
  printf("waitsome is undefined %d\n", count == MPI_UNDEFINED);
}

void test(void) {
  int done, got = 0;
  MPI_Request request;
  MPI_Status status;
  MPI_Irecv(&got, 1, MPI_INT, 2, DATA, MPI_COMM_WORLD, &request);
  MPI_Test(&request, &done, &status);
  printf("test %d: %d, is null %d\n", done, got, request == MPI_REQUEST_NULL);
  ask(2);
  MPI_Test(&request, &done, &status);
  printf("test %d from %d: %d, is null %d\n", done, status.MPI_SOURCE, got, request == MPI_REQUEST_NULL);
  MPI_Test(&request, &done, &status);
  printf("test %d, any source %d\n", done, status.MPI_SOURCE == MPI_ANY_SOURCE);
}

void testall(void) {
  int i, done, got[WORKERS];
  MPI_Request requests[WORKERS];
  MPI_Status statuses[WORKERS];
  for (i = 0; i < WORKERS; i++) {
    got[i] = 0;
    MPI_Irecv(&got[i], 1, MPI_INT, i + 1, DATA, MPI_COMM_WORLD, &requests[i]);
  }
  ask(1);
  ask(3);
  MPI_Testall(WORKERS, requests, &done, statuses);
  printf("testall %d, is null %d\n", done, requests[0] == MPI_REQUEST_NULL);
  ask(2);
  MPI_Testall(WORKERS, requests, &done, statuses);
  printf("testall %d:", done);
  for (i = 0; i < WORKERS; i++) printf(" from %d: %d", statuses[i].MPI_SOURCE, got[i]);
  printf(", is null %d\n", requests[0] == MPI_REQUEST_NULL);
  MPI_Testall(WORKERS, requests, &done, statuses);
  printf("testall %d, any source %d\n", done, statuses[0].MPI_SOURCE == MPI_ANY_SOURCE);
}

void testany(void) {
  int i, done, index, got[WORKERS];
  MPI_Request requests[WORKERS];
  MPI_Status status;
  for (i = 0; i < WORKERS; i++) MPI_Irecv(&got[i], 1, MPI_INT, i + 1, DATA, MPI_COMM_WORLD, &requests[i]);
  MPI_Testany(WORKERS, requests, &index, &done, &status);
  printf("testany %d, is undefined %d\n", done, index == MPI_UNDEFINED);
  for (i = WORKERS; i > 0; i--) {
    ask(i);
    MPI_Testany(WORKERS, requests, &index, &done, &status);
    printf("testany %d: %d from %d: %d\n", done, index, status.MPI_SOURCE, got[index]);
  }
  MPI_Testany(WORKERS, requests, &index, &done, &status);
  printf("testany %d, is undefined %d, any source %d\n", done, index == MPI_UNDEFINED, status.MPI_SOURCE == MPI_ANY_SOURCE);
}

void testsome(void) {
  int i, count, got[WORKERS], indices[WORKERS];
  MPI_Request requests[WORKERS];
  MPI_Status statuses[WORKERS];
  for (i = 0; i < WORKERS; i++) MPI_Irecv(&got[i], 1, MPI_INT, i + 1, DATA, MPI_COMM_WORLD, &requests[i]);
  MPI_Testsome(WORKERS, requests, &count, indices, statuses);
  printf("testsome %d\n", count);
  ask(3);
  ask(2);
  MPI_Testsome(WORKERS, requests, &count, indices, statuses);
  printf("testsome %d:", count);
  for (i = 0; i < count; i++) printf(" %d from %d: %d", indices[i], statuses[i].MPI_SOURCE, got[indices[i]]);
  printf("\n");
  ask(1);
  MPI_Testsome(WORKERS, requests, &count, indices, statuses);
  printf("testsome %d: %d from %d: %d\n", count, indices[0], statuses[0].MPI_SOURCE, got[indices[0]]);
  MPI_Testsome(WORKERS, requests, &count, indices, statuses);
  printf("testsome is undefined %d\n", count == MPI_UNDEFINED);
}

/* Each of the six functions asks each worker once, but for test, which asks worker 2 alone. */
void work(int rank) {
  int turn, turns, mine;
  turns = rank == 2 ? 6 : 5;
  for (turn = 1; turn <= turns; turn++) {
    mine = 10 * rank + turn;
    MPI_Recv(NULL, 0, MPI_INT, 0, ASK, MPI_COMM_WORLD, MPI_STATUS_IGNORE);
    MPI_Send(&mine, 1, MPI_INT, 0, DATA, MPI_COMM_WORLD);
    MPI_Send(NULL, 0, MPI_INT, 0, SENT, MPI_COMM_WORLD);
  }
  printf("sent %d\n", turns);
}

int main(void) {
  int rank;
  MPI_Init(NULL, NULL);
  MPI_Comm_rank(MPI_COMM_WORLD, &rank);
  if (rank == 0) {
    waitany();
    waitsome();
    test();
    testall();
    testany();
    testsome();
  } else {
    work(rank);
  }
  MPI_Finalize();
  return 0;
}
