#include <mpi.h>
#include <stdio.h>
#include <stdlib.h>

#define LAST 60
#define STEP 20

enum tag { WORK = 1, DONE, STOP };

static int rank, size;

static int is_prime(const int n)
{
    for (int d = 2; d * d <= n; d++)
        if (n % d == 0)
            return 0;
    return n > 1;
}

/* Hands out a step to whoever asks, with what it found in the last one. */
static void master(void)
{
    int *steps = calloc(size, sizeof *steps);
    int next = 0, total = 0, found, busy = size - 1;
    MPI_Status status;

    if (steps == NULL)
        MPI_Abort(MPI_COMM_WORLD, EXIT_FAILURE);
    while (busy > 0) {
        MPI_Recv(&found, 1, MPI_INT, MPI_ANY_SOURCE, DONE, MPI_COMM_WORLD,
                 &status);
        total += found;
        if (next < LAST) {
            steps[status.MPI_SOURCE]++;
            MPI_Send(&next, 1, MPI_INT, status.MPI_SOURCE, WORK,
                     MPI_COMM_WORLD);
            next += STEP;
        } else {
            MPI_Send(NULL, 0, MPI_INT, status.MPI_SOURCE, STOP,
                     MPI_COMM_WORLD);
            busy--;
        }
    }
    printf("%d primes below %d\n", total, LAST);
    for (int i = 1; i < size; i++)
        printf("rank %d did %d steps\n", i, steps[i]);
    free(steps);
}

static void worker(void)
{
    int from, found = 0;
    MPI_Status status;

    do {
        MPI_Send(&found, 1, MPI_INT, 0, DONE, MPI_COMM_WORLD);
        MPI_Recv(&from, 1, MPI_INT, 0, MPI_ANY_TAG, MPI_COMM_WORLD, &status);
        found = 0;
        for (int n = from; status.MPI_TAG == WORK && n < from + STEP; n++)
            found += is_prime(n);
    } while (status.MPI_TAG != STOP);
}

int main(int argc, char **argv)
{
    if (MPI_Init(&argc, &argv) != MPI_SUCCESS)
        return EXIT_FAILURE;
    MPI_Comm_rank(MPI_COMM_WORLD, &rank);
    MPI_Comm_size(MPI_COMM_WORLD, &size);
    rank == 0 ? master() : worker();
    MPI_Finalize();
    return EXIT_SUCCESS;
}
