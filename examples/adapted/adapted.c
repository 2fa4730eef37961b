/* Made from tasks.c for 3 ranks, by
   adapt/adapt.py tasks.c --ranks 3 */
int is_prime(int n)
{
    for (int d = 2; d * d <= n; d++) {
        if (n % d == 0) {
            return 0;
        }
    }
    return n > 1;
}

void master(int size[])
{
    int steps[3];
    int next = 0;
    int total = 0;
    int found;
    int busy = size[0] - 1;
    MPI_Status status;
    while (busy > 0) {
        MPI_Recv(&found, 1, MPI_INT, MPI_ANY_SOURCE, 2, MPI_COMM_WORLD, &status);
        total += found;
        if (next < 60) {
            steps[status.MPI_SOURCE]++;
            MPI_Send(&next, 1, MPI_INT, status.MPI_SOURCE, 1, MPI_COMM_WORLD);
            next += 20;
        } else {
            MPI_Send(NULL, 0, MPI_INT, status.MPI_SOURCE, 3, MPI_COMM_WORLD);
            busy--;
        }
    }
    printf("%d primes below %d\n", total, 60);
    for (int i = 1; i < size[0]; i++) {
        printf("rank %d did %d steps\n", i, steps[i]);
    }
}

void worker(void)
{
    int from;
    int found = 0;
    MPI_Status status;
    do {
        MPI_Send(&found, 1, MPI_INT, 0, 2, MPI_COMM_WORLD);
        MPI_Recv(&from, 1, MPI_INT, 0, MPI_ANY_TAG, MPI_COMM_WORLD, &status);
        found = 0;
        for (int n = from; status.MPI_TAG == 1 && n < from + 20; n++) {
            int w1 = is_prime(n);
            found += w1;
        }
    } while (status.MPI_TAG != 3);
}

int main(void)
{
    int rank;
    int size[1];
    MPI_Init(NULL, NULL);
    MPI_Comm_rank(MPI_COMM_WORLD, &rank);
    MPI_Comm_size(MPI_COMM_WORLD, size);
    if (rank == 0) {
        master(size);
    } else {
        worker();
    }
    MPI_Finalize();
    return 0;
}
