/* Made from input.c for 3 ranks, by
   adapt/adapt.py input.c --ranks 3 */
int main(void)
{
    int rank;
    int size;
    int i;
    int sum = 0;
    int got[4];
    MPI_Request requests[8];
    MPI_Status statuses[8];
    MPI_Comm copies[2];
    MPI_Init(NULL, NULL);
    MPI_Comm_rank(MPI_COMM_WORLD, &rank);
    MPI_Comm_size(MPI_COMM_WORLD, &size);
    for (i = 0; i < 2; i++) {
        MPI_Comm_dup(MPI_COMM_WORLD, copies + i);
    }
    for (i = 0; i < size; i++) {
        MPI_Irecv(got + i, 1, MPI_INT, i, 5, copies[1], requests + i);
        MPI_Isend(&rank, 1, MPI_INT, i, 5, copies[1], requests + (size + i));
    }
    MPI_Waitall(2 * size, requests, statuses);
    for (i = 0; i < size; i++) {
        sum += got[i] + statuses[i].MPI_TAG;
    }
    printf("%d: %d\n", rank, sum);
    for (i = 0; i < 2; i++) {
        MPI_Comm_free(copies + i);
    }
    MPI_Finalize();
    return 0;
}
