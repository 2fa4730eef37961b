/* Made from input.c for 2 ranks, by
   adapt/adapt.py input.c --ranks 2 */
int main(void)
{
    int name[128];
    int length = 7;
    int size = 0;
    int rank;
    int got;
    int buffer[1000];
    MPI_Init(NULL, NULL);
    MPI_Comm_rank(MPI_COMM_WORLD, &rank);
    if (rank == 0) {
        MPI_Send(&rank, 1, MPI_INT, 1, 0, MPI_COMM_WORLD);
    } else {
        if (rank == 1) {
            MPI_Recv(&got, 1, MPI_INT, 0, 0, MPI_COMM_WORLD, MPI_STATUS_IGNORE);
            printf("got %d\n", got);
        }
    }
    printf("%d %d\n", length, size);
    MPI_Finalize();
    return 0;
}
