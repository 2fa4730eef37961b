/* Made from input.c for 2 ranks, by
   adapt/adapt.py input.c --ranks 2 */
int main(void)
{
    int rank;
    int v[8] = {1, 2, 3, 4, 5, 6, 7, 8};
    int bytes;
    int op = 1;
    MPI_Init(NULL, NULL);
    MPI_Comm_rank(MPI_COMM_WORLD, &rank);
    if (rank == 0) {
        v[3] = 0;
        v[1] = v[3];
    }
    MPI_Bcast(v, 4, MPI_INT, 1, MPI_COMM_WORLD);
    printf("%d %d\n", v[1], v[3]);
    bytes = 8;
    MPI_Bcast(v, 4, MPI_INT, 0, MPI_COMM_WORLD);
    if (rank) {
        op = 0;
    }
    op = 0;
    if (op == 0) {
        MPI_Allreduce(&rank, &bytes, 1, MPI_INT, MPI_MAX, MPI_COMM_WORLD);
    } else if (op == 1) {
        MPI_Allreduce(&rank, &bytes, 1, MPI_INT, MPI_SUM, MPI_COMM_WORLD);
    }
    printf("%d\n", bytes);
    MPI_Finalize();
    return 0;
}
