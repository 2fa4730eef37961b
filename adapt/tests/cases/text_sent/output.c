/* Made from input.c for 2 ranks, by
   adapt/adapt.py input.c --ranks 2 */
int main(void)
{
    int rank;
    int got[6];
    MPI_Status s;
    MPI_Init(NULL, NULL);
    MPI_Comm_rank(MPI_COMM_WORLD, &rank);
    if (rank == 0) {
        int w1[6] = {104, 101, 108, 108, 111, 0};
        MPI_Send(w1, 6, MPI_INT, 1, 4, MPI_COMM_WORLD);
    } else {
        MPI_Recv(got, 6, MPI_INT, 0, 4, MPI_COMM_WORLD, &s);
        printf("%d %d %d %d\n", got[0], got[4], got[5], s.MPI_TAG);
    }
    MPI_Finalize();
    return 0;
}
