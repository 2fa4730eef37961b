/* Made from input.c for 2 ranks, by
   adapt/adapt.py input.c --blocking --ranks 2 */
int main(void)
{
    int rank;
    int sum;
    MPI_Request r;
    MPI_Init(NULL, NULL);
    MPI_Comm_rank(MPI_COMM_WORLD, &rank);
    MPI_Allreduce(&rank, &sum, 1, MPI_INT, MPI_SUM, MPI_COMM_WORLD);
    r = MPI_REQUEST_NULL;
    MPI_Wait(&r, MPI_STATUS_IGNORE);
    printf("%d\n", sum);
    MPI_Finalize();
    return 0;
}
