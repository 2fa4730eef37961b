/* Made from input.c for 2 ranks, by
   adapt/adapt.py input.c --ranks 2 --synchronous */
int main(void)
{
    int rank;
    int v = 1;
    MPI_Init(NULL, NULL);
    MPI_Comm_rank(MPI_COMM_WORLD, &rank);
    MPI_Ssend(&v, 1, MPI_INT, 1 - rank, 0, MPI_COMM_WORLD);
    MPI_Recv(&v, 1, MPI_INT, 1 - rank, 0, MPI_COMM_WORLD, MPI_STATUS_IGNORE);
    printf("done\n");
    MPI_Finalize();
    return 0;
}
