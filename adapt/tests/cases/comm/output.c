/* Made from input.c for 3 ranks, by
   adapt/adapt.py input.c --ranks 3 */
int main(void)
{
    MPI_Comm world;
    int rank;
    int size;
    MPI_Request req[2];
    MPI_Status st;
    int v;
    int w = 0;
    int rc;
    int all[4096];
    int d = 2;
    int text[4];
    int big[4] = {1, 1, 1, 1};
    MPI_Init(NULL, NULL);
    world = MPI_COMM_WORLD;
    MPI_Comm_rank(world, &rank);
    MPI_Comm_size(world, &size);
    if (!(size > 1)) {
        MPI_Abort(MPI_COMM_WORLD, 134);
    }
    v = rank * 11;
    for (int w1 = 0; w1 < 4096; w1++) {
        all[w1] = 0;
    }
    {
        int to = (rank + 1) % size;
        MPI_Isend(&v, 1, MPI_INT, to, 3, world, req);
    }
    MPI_Irecv(&w, 1, MPI_INT, MPI_ANY_SOURCE, 3, world, req + 1);
    rc = 0;
    if (rc != 0) {
        return 2;
    }
    MPI_Wait(req + 1, &st);
    MPI_Wait(req, MPI_STATUS_IGNORE);
    int w2 = 0;
    {
        int n;
        MPI_Get_count(&st, MPI_INT, &n);
        w2 = n * 100 + st.MPI_SOURCE;
    }
    printf("%d got %d %d\n", rank, w, w2);
    MPI_Allgather(&v, 1, MPI_INT, all, 1, MPI_INT, world);
    for (int i = 0; i < size; i++) {
        printf(" %d", all[i]);
    }
    printf("\n");
    MPI_Allreduce(all, all, size, MPI_INT, MPI_MAX, world);
    printf("%d\n", all[0]);
    d = d * rank + 1;
    MPI_Bcast(&d, 1, MPI_INT, size - 1, world);
    printf("%d.0\n", d);
    text[0] = 97 + rank << 24 >> 24;
    MPI_Bcast(text, 1, MPI_INT, 1, world);
    printf("%d\n", text[0]);
    int w3[2];
    int w4[2];
    int w5;
    for (int w6 = 0; w6 < 1; w6++) {
        w3[w6] = v;
    }
    MPI_Scan(w3, w4, 2, MPI_INT, MPI_SUM, world);
    MPI_Comm_rank(world, &w5);
    if (w5 > 0) {
        for (int w6 = 0; w6 < 1; w6++) {
            w = w4[w6] - w3[w6];
        }
    }
    if (rank) {
        printf("ex %d\n", w);
    }
    MPI_Bcast(big, 2, MPI_INT, 0, world);
    MPI_Finalize();
    return 0;
}
