/* Made from input.c for 3 ranks, by
   adapt/adapt.py input.c --ranks 3 */
int main(void)
{
    int rank;
    int size;
    int v[3] = {0};
    int s = 2;
    int w;
    MPI_Init(NULL, NULL);
    MPI_Comm_rank(MPI_COMM_WORLD, &rank);
    MPI_Comm_size(MPI_COMM_WORLD, &size);
    int all[3];
    int twice[6];
    v[rank] = rank + 1;
    int w1;
    MPI_Comm_rank(MPI_COMM_WORLD, &w1);
    MPI_Allgather(v + w1, 1, MPI_INT, v, 1, MPI_INT, MPI_COMM_WORLD);
    printf("%d %d %d\n", v[0], v[1], v[2]);
    MPI_Allreduce(v, v, 3, MPI_INT, MPI_SUM, MPI_COMM_WORLD);
    printf("%d\n", v[2]);
    int w2[2];
    int w3[2];
    int w4;
    for (int w5 = 0; w5 < 1; w5++) {
        w2[w5] = s;
    }
    MPI_Scan(w2, w3, 2, MPI_INT, MPI_SUM, MPI_COMM_WORLD);
    MPI_Comm_rank(MPI_COMM_WORLD, &w4);
    if (w4 > 0) {
        for (int w5 = 0; w5 < 1; w5++) {
            w = w3[w5] - w2[w5];
        }
    }
    if (rank > 0) {
        printf("%d\n", w);
    }
    int w6[1];
    for (int w7 = 0; w7 < 1; w7++) {
        w6[w7] = rank;
    }
    MPI_Sendrecv(w6, 1, MPI_INT, (rank + 1) % size, 0, &rank, 1, MPI_INT, (rank + size - 1) % size, 0, MPI_COMM_WORLD, MPI_STATUS_IGNORE);
    printf("%d\n", rank);
    for (int i = 0; i < size; i++) {
        all[i] = i;
        int w8 = i * 2 + 1;
        twice[w8] = all[i] * 2;
        twice[i * 2] = twice[w8];
    }
    printf("%d\n", twice[(size - 1) * 2 + 1]);
    MPI_Finalize();
    return 0;
}
