/* Made from input.c for 2 ranks, by
   adapt/adapt.py input.c --ranks 2 */
int main(void)
{
    int r_kind1[1];
    int r_at1[1];
    int r_count1[1];
    int r_peer1[1];
    int r_tag1[1];
    MPI_Comm r_comm1[1];
    int many_kind1[2];
    int many_at1[2];
    int many_count1[2];
    int many_peer1[2];
    int many_tag1[2];
    MPI_Comm many_comm1[2];
    int rank;
    int to;
    int tag = 4;
    int count = 2;
    int v[3] = {1, 2, 3};
    int w[3] = {0};
    MPI_Request r;
    MPI_Request many[2];
    MPI_Status s;
    MPI_Init(NULL, NULL);
    MPI_Comm_rank(MPI_COMM_WORLD, &rank);
    to = 1 - rank;
    if (rank == 0) {
        r_kind1[0] = 1;
        r_at1[0] = 0;
        r_count1[0] = count;
        r_peer1[0] = to;
        r_tag1[0] = tag;
        r_comm1[0] = MPI_COMM_WORLD;
    } else {
        r_kind1[0] = 2;
        r_at1[0] = 0;
        r_count1[0] = count;
        r_peer1[0] = to;
        r_tag1[0] = tag;
        r_comm1[0] = MPI_COMM_WORLD;
    }
    to = 7;
    tag = 99;
    count = 0;
    for (int turn = 0; turn < 2; turn++) {
        v[0] = 10 + turn;
        if (r_kind1[0] == 1) {
            MPI_Isend(v + r_at1[0], r_count1[0], MPI_INT, r_peer1[0], r_tag1[0], r_comm1[0], &r);
        } else if (r_kind1[0] == 2) {
            MPI_Irecv(w + r_at1[0], r_count1[0], MPI_INT, r_peer1[0], r_tag1[0], r_comm1[0], &r);
        } else {
            MPI_Abort(MPI_COMM_WORLD, 79);
        }
        MPI_Wait(&r, &s);
        printf("%d %d\n", w[0], w[1]);
    }
    if (r != MPI_REQUEST_NULL || r_kind1[0] != 0) {
        r_kind1[0] = 0;
        r = MPI_REQUEST_NULL;
    }
    printf("%d\n", r == MPI_REQUEST_NULL && r_kind1[0] == 0);
    for (int i = 0; i < 2; i++) {
        if (rank == 0) {
            int w1 = i;
            many_kind1[w1] = 1;
            many_at1[w1] = i;
            many_count1[w1] = 1;
            many_peer1[w1] = 1;
            many_tag1[w1] = i;
            many_comm1[w1] = MPI_COMM_WORLD;
        } else {
            int w2 = i;
            many_kind1[w2] = 2;
            many_at1[w2] = i;
            many_count1[w2] = 1;
            many_peer1[w2] = 0;
            many_tag1[w2] = i;
            many_comm1[w2] = MPI_COMM_WORLD;
        }
    }
    for (int w3 = 0; w3 < 2; w3++) {
        int w4 = w3;
        if (many_kind1[w4] == 1) {
            MPI_Irecv(w + many_at1[w4], many_count1[w4], MPI_INT, many_peer1[w4], many_tag1[w4], many_comm1[w4], many + w4);
        } else if (many_kind1[w4] == 2) {
            MPI_Issend(v + many_at1[w4], many_count1[w4], MPI_INT, many_peer1[w4], many_tag1[w4], many_comm1[w4], many + w4);
        } else {
            MPI_Abort(MPI_COMM_WORLD, 79);
        }
    }
    MPI_Waitall(2, many, MPI_STATUSES_IGNORE);
    printf("%d %d\n", w[0], w[1]);
    MPI_Finalize();
    return 0;
}
