/* Made from input.c for 3 ranks, by
   adapt/adapt.py input.c --ranks 3 */
void swap(int a[], int b[])
{
    int t = a[0];
    a[0] = b[0];
    b[0] = t;
}

int depth(int n)
{
    int w2;
    if (n) {
        int w1 = depth(n - 1);
        w2 = 1 + w1;
    } else {
        w2 = 0;
    }
    return w2;
}

int main(void)
{
    MPI_Comm row;
    int data[9];
    int rank;
    int size;
    int i;
    int x = 1;
    int y = 2;
    int buf[3];
    int p_at1 = 0;
    MPI_Request reqs[2];
    int total = 0;
    MPI_Init(NULL, NULL);
    MPI_Comm_rank(MPI_COMM_WORLD, &rank);
    MPI_Comm_size(MPI_COMM_WORLD, &size);
    {
        int color = rank % 2;
        MPI_Comm_split(MPI_COMM_WORLD, color, 0, &row);
    }
    for (i = 0; i < 3; i++) {
        data[i * 3 + rank % 3] = i + rank;
    }
    swap(&x, &y);
    swap(data, data + 7);
    int w1 = 0;
    {
        int rows = 3;
        int s = 0;
        int i_1;
        int j;
        for (i_1 = 0; i_1 < rows; i_1++) {
            for (j = 0; j < 3; j++) {
                s += data[i_1 * 3 + j];
            }
        }
        w1 = s;
    }
    int w2 = depth(5);
    printf("%d %d %d %d\n", x, y, w1, w2);
    MPI_Irecv(buf, 1, MPI_INT, (rank + size - 1) % size, 0, MPI_COMM_WORLD, reqs);
    MPI_Isend(&rank, 1, MPI_INT, (rank + 1) % size, 0, MPI_COMM_WORLD, reqs + 1);
    {
        int n = 2;
        int i_2;
        for (i_2 = 0; i_2 < n; i_2++) {
            MPI_Wait(reqs + i_2, MPI_STATUS_IGNORE);
        }
    }
    for (p_at1 = 0; p_at1 < 1; p_at1++) {
        total = total + buf[p_at1] * 2;
    }
    printf("%d %d\n", total, p_at1);
    MPI_Comm_free(&row);
    MPI_Finalize();
    return 0;
}
