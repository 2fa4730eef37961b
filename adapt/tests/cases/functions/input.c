#include <mpi.h>
#include <stdio.h>
#include <stdlib.h>
#define N 3
typedef struct { int a; } thing;
static MPI_Comm row;
int data[N][N];
static void setup(MPI_Comm *c, int color) { MPI_Comm_split(MPI_COMM_WORLD, color, 0, c); }
static int sum(int rows, int v[][N]) { int s = 0, i, j; for (i = 0; i < rows; i++) for (j = 0; j < N; j++) s += v[i][j]; return s; }
static void swap(int *a, int *b) { int t = *a; *a = *b, *b = t; }
static int depth(int n) { return n ? 1 + depth(n - 1) : 0; }
static void wait_all(int n, MPI_Request *r) { int i; for (i = 0; i < n; i++) MPI_Wait(&r[i], MPI_STATUS_IGNORE); }
int main(int argc, char *argv[])
{
    int rank, size, i, x = 1, y = 2, *buf, *p;
    MPI_Request reqs[2];
    unsigned long total = 0;
    int counts[4] = { [0] = 1 };
    MPI_Init(&argc, &argv);
    MPI_Comm_rank(MPI_COMM_WORLD, &rank); MPI_Comm_size(MPI_COMM_WORLD, &size);
    setup(&row, rank % 2);
    for (i = 0; i < N; i++) data[i][rank % N] = i + rank;
    swap(&x, &y); swap(&data[0][0], &data[2][1]);
    printf("%d %d %d %d\n", x, y, sum(N, data), depth(5));
    if ((buf = malloc(sizeof(int) * size)) == NULL) { perror("malloc"); MPI_Abort(MPI_COMM_WORLD, 1); }
    MPI_Irecv(&buf[0], 1, MPI_INT, (rank + size - 1) % size, 0, MPI_COMM_WORLD, &reqs[0]);
    MPI_Isend(&rank, 1, MPI_INT, (rank + 1) % size, 0, MPI_COMM_WORLD, reqs + 1);
    wait_all(2, reqs);
    for (p = buf; p < buf + 1; ++p) total += *p * 2ul;
    printf("%lu %d\n", total, (int)(p - buf));
    free(buf);
    MPI_Comm_free(&row);
    MPI_Finalize();
    return 0;
}
