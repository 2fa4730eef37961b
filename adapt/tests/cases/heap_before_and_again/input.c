#include <mpi.h>
#include <stdio.h>
#include <stdlib.h>
/* Memory that one rank only has, that is tested, and that calloc clears. */
int main(int argc, char **argv)
{
    int rank, *all = NULL, *one = NULL;
    MPI_Init(&argc, &argv);
    MPI_Comm_rank(MPI_COMM_WORLD, &rank);
    if (all == NULL)
        printf("none yet\n");
    if (rank == 0)
        all = (int *) malloc(2 * sizeof(int));
    MPI_Gather(&rank, 1, MPI_INT, all, 1, MPI_INT, 0, MPI_COMM_WORLD);
    if (all)
        printf("%d %d\n", all[0], all[1]);
    for (int i = 0; i < 2; i++) {
        one = calloc(3, sizeof *one);
        if (!one)
            return 1;
        printf("%d ", one[i]);
        one[0] = one[1] = one[2] = 5;
        free(one);
    }
    printf("\n");
    free(all);
    MPI_Finalize();
    return 0;
}
