/* Made from input.c for 2 ranks, by
   adapt/adapt.py input.c --ranks 2 */
int main(void)
{
    int rank;
    int all[2];
    int all_set1 = 0;
    all_set1 = 0;
    int one[3];
    int one_set1 = 0;
    one_set1 = 0;
    MPI_Init(NULL, NULL);
    MPI_Comm_rank(MPI_COMM_WORLD, &rank);
    if (!all_set1) {
        printf("none yet\n");
    }
    if (rank == 0) {
        all_set1 = 1;
    }
    MPI_Gather(&rank, 1, MPI_INT, all, 1, MPI_INT, 0, MPI_COMM_WORLD);
    if (all_set1) {
        printf("%d %d\n", all[0], all[1]);
    }
    for (int i = 0; i < 2; i++) {
        one_set1 = 1;
        for (int w1 = 0; w1 < 3; w1++) {
            one[w1] = 0;
        }
        if (!one_set1) {
            return 1;
        }
        printf("%d ", one[i]);
        one[2] = 5;
        one[1] = one[2];
        one[0] = one[1];
    }
    printf("\n");
    MPI_Finalize();
    return 0;
}
