#include <mpi.h>
int main(int argc, char **argv)
{
    MPI_Group g;
    MPI_Win w, unused;
    MPI_Comm_group(MPI_COMM_WORLD, &g);
    MPI_Win_fence(0, w);
    return 0;
}
