/* mpich's test helpers, written anew: only what a plain test needs */
#ifndef ADAPT_MPITEST_H
#define ADAPT_MPITEST_H
#include "mpi.h"
#include "stdio.h"
#include "stdlib.h"
#include "string.h"
#include "stdint.h"
#include "assert.h"
#define MTest_Init(a, b) MPI_Init(a, b)
#define MTEST_CREATE_AND_FREE_DTP_OBJS
static void MTest_Finalize(int errs)
{
    int rank, all;
    MPI_Comm_rank(MPI_COMM_WORLD, &rank);
    MPI_Reduce(&errs, &all, 1, MPI_INT, MPI_SUM, 0, MPI_COMM_WORLD);
    if (rank == 0) {
        if (all) printf(" Found %d errors\n", all);
        else printf(" No Errors\n");
    }
    MPI_Finalize();
}
static int comm_number = 0;
static int MTestGetIntracommGeneral(MPI_Comm *comm, int min_size, int smaller)
{
    int r = 0, size, rank;
    MPI_Comm_size(MPI_COMM_WORLD, &size);
    MPI_Comm_rank(MPI_COMM_WORLD, &rank);
    if (size >= min_size || smaller) {
        if (comm_number == 0) *comm = MPI_COMM_WORLD;
        if (comm_number == 1) MPI_Comm_dup(MPI_COMM_WORLD, comm);
        if (comm_number == 2) MPI_Comm_split(MPI_COMM_WORLD, 0, size - rank, comm);
        if (comm_number <= 2) r = 1;
        comm_number++;
    }
    return r;
}
#define MTestGetIntracomm(c, n) MTestGetIntracommGeneral(c, n, 0)
#define MTestGetComm(c, n) MTestGetIntracommGeneral(c, n, 0)
static void MTestFreeComm(MPI_Comm *comm)
{
    if (*comm != MPI_COMM_WORLD && *comm != MPI_COMM_NULL) MPI_Comm_free(comm);
}
#define MTestGetIntracommName() "an intracommunicator"
#define MTest_Init_thread(a, b, r, p) MPI_Init_thread(a, b, r, p)
#define MTestReturnValue(e) ((e) ? 1 : 0)
#define MTestPrintError(e)
#define MTestPrintErrorMsg(m, e)
#define MTestPrintfMsg(...)
#define MTestError(m) (fprintf(stderr, "%s\n", m), MPI_Abort(MPI_COMM_WORLD, 1))
#define MTestSleep(n)
#define MTEST_VG_MEM_INIT(a, n)
#define ATTRIBUTE(x)
#define MTEST_HAVE_MIN_MPI_VERSION(major, minor) ((major) <= 3)
#endif
