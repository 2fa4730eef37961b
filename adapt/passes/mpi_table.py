"""The calls of MPI, and what their arguments are.

The letters are those of docs/LANGUAGE.md: b a buffer, n an int, T a
datatype, o an operation, c a communicator, k a reference to communicators,
r to requests, s to a status, S to statuses, i to ints.
"""

SIGNATURES = {
    name: letters.split()
    for name, letters in {
        "MPI_Comm_rank": "c i",
        "MPI_Comm_size": "c i",
        "MPI_Get_count": "s T i",
        "MPI_Comm_free": "k",
        "MPI_Send": "b n T n n c",
        "MPI_Ssend": "b n T n n c",
        "MPI_Recv": "b n T n n c s",
        "MPI_Sendrecv": "b n T n n b n T n n c s",
        "MPI_Isend": "b n T n n c r",
        "MPI_Issend": "b n T n n c r",
        "MPI_Irecv": "b n T n n c r",
        "MPI_Wait": "r s",
        "MPI_Waitall": "n r S",
        "MPI_Waitany": "n r i s",
        "MPI_Waitsome": "n r i i S",
        "MPI_Test": "r i s",
        "MPI_Testall": "n r i S",
        "MPI_Testany": "n r i i s",
        "MPI_Testsome": "n r i i S",
        "MPI_Probe": "n n c s",
        "MPI_Iprobe": "n n c i s",
        "MPI_Barrier": "c",
        "MPI_Bcast": "b n T n c",
        "MPI_Reduce": "b b n T o n c",
        "MPI_Allreduce": "b b n T o c",
        "MPI_Scan": "b b n T o c",
        "MPI_Gather": "b n T b n T n c",
        "MPI_Scatter": "b n T b n T n c",
        "MPI_Allgather": "b n T b n T c",
        "MPI_Alltoall": "b n T b n T c",
        "MPI_Comm_split": "c n n k",
        "MPI_Comm_dup": "c k",
        "MPI_Abort": "c n",
    }.items()
}
# Sends of other modes, as the one that the language has.
SAME = {
    "MPI_Bsend": "MPI_Send",
    "MPI_Rsend": "MPI_Send",
    "MPI_Ibsend": "MPI_Isend",
    "MPI_Irsend": "MPI_Isend",
}
SYNCHRONOUS = {"MPI_Send": "MPI_Ssend", "MPI_Isend": "MPI_Issend"}
PERSISTENT = {
    "MPI_Send_init": "MPI_Isend",
    "MPI_Bsend_init": "MPI_Ibsend",
    "MPI_Rsend_init": "MPI_Irsend",
    "MPI_Ssend_init": "MPI_Issend",
    "MPI_Recv_init": "MPI_Irecv",
}
NONBLOCKING = {
    "MPI_I" + name: "MPI_" + name.capitalize()
    for name in """barrier bcast reduce allreduce scan exscan gather scatter
    allgather allgatherv alltoall alltoallv""".split()
}
# Calls that need no counterpart: nothing that a run sees depends on them.
DROPPED = {
    "MPI_Type_commit",
    "MPI_Comm_set_name",
    "MPI_Buffer_attach",
    "MPI_Errhandler_free",
    "MPI_Op_free",
    "MPI_Pcontrol",
    "MPI_Info_free",
    "MPI_Type_set_name",
}
# Calls that give what is not there: it stays as it was, with a note.
NOT_GIVEN = {"MPI_Comm_get_name", "MPI_Error_string", "MPI_Buffer_detach"}
# Those that choose what happens at an error; here every error stops a run.
ERROR_HANDLERS = {
    "MPI_Comm_set_errhandler",
    "MPI_Errhandler_set",
    "MPI_Error_class",
    "MPI_Comm_call_errhandler",
    "MPI_Errhandler_create",
    "MPI_Comm_create_errhandler",
}
