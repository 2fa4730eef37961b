#!/usr/bin/env bash
# Searches for every outcome of some programs, each as one search: hubs, in which rank 0 takes so many messages of each other rank, from any source;
# a hub that answers each sender at the end; the master of `examples/workers` with three workers; and phases, in which each of 16 ranks sends to its
# neighbour and all meet in a barrier, and then rank 0 takes three messages from any source. Needs `rt`. A row gives the wall-clock seconds, the memory
# at most, and the last lines of the search.
. "$(dirname "$0")/idle.sh"
. "$(dirname "$0")/begin.sh"

search() {
  local name=$1 ranks=$2
  printf '0-%s\n' "$((ranks - 1))" >plan
  /usr/bin/time -f '%e s %M KB' "$wiz" explore program plan found --most 1000000 2>told | tail -n 2 | tr '\n' ' '
  printf '%s, %s ranks: %s\n' "$name" "$ranks" "$(tail -n 1 told)"
  rm -f found.*
}

hub() {
  printf '%s' "int main(void){int r,n,i,x,k=0;MPI_Comm_rank(MPI_COMM_WORLD,&r);MPI_Comm_size(MPI_COMM_WORLD,&n);if(r)for(i=0;i<$1;i++)MPI_Send(&r,1,MPI_INT,0,1,MPI_COMM_WORLD);else{for(i=0;i<$1*(n-1);i++){MPI_Recv(&x,1,MPI_INT,MPI_ANY_SOURCE,1,MPI_COMM_WORLD,MPI_STATUS_IGNORE);k=k*n+x;}printf(\"%d\",k);}return 0;}" >program
}

answering_hub() {
  printf '%s' "int main(void){int r,n,i,x,k=0;MPI_Comm_rank(MPI_COMM_WORLD,&r);MPI_Comm_size(MPI_COMM_WORLD,&n);if(r){for(i=0;i<$1;i++)MPI_Send(&r,1,MPI_INT,0,1,MPI_COMM_WORLD);MPI_Recv(&x,1,MPI_INT,0,2,MPI_COMM_WORLD,MPI_STATUS_IGNORE);}else{for(i=0;i<$1*(n-1);i++){MPI_Recv(&x,1,MPI_INT,MPI_ANY_SOURCE,1,MPI_COMM_WORLD,MPI_STATUS_IGNORE);k=k*n+x;}for(i=1;i<n;i++)MPI_Send(&k,1,MPI_INT,i,2,MPI_COMM_WORLD);printf(\"%d\",k);}return 0;}" >program
}

hub 1
search "a hub of one message" 5
search "a hub of one message" 6
hub 2
search "a hub of two messages" 4
answering_hub 2
search "a hub of two messages that answers" 4
hub 3
search "a hub of three messages" 4
sed 's/^#define WORKERS 2/#define WORKERS 3/; s/^#define STEPS 3/#define STEPS 2/' "$top/examples/workers/workers.c" >program
search "a master and three workers" 4
cat >program <<'END'
int main(void) {
  int r, n, p, i, x = 0, y = 0;
  MPI_Request sent, received;
  MPI_Comm_rank(MPI_COMM_WORLD, &r);
  MPI_Comm_size(MPI_COMM_WORLD, &n);
  for (p = 0; p < 4; p++) {
    MPI_Irecv(&y, 1, MPI_INT, (r + n - 1) % n, p, MPI_COMM_WORLD, &received);
    MPI_Isend(&x, 1, MPI_INT, (r + 1) % n, p, MPI_COMM_WORLD, &sent);
    MPI_Wait(&received, MPI_STATUS_IGNORE);
    MPI_Wait(&sent, MPI_STATUS_IGNORE);
    x = y + r;
    MPI_Barrier(MPI_COMM_WORLD);
  }
  if (r == 0)
    for (i = 0; i < 3; i++) {
      MPI_Recv(&y, 1, MPI_INT, MPI_ANY_SOURCE, 4, MPI_COMM_WORLD, MPI_STATUS_IGNORE);
      printf("%d ", y);
    }
  else if (r < 4) MPI_Send(&r, 1, MPI_INT, 0, 4, MPI_COMM_WORLD);
  return 0;
}
END
search "phases" 16
