#!/usr/bin/env bash
# Recordings on threads beside serial ones. First programs that hardly compute: a ping-pong, a token that goes round a ring, all
# ranks that send to rank 0, which takes whoever comes first, a halo exchange and an allreduce. Then one that computes between its messages, on 1, 2 and 4 processors
# (`taskset`). A row gives the wall-clock time of `wiz record` from start to end in milliseconds, the median of five runs, serial
# and on threads, and the ratio of both. Needs `rt`. Takes the number of messages of the first table (10000 where none is given).
. "$(dirname "$0")/idle.sh"
. "$(dirname "$0")/begin.sh"
messages=${1:-10000}

# A program of this body, and a plan of this many ranks in one group.
program() {
  local name=$1 ranks=$2 body=$3
  printf '%s' "int main(void){int r,n,i,j,x=0,y=0;MPI_Status s;MPI_Comm_rank(MPI_COMM_WORLD,&r);MPI_Comm_size(MPI_COMM_WORLD,&n);$body printf(\"%d\\n\",x);return 0;}" >"$name.c"
  echo "0-$((ranks - 1))" >"$name.plan"
}

# Five wall-clock times of a recording in microseconds, the shortest first.
times() {
  local TIMEFORMAT=%3R
  for _ in 1 2 3 4 5; do
    { time "${processors[@]}" "$wiz" record "$1.c" "$1.plan" run "${@:2}" >printed; } 2>took || { cat took >&2; exit 1; }
    tail -n 1 printed | grep -q '^finished$' || { echo "$1: $(tail -n 1 printed)" >&2; exit 1; }
    awk '{ printf "%d\n", $1 * 1000 }' took
  done | sort -n | tr '\n' ' '
}

row() {
  local name=$1 what=$2 serial threads
  serial=$(times "$name" --serial)
  threads=$(times "$name")
  echo "$serial $threads" | awk -v what="$what" '{
    printf "%-34s %7d (%d to %d) %7d (%d to %d) %7.2f\n", what, $3, $1, $5, $8, $6, $10, $3 ? $8 / $3 : 0
  }'
}

processors=()
echo "$(nproc) processors, load $(cut -d' ' -f1 /proc/loadavg) before the run"
echo "program                             serial ms (range)       threads ms (range)       ratio"
half=$((messages / 2))
program pong 2 "for(i=0;i<$half;i++){if(r==0){MPI_Send(&x,1,MPI_INT,1,1,MPI_COMM_WORLD);MPI_Recv(&x,1,MPI_INT,1,1,MPI_COMM_WORLD,&s);}else{MPI_Recv(&x,1,MPI_INT,0,1,MPI_COMM_WORLD,&s);x=x+1;MPI_Send(&x,1,MPI_INT,0,1,MPI_COMM_WORLD);}}"
row pong "ping-pong, 2 ranks"
for ranks in 2 4 16 64; do
  laps=$((messages / ranks))
  program ring "$ranks" "for(i=0;i<$laps;i++){if(r==0){MPI_Send(&x,1,MPI_INT,1,1,MPI_COMM_WORLD);MPI_Recv(&x,1,MPI_INT,n-1,1,MPI_COMM_WORLD,&s);}else{MPI_Recv(&x,1,MPI_INT,r-1,1,MPI_COMM_WORLD,&s);x=x+1;MPI_Send(&x,1,MPI_INT,(r+1)%n,1,MPI_COMM_WORLD);}}"
  row ring "a token round $ranks ranks"
done
for ranks in 2 16 64; do
  each=$((messages / (ranks - 1)))
  program all "$ranks" "if(r==0){for(i=0;i<$each*(n-1);i++){MPI_Recv(&y,1,MPI_INT,MPI_ANY_SOURCE,1,MPI_COMM_WORLD,&s);x=x+y;}}else for(i=0;i<$each;i++)MPI_Send(&r,1,MPI_INT,0,1,MPI_COMM_WORLD);"
  row all "$ranks ranks, all to one"
done

program halo 16 "for(i=0;i<$messages/32;i++){MPI_Send(&x,1,MPI_INT,(r+1)%n,1,MPI_COMM_WORLD);MPI_Send(&x,1,MPI_INT,(r+n-1)%n,2,MPI_COMM_WORLD);MPI_Recv(&y,1,MPI_INT,(r+n-1)%n,1,MPI_COMM_WORLD,&s);MPI_Recv(&j,1,MPI_INT,(r+1)%n,2,MPI_COMM_WORLD,&s);x=(x+y+j)%1000+1;}"
row halo "halo exchange, 16 ranks"
for ranks in 4 16; do
  program sum "$ranks" "for(i=0;i<$messages/$ranks;i++){MPI_Allreduce(&r,&y,1,MPI_INT,MPI_SUM,MPI_COMM_WORLD);x=x+y%7;}"
  row sum "allreduce, $ranks ranks"
done

# Where all threads share one processor, no message crosses from one to another.
if command -v taskset >/dev/null; then
  processors=(taskset -c 0)
  row pong "ping-pong, one processor"
  row halo "halo exchange, one processor"
fi

# Each rank computes for most of its time: ten times half a million steps, and a message round the ring after each.
program work 4 "for(i=0;i<10;i++){for(j=0;j<240000;j++)y=(y*5+j)%1000;x=y;MPI_Send(&x,1,MPI_INT,(r+1)%n,1,MPI_COMM_WORLD);MPI_Recv(&y,1,MPI_INT,(r+n-1)%n,1,MPI_COMM_WORLD,&s);}"
for count in 1 2 4; do
  [ "$count" -le "$(nproc)" ] || continue
  processors=(taskset -c "0-$((count - 1))")
  row work "4 ranks that compute, processors: $count"
done
