#!/usr/bin/env bash
# Searches for every outcome of a program, divided: SENDERS ranks (4 if none is given) send a number each to rank 0, which receives them from any
# source and prints them in the order in which they come, so there are SENDERS! outcomes. First as one search; then a search of 64 states, and what
# it leaves, a search for each state, on 1, 2 and 4 processors by `xargs -P`. Needs `rt`. A row gives the wall-clock seconds, the outcomes that are
# found together, each counted once, and how many there should be. The script fails where they differ.
. "$(dirname "$0")/idle.sh"
. "$(dirname "$0")/begin.sh"
senders=${1:-4}
printf '0-%s\n' "$senders" >plan
printf '%s' "int main(void){int r,n,i,x;MPI_Comm_rank(MPI_COMM_WORLD,&r);MPI_Comm_size(MPI_COMM_WORLD,&n);if(r)MPI_Send(&r,1,MPI_INT,0,1,MPI_COMM_WORLD);else for(i=1;i<n;i++){MPI_Recv(&x,1,MPI_INT,MPI_ANY_SOURCE,1,MPI_COMM_WORLD,MPI_STATUS_IGNORE);printf(\"%d\",x);}return 0;}" >program
many=1
for ((i = 2; i <= senders; i++)); do many=$((many * i)); done

# The outcomes that some texts list, each once: here what rank 0 printed, on the line after its length.
outcomes() {
  cat "$@" | grep -A 1 '^rank 0 output' | grep -v '^rank\|^--' | sort -u | wc -l
}

row() {
  local name=$1 begun=$2 found=$3
  awk -v name="$name" -v begun="$begun" -v ended="$(date +%s.%N)" -v found="$found" -v many="$many" \
    'BEGIN { printf "%-16s %8.2f s  %d of %d outcomes\n", name, ended - begun, found, many }'
  [ "$found" -eq "$many" ] || failed=1
}

failed=0
begun=$(date +%s.%N)
"$wiz" explore program plan one --most 1000000 >one.text
row "one search" "$begun" "$(outcomes one.text)"
for processors in 1 2 4; do
  rm -f part.*
  begun=$(date +%s.%N)
  "$wiz" explore program plan part --most 64 >part.text || [ $? -eq 16 ]
  printf '%s\n' part.left.*.order | xargs -P "$processors" -I FILE sh -c '"$0" explore program plan "$1.found" --under "$1" --most 1000000 >"$1.text"' "$wiz" FILE
  row "$processors processors" "$begun" "$(outcomes part.text part.left.*.order.text)"
done
exit "$failed"
