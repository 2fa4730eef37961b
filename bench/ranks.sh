#!/usr/bin/env bash
# Ranks that run long, by `wiz` on one thread. First a ping-pong between two ranks, recorded and then
# replayed from its log; then a rank that takes steps in a loop without a call, and one that makes calls of a
# function, both recorded. Needs `rt`. A row gives processor time (user and system, from start to end) in milliseconds: the
# median of five measurements and their range, each the mean of as many runs as the row says. `growth` is the median against
# that of the row above, `ns each` the median by the size.
. "$(dirname "$0")/idle.sh"
set -euo pipefail
export LC_ALL=C
top=$(cd "$(dirname "$0")/.." && pwd)
wiz=$top/crates/wiz/out/wiz
work=$(mktemp -d)
trap 'rm -rf "$work"' EXIT
cd "$work"

# Two ranks that send one int to and fro, half as many turns as there are messages.
ping_pong() {
  echo '0 1' >plan
  cat >program <<END
int main(void) {
  int r, i, x = 7;
  MPI_Comm_rank(MPI_COMM_WORLD, &r);
  for (i = 0; i < $(($1 / 2)); i++) {
    if (r == 0) {
      MPI_Send(&x, 1, MPI_INT, 1, 5, MPI_COMM_WORLD);
      MPI_Recv(&x, 1, MPI_INT, 1, 5, MPI_COMM_WORLD, MPI_STATUS_IGNORE);
    } else {
      MPI_Recv(&x, 1, MPI_INT, 0, 5, MPI_COMM_WORLD, MPI_STATUS_IGNORE);
      MPI_Send(&x, 1, MPI_INT, 0, 5, MPI_COMM_WORLD);
    }
  }
  return 0;
}
END
}

# A loop of two steps a turn: the turn, and its statement.
plain_loop() {
  echo 0 >plan
  echo "int main(void) { int i, x = 0; for (i = 0; i < $(($1 / 2 - 8)); i++) x += i; return 0; }" >program
}

# Each turn declares a hundred variables, each of which begins with a call.
calls() {
  local list
  list=$(seq -s ', ' -f 'x%g = f()' 0 99)
  echo 0 >plan
  echo "int f(void) { } int main(void) { int i; for (i = 0; i < $(($1 / 100)); i++) { int $list; } return 0; }" >program
}

# So many runs of a command, whose last line is to be this one.
run_times() {
  local runs=$1 want=$2
  shift 2
  for ((k = 0; k < runs; k++)); do "$@" >printed || exit 1; done
  [ "$(tail -n 1 printed)" = "$want" ] || { echo "wrong last line of: $*" >&2; exit 1; }
}

# A row of the table, from the name of what is timed, its size, the median above, and how it is run; leaves its median.
row() {
  local name=$1 size=$2 above=$3 TIMEFORMAT='%3U %3S'
  shift 3
  for _ in 1 2 3 4 5; do
    { time run_times "$@"; } 2>time || { cat time >&2; exit 1; }
    awk -v runs="$1" 'END { printf "%d\n", ($1 + $2) * 1000000 / runs }' time
  done | sort -n | tr '\n' ' ' >found
  median=$(cut -d' ' -f3 found)
  echo "$name $size $above $1 $(cat found)" | awk '{
    growth = $3 ? sprintf("%.2f", $7 / $3) : "-"
    range = sprintf("%.1f to %.1f", $5 / 1000, $9 / 1000)
    printf "%-8s %9d %5d %11.1f %20s %8s %9.0f\n", $1, $2, $4, $7 / 1000, range, growth, $7 * 1000 / $2
  }'
}

head_row() {
  printf '%-8s %9s %5s %11s %20s %8s %9s\n' what "$1" runs 'median ms' 'range ms' growth 'ns each'
}

ping_pong 2
"$top/wiz" record program plan A --serial >/dev/null
echo "$(nproc) processors, load $(cut -d' ' -f1 /proc/loadavg) before the run"
head_row messages
recorded=0
replayed=0
for size in 1000 10000 100000; do
  runs=$((size < 100000 ? 10 : 1))
  ping_pong "$size"
  row record "$size" "$recorded" "$runs" finished "$wiz" record program plan A --serial
  recorded=$median
  row replay "$size" "$replayed" "$runs" ended "$wiz" replay A.0.srr --serial
  replayed=$median
done
for what in plain_loop calls; do
  if [ "$what" = calls ]; then sizes='1000000 2000000 4000000 8000000'; name=calls; else sizes='1250000 2500000 5000000 10000000'; name=steps; fi
  head_row "$name"
  above=0
  for size in $sizes; do
    "$what" "$size"
    row "$name" "$size" "$above" 1 finished "$wiz" record program plan A --serial
    above=$median
  done
done
