#!/usr/bin/env bash
# Replays that grow: rank 0 sends a growing number of messages to rank 1, and both are replayed on one thread from their log. First
# `wiz replay LOG --serial`, with programs as long as a text may be; then `bench_replay`, which makes the
# log and the program in memory. Needs `rt`. A row gives processor time (user and system, from start to end) in milliseconds:
# the median of five measurements and their range, each the mean of ten runs. `growth` is the median against that of the row
# above.
. "$(dirname "$0")/idle.sh"
set -euo pipefail
export LC_ALL=C
top=$(cd "$(dirname "$0")/.." && pwd)
work=$(mktemp -d)
trap 'rm -rf "$work"' EXIT

# A program with this many messages, and its log for the group of both ranks.
make_log() {
  awk -v n="$1" 'BEGIN {
    text = "int main(void){int r,x=7;MPI_Comm_rank(MPI_COMM_WORLD,&r);if(r==0){"
    for (k = 0; k < n; k++) text = text "MPI_Send(&x,1,MPI_INT,1,5,MPI_COMM_WORLD);"
    text = text "}if(r==1){"
    for (k = 0; k < n; k++) text = text "MPI_Recv(&x,1,MPI_INT,0,5,MPI_COMM_WORLD,MPI_STATUS_IGNORE);"
    text = text "printf(\"%d\\n\",x);}return 0;}"
    printf "srr 1\nranks 2\ngroup 0 1\nprogram %d\n%s\nrank 0 %d\n", length(text), text, n + 1
    for (k = 0; k < n; k++) print "s"
    printf "z\nrank 1 %d\n", 2 * n + 1
    for (k = 0; k < n; k++) printf "p\nt 0=0.%d\n", k
    print "z\nend"
  }'
}

ten_times() {
  for _ in 1 2 3 4 5 6 7 8 9 10; do "$@" >"$work/printed" || exit 1; done
}

# Five measurements of a command in microseconds a run, the shortest first. Its last line is to be this one.
times() {
  local want=$1 TIMEFORMAT='%3U %3S'
  shift
  for _ in 1 2 3 4 5; do
    { time ten_times "$@"; } 2>"$work/time" || { echo "failed: $*" >&2; exit 1; }
    [ "$(tail -n 1 "$work/printed")" = "$want" ] || { echo "wrong last line of: $*" >&2; exit 1; }
    awk 'END { printf "%d\n", ($1 + $2) * 100000 }' "$work/time"
  done | sort -n | tr '\n' ' '
}

# A row of the table, from the size, the five times and the row above.
row() {
  local size=$1 above=$2
  shift 2
  echo "$size $above $*" | awk '{
    growth = $2 ? sprintf("%.2f", $5 / $2) : "-"
    range = sprintf("%.1f to %.1f", $3 / 1000, $7 / 1000)
    printf "%9d %11.1f %20s %8s %14.2f\n", $1, $5 / 1000, range, growth, $5 / $1
  }'
}

head_row() {
  printf '%9s %11s %20s %8s %14s\n' messages 'median ms' 'range ms' growth 'us a message'
}

echo "$(nproc) processors, load $(cut -d' ' -f1 /proc/loadavg) before the run"
make_log 1 >"$work/first.srr"
"$top/wiz" replay "$work/first.srr" --serial >/dev/null
echo 'wiz replay LOG --serial'
head_row
above=0
for size in 80 160 320 600; do
  make_log "$size" >"$work/$size.srr"
  "$top/crates/wiz/out/wiz" replay "$work/$size.srr" --serial >"$work/line" || { cat "$work/line" >&2; exit 1; }
  found=$(times "$(tail -n 1 "$work/line")" "$top/crates/wiz/out/wiz" replay "$work/$size.srr" --serial)
  row "$size" "$above" $found
  above=$(echo "$found" | cut -d' ' -f3)
done

(cd "$top/crates/bench_replay" && rt run -- 10) >"$work/build.log" 2>&1 || { cat "$work/build.log" >&2; exit 1; }
echo 'bench_replay MESSAGES'
head_row
above=0
for size in 12500 25000 50000 100000; do
  found=$(times "$size messages $((3 * size + 2)) events 2 ranks ended" "$top/crates/bench_replay/out/bench_replay" "$size")
  row "$size" "$above" $found
  above=$(echo "$found" | cut -d' ' -f3)
done
