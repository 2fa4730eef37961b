#!/usr/bin/env bash
# Ranks that poll, recorded on threads: how many looks found nothing, and the times beside serial recordings. Each program of the first
# table is recorded many times (100, or as many as are given), and the table has the most vain looks of any rank in any of them; the
# second has a rank that polls for what never comes, on one and two ranks. Needs `rt`.
. "$(dirname "$0")/idle.sh"
. "$(dirname "$0")/begin.sh"
times=${1:-100}

# A program of this body, and a plan of this many ranks, each in a group of its own.
program() {
  local name=$1 ranks=$2 body=$3 rank
  printf '#include <mpi.h>\nint main(void) {\n  int r, n, i, x = 0, flag = 0;\n  MPI_Status s;\n  MPI_Request q;\n  MPI_Request all[8];\n  int got[8];\n  int at;\n  MPI_Comm_rank(MPI_COMM_WORLD, &r);\n  MPI_Comm_size(MPI_COMM_WORLD, &n);\n%s\n  return 0;\n}\n' "$body" >"$name.c"
  for ((rank = 0; rank < ranks; rank++)); do echo "$rank"; done >"$name.plan"
}

# Two million steps, as the language counts them.
work='for (i = 0; i < 200000; i++) x = (x * 5 + i) % 1000;'

# The most looks that found nothing in a log of this program's last recording; each rank has a log of its own.
vain_looks() {
  local log
  for log in "$1".*.srr; do "$wiz" stats "$log" | sed -n 's/^total .* notyet //p'; done | sort -n | tail -n 1
}

row() {
  local name=$1 what=$2 most=0 looks ended=0 serial
  "$wiz" record "$name.c" "$name.plan" "$name" --serial >printed
  serial=$(vain_looks "$name")
  for ((run = 0; run < times; run++)); do
    "$wiz" record "$name.c" "$name.plan" "$name" >printed
    [ "$(tail -n 1 printed)" = finished ] && ended=$((ended + 1))
    looks=$(vain_looks "$name")
    [ "$looks" -le "$most" ] || most=$looks
  done
  printf '%-44s %9d of %d %12d %12d\n' "$what" "$ended" "$times" "$most" "$serial"
}

echo "$(nproc) processors, load $(cut -d' ' -f1 /proc/loadavg) before the run"
printf '%-44s %16s %12s %12s\n' 'a rank that polls, while another computes' finished 'vain looks' serially
program test 2 "  if (r == 1) { $work MPI_Send(&x, 1, MPI_INT, 0, 1, MPI_COMM_WORLD); }
  else { MPI_Irecv(&x, 1, MPI_INT, 1, 1, MPI_COMM_WORLD, &q); while (!flag) MPI_Test(&q, &flag, &s); }"
row test 'MPI_Test'
program probe 2 "  if (r == 1) { $work MPI_Send(&x, 1, MPI_INT, 0, 1, MPI_COMM_WORLD); }
  else { while (!flag) MPI_Iprobe(1, 1, MPI_COMM_WORLD, &flag, &s); MPI_Recv(&x, 1, MPI_INT, 1, 1, MPI_COMM_WORLD, &s); }"
row probe 'MPI_Iprobe'
program any 2 "  if (r == 1) { $work for (i = 0; i < 8; i++) MPI_Send(&x, 1, MPI_INT, 0, i, MPI_COMM_WORLD); }
  else { for (i = 0; i < 8; i++) MPI_Irecv(&got[i], 1, MPI_INT, 1, i, MPI_COMM_WORLD, &all[i]);
    for (i = 0; i < 8; i++) { flag = 0; while (!flag) MPI_Testany(8, all, &at, &flag, &s); } }"
row any 'MPI_Testany over eight requests'
program each 2 "  if (r == 1) { $work for (i = 0; i < 8; i++) MPI_Send(&x, 1, MPI_INT, 0, i, MPI_COMM_WORLD); }
  else { for (i = 0; i < 8; i++) MPI_Irecv(&got[i], 1, MPI_INT, 1, i, MPI_COMM_WORLD, &all[i]);
    at = 0; while (at < 8) for (i = 0; i < 8; i++) { flag = 0; if (all[i] != MPI_REQUEST_NULL) MPI_Test(&all[i], &flag, &s); if (flag) at++; } }"
row each 'MPI_Test of eight requests in turn'
program both 2 "  MPI_Irecv(&got[0], 1, MPI_INT, 1 - r, 1, MPI_COMM_WORLD, &q);
  if (r == 1) { $work MPI_Send(&x, 1, MPI_INT, 0, 1, MPI_COMM_WORLD); while (!flag) MPI_Test(&q, &flag, &s); }
  else { while (!flag) MPI_Test(&q, &flag, &s); $work MPI_Send(&x, 1, MPI_INT, 1, 1, MPI_COMM_WORLD); }"
row both 'two ranks that poll for each other'

# The least of three wall-clock times of a recording in milliseconds.
least() {
  local TIMEFORMAT=%3R
  for _ in 1 2 3; do
    { time "$wiz" record "$@" >printed; } 2>took || true
    [ "$(tail -n 1 printed)" = 'halted limit' ] || { echo "$1: $(tail -n 1 printed)" >&2; exit 1; }
    awk '{ printf "%d\n", $1 * 1000 }' took
  done | sort -n | head -n 1
}

printf '\n%-44s %12s %12s %7s\n' 'polls for what never comes' 'serial, ms' 'threads, ms' ratio
never='  MPI_Irecv(&x, 1, MPI_INT, 0, 5, MPI_COMM_WORLD, &q); while (!flag) MPI_Test(&q, &flag, &s);'
for ranks in 1 2; do
  program never "$ranks" "$never"
  serial=$(least never.c never.plan run --serial)
  threads=$(least never.c never.plan run)
  awk -v what="$ranks ranks" -v s="$serial" -v t="$threads" 'BEGIN { printf "%-44s %12d %12d %7.2f\n", what, s, t, t / s }'
done
