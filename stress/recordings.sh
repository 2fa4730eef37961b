#!/usr/bin/env bash
# Records a program with wildcard receives in a loop on threads, 1,000 times (or as often as the argument says), and replays each group
# of each recording on threads and serially: both traces are to be the same, and each rank's output the recorded one. Prints how
# many different orders were recorded, and fails at the first difference, or where there is one order alone. Needs `rt`.
set -euo pipefail
export LC_ALL=C
count=${1:-1000}
top=$(cd "$(dirname "$0")/.." && pwd)
work=$(mktemp -d)
trap 'rm -rf "$work"' EXIT
cp "$top"/examples/race/race.c "$top"/examples/race/three.plan "$work"
cd "$work"
"$top/wiz" record race.c three.plan first >/dev/null
wiz=$top/crates/wiz/out/wiz

# Rank, number of bytes and first line of each output, of a record text or of a trace.
outputs() {
  awk '/^rank [0-9]+ output/ { print $2, $4; getline; print; next }
       /^rank [0-9]+$/ { rank = $2; next }
       /^output [0-9]+$/ { print rank, $2; getline; print }' "$1"
}

for ((run = 1; run <= count; run++)); do
  "$wiz" record race.c three.plan run >recorded
  sha256sum <run.order >>orders
  : >replayed
  for group in 0 1 2; do
    "$wiz" replay "run.$group.srr" >threads
    "$wiz" replay "run.$group.srr" --serial >serial
    cmp threads serial || { echo "recording $run: the traces of group $group differ" >&2; exit 1; }
    outputs threads >>replayed
  done
  outputs recorded >wanted
  cmp wanted replayed || { echo "recording $run: an output differs" >&2; exit 1; }
done
orders=$(sort -u orders | wc -l)
echo "$count recordings, $orders different orders, no difference in their replays"
[ "$orders" -ge 2 ]
