#!/usr/bin/env bash
# Turns a second of the turn lock, beside Rust's std::sync::Mutex: 2, 4, 8 and 64 threads push entries to one locked list.
# Needs `rt` and `rustc`. A row gives the median of five runs and their range, measured from outside, from start to end.
. "$(dirname "$0")/idle.sh"
set -euo pipefail
export LC_ALL=C
top=$(cd "$(dirname "$0")/.." && pwd)
work=$(mktemp -d)
trap 'rm -rf "$work"' EXIT

lock="$top/crates/bench_lock/out/bench_lock"
(cd "$top/crates/bench_lock" && rt run -- 2 10) >"$work/build.log" 2>&1 || { cat "$work/build.log" >&2; exit 1; }

cat >"$work/mutex.rs" <<'RUST'
use std::sync::Mutex;
use std::thread;

fn main() {
    let words: Vec<u32> = std::env::args().skip(1).map(|word| word.parse().unwrap()).collect();
    let (seats, turns) = (words[0], words[1]);
    let entries = Mutex::new(Vec::new());
    thread::scope(|scope| {
        for seat in 0..seats {
            let entries = &entries;
            scope.spawn(move || {
                for turn in 0..turns {
                    entries.lock().unwrap().push((seat, turn));
                }
            });
        }
    });
    println!("{seats} seats {turns} turns {} entries", entries.into_inner().unwrap().len());
}
RUST
rustc -O -o "$work/mutex" "$work/mutex.rs"

# The times of five runs in microseconds, the shortest first.
times() {
  for _ in 1 2 3 4 5; do
    local from=${EPOCHREALTIME/./}
    "$@" >"$work/line"
    echo $((${EPOCHREALTIME/./} - from))
    [ "$(cat "$work/line")" = "$2 seats $3 turns $(($2 * $3)) entries" ] || { echo "wrong line: $(cat "$work/line")" >&2; exit 1; }
  done | sort -n | tr '\n' ' '
}

echo "$(nproc) processors, load $(cut -d' ' -f1 /proc/loadavg) before the run; $(rustc --version)"
printf '%6s %8s  %12s %25s  %12s %25s %7s\n' seats turns 'lock turns/s' '(slowest to fastest)' 'Mutex' '(slowest to fastest)' ratio
for row in '2 1000000' '4 250000' '8 100000' '64 12500'; do
  read -r seats turns <<<"$row"
  ours=$(times "$lock" "$seats" "$turns")
  theirs=$(times "$work/mutex" "$seats" "$turns")
  echo "$seats $turns $ours $theirs" | awk '{
    n = $1 * $2 * 1e6
    lock = sprintf("(%.0f to %.0f)", n / $7, n / $3)
    mutex = sprintf("(%.0f to %.0f)", n / $12, n / $8)
    printf "%6d %8d  %12.0f %25s  %12.0f %25s %7.3f\n", $1, $2, n / $5, lock, n / $10, mutex, $10 / $5
  }'
done
