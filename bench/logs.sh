#!/usr/bin/env bash
# Counts the bytes of logs in both formats over the examples: makes their recordings, and converts each log to either format. Prints for
# each log its entries, the bytes of its program, and in each format the bytes of all but the program, also by entry. Needs `rt`.
. "$(dirname "$0")/begin.sh"

# Runs a command in a copy of an example. A run that was halted, with status 7, is recorded too.
record() {
  local copy=$1 status=0
  shift
  (cd "$copy" && "$wiz" "$@" >/dev/null) || status=$?
  [ "$status" -eq 0 ] || [ "$status" -eq 7 ]
}

# One line: a log's entries, the bytes of its program, and the rest of its bytes in both formats.
row() {
  local name=$1 log=$2 lines bytes
  "$wiz" convert "$log" "$work/lines" --text
  "$wiz" convert "$log" "$work/bytes"
  "$wiz" show "$log" >"$work/shown"
  "$wiz" stats "$log" >"$work/counted"
  lines=$(wc -c <"$work/lines")
  bytes=$(wc -c <"$work/bytes")
  awk -v name="$name" -v lines="$lines" -v bytes="$bytes" '
    FNR == 3 && FILENAME ~ /shown$/ { program = $2 }
    $1 == "total" && $2 == "entries" { entries = $3 }
    END {
      lines -= program; bytes -= program
      printf "| %s | %d | %d | %d | %d | %.2f | %.2f |\n", name, entries, program, lines, bytes, lines / entries, bytes / entries
    }' "$work/shown" "$work/counted"
}

echo "| log | entries | bytes of the program | format 1 | format 2 | format 1 an entry | format 2 an entry |"
echo "|---|---|---|---|---|---|---|"
for folder in "$top"/examples/*/; do
  example=$(basename "$folder")
  copy=$work/examples/$example
  mkdir -p "$copy"
  cp -r "$folder." "$copy"
  rm -rf "$copy/want"
  for args in "$copy"/*args; do
    [ -e "$args" ] && [ "$(head -n 1 "$args")" = record ] || continue
    [ ! -e "${args%args}status" ] || [ "$(cat "${args%args}status")" -eq 7 ] || continue
    mapfile -t words <"$args"
    record "$copy" "${words[@]}"
  done
  [ "$example" != limit ] || record "$copy" record limit.c one.plan run --serial
  for log in "$copy"/*.srr; do
    [ ! -e "$log" ] || row "$example/$(basename "$log")" "$log"
  done
done
