#!/usr/bin/env bash
# Draws each run that the examples record (by `record`, `races`, `waits`, `check` or `picture`, with their orders), and opens what was written as its readers
# do: `xmllint` reads each SVG, a headless Chromium shows it and tells what it has in it, Python and Chromium read each JSON. Needs `xmllint`, `python3` and
# `chromium` (`apt-get install libxml2-utils python3 chromium`); not part of the gate. A row gives the example, the events, the bytes of the SVG and of the
# JSON, and what went wrong; of a run with too many events it has the message. `bench/pictures.sh FOLDER` keeps the files there, with a PNG beside each SVG.
. "$(dirname "$0")/begin.sh"
kept=${1:-}
failed=0

# A headless Chromium, in a folder of its own. Its own messages are not shown.
browser() {
  chromium --headless --no-sandbox --disable-gpu --user-data-dir="$work/browser" "$@" 2>/dev/null
}

# What is wrong with an SVG, if anything: it is not XML, it is no SVG of so many marks for Chromium, or an element has no ASCII.
fault_of_svg() {
  local dom marks
  xmllint --noout "$1" 2>/dev/null || { echo 'not XML'; return; }
  if LC_ALL=C grep -q '[^ -~]' "$1"; then echo 'not ASCII'; return; fi
  dom=$(browser --dump-dom "file://$1")
  case $dom in *parsererror*) echo 'Chromium: an error of the parser'; return ;; esac
  marks=$(grep -c '<g><title>' <<<"$dom")
  [ "$marks" -eq "$2" ] || echo "Chromium: $marks marks, not $2"
}

# What is wrong with a JSON: Python or Chromium does not read it, a span overlaps one before it on its thread, or there are not so many spans.
fault_of_json() {
  python3 - "$1" "$2" <<'PYTHON' || { echo 'Python: not such a JSON'; return; }
import json
import sys
events = json.load(open(sys.argv[1]))["traceEvents"]
spans = [event for event in events if event["ph"] == "X"]
ends = {}
for span in spans:
    thread = span["pid"], span["tid"]
    assert ends.get(thread, 0) <= span["ts"]
    ends[thread] = span["ts"] + span["dur"]
assert len(spans) == int(sys.argv[2])
PYTHON
  {
    printf '<p id="read"></p><script type="application/json" id="text">'
    cat "$1"
    printf '</script><script>document.getElementById("read").textContent=JSON.parse(document.getElementById("text").textContent)'
    printf '.traceEvents.filter(e=>e.ph=="X").length+" spans"</script>'
  } >page.html
  case $(browser --dump-dom "file://$work/page.html") in *">$2 spans</p>"*) ;; *) echo 'Chromium does not read the JSON' ;; esac
}

# Keeps the files of a row, with the SVG as Chromium shows it.
keep() {
  [ -n "$kept" ] || return 0
  cp run.svg "$kept/$1.svg"
  cp run.json "$kept/$1.json"
  browser --screenshot="$kept/$1.png" --window-size=1400,900 --hide-scrollbars "file://$work/run.svg" >/dev/null
}

# Draws the run of a program, a plan and options into a file; status 7 of a halted run is no failure.
draw() {
  local folder=$1 file=$2
  shift 2
  (cd "$folder" && "$wiz" picture "$1" "$2" "$work/$file" "${@:3}") >told 2>&1 || [ $? -eq 7 ]
}

# A row: the picture of the run of a program, a plan and options, in both formats.
row() {
  local name=$1 folder=$2 events fault
  shift 2
  if draw "$folder" run.svg "$@" && draw "$folder" run.json "$@" --trace; then
    events=$(grep -c '<g><title>' run.svg)
    fault=$(fault_of_svg "$work/run.svg" "$events")$(fault_of_json "$work/run.json" "$events")
    printf '%-34s %6d %8d %8d %s\n' "$name" "$events" "$(stat -c %s run.svg)" "$(stat -c %s run.json)" "${fault:-well}"
    keep "$name"
  else
    fault=$(head -c 60 told)
    printf '%-34s %s\n' "$name" "$fault"
    [ "$fault" != 'picture over 4000' ] || fault=''
  fi
  [ -z "$fault" ] || failed=$((failed + 1))
}

[ -z "$kept" ] || { mkdir -p "$kept" && kept=$(cd "$kept" && pwd); }
declare -A done_already=()
for args in "$top"/examples/*/*args; do
  folder=$(dirname "$args")
  mapfile -t words <"$args"
  case ${words[0]} in record | races | waits | check | picture) ;; *) continue ;; esac
  options=(--serial)
  for ((at = 3; at < ${#words[@]}; at++)); do
    [ "${words[at]}" = --order ] && options=(--order "${words[at + 1]}")
  done
  # A refused command has no run, and an order that an earlier command writes is not there.
  [ ! -f "${args%args}status" ] || [ "$(cat "${args%args}status")" -eq 7 ] || continue
  [ "${options[0]}" = --serial ] || [ -f "$folder/${options[1]}" ] || continue
  run="$(basename "$folder")/${words[1]}/${words[2]}${options[1]:+/${options[1]}}"
  [ -z "${done_already[$run]:-}" ] || continue
  done_already[$run]=yes
  row "${run//\//.}" "$folder" "${words[1]}" "${words[2]}" "${options[@]}"
done
echo "$failed failed"
[ "$failed" -eq 0 ]
