# Sourced by scripts that measure the built tool: they stop at the first failure, have the program built if need be (`wiz`), and work in a
# folder of their own, which is removed at the end. `top` is the top of the repository.
set -euo pipefail
export LC_ALL=C
top=$(cd "$(dirname "${BASH_SOURCE[0]}")/.." && pwd)
work=$(mktemp -d)
trap 'rm -rf "$work"' EXIT
cd "$work"
"$top/wiz" replay "$top/examples/first/first.srr" --serial >/dev/null
wiz=$top/crates/wiz/out/wiz
