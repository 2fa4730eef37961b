#!/usr/bin/env bash
# Tries wrong bodies that the gate does not try: the edits of wrong_bodies/CRATE, each a mistake in one line that the check of the crate has
# to refuse. Those of the crates that are named, or all. In a copy of the tree, by `rt ci`, which takes what the gate has proved on this
# machine as it is; a crate is proved once more for its edits to begin with, and an edit takes 6 to 40 seconds.
# The last line is rt's: `N passed, M failed`.
set -u
here=$(cd "$(dirname "${BASH_SOURCE[0]}")" && pwd) || exit 1
top=$(dirname "$here")
if [ $# -gt 0 ]; then crates=("$@"); else mapfile -t crates < <(ls "$here/wrong_bodies"); fi
copy=$(mktemp -d) || exit 1
trap 'rm -rf "$copy"' EXIT
cd "$top" || exit 1
git ls-files -z crates crates.txt HANDLES | xargs -0 cp --parents -t "$copy" || exit 1
for crate in "${crates[@]}"; do
  mkdir -p "$copy/crates/$crate/must-fail"
  cp "$here/wrong_bodies/$crate"/*.edit "$copy/crates/$crate/must-fail/" || exit 1
done
cd "$copy" && RT_JOBS=$(nproc) rt ci "${crates[@]}"
