#!/bin/sh
# Tries the wrong bodies in tests/hand/bugs/CRATE.edits of each crate that is named: the prover has to refuse each. It works on a
# copy of the crates, and its status is that of `rt must-fail`.
top=$(CDPATH='' cd -- "$(dirname -- "$0")/../.." && pwd) || exit 1
[ $# -gt 0 ] || { echo "usage: tests/hand/bugs.sh CRATE.." >&2; exit 2; }
copy=$(mktemp -d) || exit 1
trap 'rm -rf "$copy"' EXIT
cp -a "$top/crates" "$top/crates.txt" "$top/HANDLES" "$copy" || exit 1
for crate in "$@"; do
  edits=$copy/crates/$crate/must-fail
  rm -rf "$edits" && mkdir "$edits" || exit 1
  awk -v folder="$edits" '/^bug / { file = folder "/" $2 ".edit"; next } NF { print > file }' "$top/tests/hand/bugs/$crate.edits" || exit 1
done
cd "$copy" && rt must-fail "$@"
