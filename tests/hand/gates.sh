#!/bin/sh
# Makes the runs of the two tests that hold threads at their gates 2,000 times each, or as often as is named; each pass of a
# gate idles for up to 20,000 turns first, a number drawn for each. It works on a copy of the crates, and proves nothing.
top=$(CDPATH='' cd -- "$(dirname -- "$0")/../.." && pwd) || exit 1
times=${1:-2000}
copy=$(mktemp -d) || exit 1
trap 'rm -rf "$copy"' EXIT
cp -a "$top/crates" "$top/crates.txt" "$top/HANDLES" "$copy" || exit 1
cd "$copy/crates/lt_tests" || exit 1
sed -i "s/^pub(crate) const TIMES: u64 = 1;/pub(crate) const TIMES: u64 = $times;/; s/^const IDLE: u64 = 1;/const IDLE: u64 = 20_000;/" src/gates.rt || exit 1
rt try --test --seconds 3600
