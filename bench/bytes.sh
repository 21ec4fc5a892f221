#!/usr/bin/env bash
# Measures reading pages of 65,536 values: repeat runs, packed runs of width 1 and 3, int64, and texts of 9 bytes, each
# beside a fill or a copy of as many bytes, in picoseconds a value.
# usage: bench/bytes.sh [ROUNDS]
#
# It builds a small program over the repository's crates in a copy of it, which takes some minutes. Let nothing else run.
set -euo pipefail
rounds=${1:-2000}
top=$(cd "$(dirname "${BASH_SOURCE[0]}")/.." && pwd)
work=$(mktemp -d)
trap 'rm -rf "$work"' EXIT
mkdir "$work/copy"
tar -C "$top" -cf - crates crates.txt HANDLES | tar -C "$work/copy" -xf -
crate=$work/copy/crates/bench_bytes
mkdir -p "$crate/src"
cp "$top/bench/bytes/program.txt" "$crate/src/main.rt"
echo 'bench_bytes: dr_hybrid dr_plain' >>"$work/copy/crates.txt"
git init -q "$work/copy"
echo "building" >&2
(cd "$crate" && rt run </dev/null) >"$work/log" 2>&1 || { cat "$work/log" >&2; exit 1; }
for round in 1 2 3; do
  "$crate/out/bench_bytes" "$rounds"
done
