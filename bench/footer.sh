#!/usr/bin/env bash
# Measures reading the footer of a file of 30 leaves with 1,000 row groups, and with twice as many: microseconds of reading
# its struct, of viewing it as metadata besides, and of making its bytes again.
# usage: bench/footer.sh [ROUNDS]
#
# It builds a small program over the repository's crates in a copy of it, which takes some minutes. Let nothing else run.
set -euo pipefail
rounds=${1:-20}
top=$(cd "$(dirname "${BASH_SOURCE[0]}")/.." && pwd)
work=$(mktemp -d)
trap 'rm -rf "$work"' EXIT
mkdir "$work/copy"
tar -C "$top" --exclude=out -cf - crates crates.txt HANDLES | tar -C "$work/copy" -xf -
crate=$work/copy/crates/bench_footer
mkdir -p "$crate/src"
cp "$top/bench/footer/program.txt" "$crate/src/main.rt"
echo 'bench_footer: dr_compact dr_meta' >>"$work/copy/crates.txt"
git init -q "$work/copy"
echo "building" >&2
(cd "$crate" && rt run </dev/null) >"$work/log" 2>&1 || { cat "$work/log" >&2; exit 1; }
for groups in 1000 2000; do
  python3 "$top/bench/footer.py" "$groups" >"$work/footer"
  for round in 1 2 3; do
    "$crate/out/bench_footer" "$work/footer" "$rounds"
  done
done
