#!/usr/bin/env bash
# Measures the walk of records over their columns, on N generated records (150,000 where no N is given): of all six leaves, of DocId alone,
# and of Name.Language.Country alone, and beside it, in the same run, the decoding of the same levels from their runs. Each row has the
# nanoseconds a triplet, the least and the most of some rounds.
# usage: bench/walk.sh [N]
#
# It builds the program that makes the records, where it isn't built, and a small one over the repository's crates in a copy of it, which takes some
# minutes. Let nothing else run.
set -euo pipefail
count=${1:-150000}
top=$(cd "$(dirname "${BASH_SOURCE[0]}")/.." && pwd)
work=$(mktemp -d)
trap 'rm -rf "$work"' EXIT
mkdir "$work/copy"
tar -C "$top" -cf - --exclude out crates crates.txt HANDLES | tar -C "$work/copy" -xf -
crate=$work/copy/crates/bench_walk
mkdir -p "$crate/src"
cp "$top/bench/walk/program.txt" "$crate/src/main.rt"
for file in "$top"/bench/walk/*_answers.txt "$top"/bench/walk/*_invariants.txt; do
  name=$(basename "$file" .txt)
  part=${name##*_}
  mkdir -p "$crate/proofs/${name%_*}"
  cp "$file" "$crate/proofs/${name%_*}/${part^}.antt"
done
echo 'bench_walk: dr_hybrid dr_json dr_levels dr_lines dr_meaning dr_moves dr_nested dr_outside dr_striper dr_walk serde_json' >>"$work/copy/crates.txt"
git init -q "$work/copy"
"$top/dremel" --build
"$top/crates/dremel/out/dremel" gen --seed 0 --records "$count" >"$work/records.jsonl"
echo "building" >&2
(cd "$crate" && rt run </dev/null) >"$work/log" 2>&1 || { cat "$work/log" >&2; exit 1; }
echo "$count records, $(nproc) processors, load $(cut -d' ' -f1 /proc/loadavg)"
measure() {
  echo "$*:"
  "$crate/out/bench_walk" "$work/records.jsonl" "$@" | awk '
    { each = $3 / $2; count[$1] = $2; if (!($1 in least) || each < least[$1]) least[$1] = each; if (each > most[$1]) most[$1] = each }
    END { for (name in least) printf "  %-8s %9d triplets %8.2f to %.2f ns each\n", name, count[name], least[name], most[name] }'
}
measure DocId Links.Backward Links.Forward Name.Language.Code Name.Language.Country Name.Url
measure DocId
measure Name.Language.Country
