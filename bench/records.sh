#!/usr/bin/env bash
# Measures reading records, striping them into columns, and the commands over them, on N generated records (150,000 where no N is
# given), and the memory that columns take.
# usage: bench/records.sh [N]
#
# It builds the program that makes the records, where it isn't built, and a small one over the repository's crates in a copy of it,
# which takes some minutes, and prints the seconds of cutting lines alone, of cutting and reading each record, of testing each against the schema besides, of striping each into
# all six columns besides, of `dremel ask` with one COUNT, and of `dremel stripe` with one FIELD. Then it prints, over 16 times the
# records, the most memory that a run took: without columns, and with the one column of a leaf. Let nothing else run.
set -euo pipefail
count=${1:-150000}
top=$(cd "$(dirname "${BASH_SOURCE[0]}")/.." && pwd)
work=$(mktemp -d)
trap 'rm -rf "$work"' EXIT
mkdir "$work/copy"
tar -C "$top" -cf - --exclude out crates crates.txt HANDLES | tar -C "$work/copy" -xf -
crate=$work/copy/crates/bench_records
mkdir -p "$crate/src"
cp "$top/bench/records/program.txt" "$crate/src/main.rt"
sed -e '/^\/\/\/ A sink/,$d' -e 's/{Failed, Sink, Source}/{Failed, Source}/' -e 's/{Read, Write}/Read/' "$top/crates/dr_files/src/streams.rt" >"$crate/src/streams.rt"
for name in find_leaves leaf read_on read_all; do
  mkdir -p "$crate/proofs/$name"
  if [ -f "$top/bench/records/${name}_answers.txt" ]; then cp "$top/bench/records/${name}_answers.txt" "$crate/proofs/$name/Answers.antt"; fi
  if [ -f "$top/bench/records/${name}_invariants.txt" ]; then cp "$top/bench/records/${name}_invariants.txt" "$crate/proofs/$name/Invariants.antt"; fi
done
echo 'bench_records: dr_json dr_lines dr_nested dr_outside dr_striper' >>"$work/copy/crates.txt"
git init -q "$work/copy"
"$top/dremel" --build
"$top/crates/dremel/out/dremel" gen --seed 0 --records "$count" >"$work/records.jsonl"
echo "building" >&2
(cd "$crate" && rt run </dev/null) >"$work/log" 2>&1 || { cat "$work/log" >&2; exit 1; }
program=$crate/out/bench_records
leaves="DocId Links.Backward Links.Forward Name.Language.Code Name.Language.Country Name.Url"
TIMEFORMAT="%R s"
echo "$count records, $(wc -c <"$work/records.jsonl") bytes"
for round in 1 2 3; do
  echo -n "lines alone:       " && time "$program" <"$work/records.jsonl"
  echo -n "lines and records: " && time "$program" records <"$work/records.jsonl"
  echo -n "and the test:      " && time "$program" records test <"$work/records.jsonl"
  # shellcheck disable=SC2086
  echo -n "and six columns:   " && time "$program" records test $leaves <"$work/records.jsonl"
  echo -n "dremel ask:        " && time "$top/crates/dremel/out/dremel" ask --schema "$top/examples/document.txt" "SELECT COUNT(Name.Url) FROM Document" <"$work/records.jsonl"
  echo -n "dremel stripe:     " && time "$top/crates/dremel/out/dremel" stripe --schema "$top/examples/document.txt" Name.Language.Country <"$work/records.jsonl" >/dev/null
done
for _ in 1 2 3 4 5 6 7 8 9 10 11 12 13 14 15 16; do cat "$work/records.jsonl"; done >"$work/many.jsonl"
# the most memory of a run, in KiB
most() {
  python3 -c 'import os, subprocess, sys
with open(sys.argv[1], "rb") as records:
    run = subprocess.Popen(sys.argv[2:], stdin=records)
    print(os.wait4(run.pid, 0)[2].ru_maxrss)' "$work/many.jsonl" "$program" "$@"
}
echo "$((16 * count)) records, without columns: $(most records test) KiB"
for leaf in $leaves; do
  echo "with the column of $leaf: $(most records test "$leaf") KiB"
done
