#!/usr/bin/env bash
# Measures tables of V1 and of V2 pages on N generated records (150,000 where no N is given): `load`, a query of one leaf, one of all leaves, and
# `dump` of all. The two forms take turns, ROUNDS times (5 where not given). A line for each: the least processor seconds with V1 and with V2 pages, and
# how many times as long V2 takes.
# usage: bench/files.sh [N] [PROGRAM] [ROUNDS]
set -euo pipefail
count=${1:-150000}
top=$(cd "$(dirname "${BASH_SOURCE[0]}")/.." && pwd)
program=${2:-$top/crates/dremel/out/dremel}
work=$(mktemp -d)
trap 'rm -rf "$work"' EXIT
"$program" gen --seed 0 --records "$count" >"$work/records.jsonl"
mkdir "$work/leaf1" "$work/leaf2"
echo "$count records, $(wc -c <"$work/records.jsonl") bytes of JSON, $(nproc) processors, load $(cut -d' ' -f1 /proc/loadavg)"
exec python3 - "$program" "$work" "$top/examples/document.txt" "${3:-5}" <<'PY'
import os, subprocess, sys
program, work, schema, rounds = sys.argv[1:]
LEAVES = ["DocId", "Links.Backward", "Links.Forward", "Name.Language.Code", "Name.Language.Country", "Name.Url"]
ALL = ("SELECT COUNT(DocId), SUM(Links.Backward), SUM(Links.Forward), COUNT(Name.Language.Code), COUNT(Name.Language.Country), COUNT(Name.Url)"
       " FROM Document")
RUNS = {
    "load": lambda form: ["load", "--schema", schema, "--table", f"{work}/{form}.table", "--pages", form, f"{work}/leaf{form}"],
    "query, one leaf": lambda form: ["query", "--table", f"{work}/{form}.table", "--workers", "1", "SELECT COUNT(Name.Url) FROM Document"],
    "query, all leaves": lambda form: ["query", "--table", f"{work}/{form}.table", "--workers", "1", ALL],
    "dump": lambda form: ["dump", "--table", f"{work}/{form}.table", *LEAVES],
}


def seconds(words):
    """The processor seconds that the program takes for these words."""
    before = os.times()
    with open(f"{work}/records.jsonl") as given, open(f"{work}/out", "w") as out:
        subprocess.run([program, *words], stdin=given, stdout=out, check=True)
    after = os.times()
    return after.children_user + after.children_system - before.children_user - before.children_system


print(f"{'':20} {'V1':>8} {'V2':>8} {'V2/V1':>6}")
for name, words in RUNS.items():
    least = dict.fromkeys("12", float("inf"))
    for _ in range(int(rounds)):
        least = {form: min(before, seconds(words(form))) for form, before in least.items()}
    print(f"{name:20} {least['1']:8.2f} {least['2']:8.2f} {least['2'] / least['1']:6.2f}")
PY
