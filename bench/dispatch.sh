#!/usr/bin/env bash
# Measures how tablets are handed out: a query over N tablets of one generated record each (4096, the most), from files on four leaves and from memory (`ask`), with 1, 4 and
# 16 workers: a line for each, with the least wall seconds of five runs, the processor seconds of that run, and the tablets a second. What isn't dispatch in it is the opening of
# a footer a tablet. With a second program both run in turn. Let nothing else run.
# usage: bench/dispatch.sh [N] [PROGRAM] [PROGRAM]
set -euo pipefail
count=${1:-4096}
top=$(cd "$(dirname "${BASH_SOURCE[0]}")/.." && pwd)
program=${2:-$top/crates/dremel/out/dremel}
work=$(mktemp -d)
trap 'rm -rf "$work"' EXIT
"$program" gen --seed 0 --records "$count" >"$work/records.jsonl"
mkdir "$work"/leaf{0,1,2,3}
"$program" load --schema "$top/examples/document.txt" --table "$work/t.table" --rows 1 --copies 2 "$work"/leaf{0,1,2,3} <"$work/records.jsonl"
echo "$(nproc) processors, load $(cut -d ' ' -f 1 /proc/loadavg)"
python3 - "$work" "$top/examples/document.txt" "$count" "$program" "${3:-$program}" <<'PY'
import os, resource, subprocess, sys, time
work, schema, count, *programs = sys.argv[1:]
query = "SELECT COUNT(*) AS n FROM Document"
kinds = {"query": ["query", "--table", f"{work}/t.table"], "ask": ["ask", "--schema", schema, "--rows", "1"]}

def once(program, words):
    begun, used = time.time(), resource.getrusage(resource.RUSAGE_CHILDREN)
    with open(f"{work}/records.jsonl") as given:
        text = subprocess.run([program, *words, query], stdin=given, check=True, capture_output=True).stdout
    after = resource.getrusage(resource.RUSAGE_CHILDREN)
    assert text == b'{"n":%d}\n' % int(count), text
    return time.time() - begun, after.ru_utime + after.ru_stime - used.ru_utime - used.ru_stime

for kind, words in kinds.items():
    for workers in ("1", "4", "16"):
        runs = {program: [] for program in programs}
        for _ in range(5):
            for program in runs:
                runs[program].append(once(program, [*words, "--workers", workers]))
        for program, taken in runs.items():
            wall, used = min(taken)
            print(f"{kind:6} {workers:>2} workers  wall {wall:6.3f} s  processor {used:6.3f} s  tablets a second {int(count) / wall:8.0f}  {program}")
PY
