#!/usr/bin/env bash
# Measures queries over results, and ORDER BY, over N generated records (1,000,000 where no N is given) in one tablet: a record query alone, an aggregate over its result,
# and the same record query with ORDER BY, with ORDER BY and LIMIT, and with LIMIT alone; what is printed is dropped. A line for each, with the least processor seconds of
# five runs, in turn, the most memory in MB, and the ratio to the record query alone. Let nothing else run.
# usage: bench/nested.sh [N] [PROGRAM]
set -euo pipefail
count=${1:-1000000}
top=$(cd "$(dirname "${BASH_SOURCE[0]}")/.." && pwd)
program=${2:-$top/crates/dremel/out/dremel}
work=$(mktemp -d)
trap 'rm -rf "$work"' EXIT
mkdir "$work/leaf"
"$program" gen --seed 0 --records "$count" | "$program" load --schema "$top/examples/document.txt" --table "$work/table" --rows 1000000 "$work/leaf"
python3 - "$program" "$work/table" <<'PY'
import os, subprocess, sys
program, table = sys.argv[1:]
inner = "SELECT DocId, COUNT(Name.Language.Code) WITHIN RECORD AS codes FROM Document"
ways = [
    ("the record query alone", inner),
    ("an aggregate over its result", f"SELECT COUNT(*) AS n, SUM(codes) AS s FROM ({inner})"),
    ("the record query, ORDER BY", f"{inner} ORDER BY codes DESC"),
    ("the record query, ORDER BY and LIMIT 10", f"{inner} ORDER BY codes DESC LIMIT 10"),
    ("the record query, LIMIT 10", f"{inner} LIMIT 10"),
]


def once(query):
    run = subprocess.Popen([program, "query", "--table", table, "--workers", "1", query], stdout=subprocess.DEVNULL)
    _, status, used = os.wait4(run.pid, 0)
    assert status == 0, query
    return used.ru_utime + used.ru_stime, used.ru_maxrss / 1024


runs = [[once(query) for _, query in ways] for _ in range(5)]
alone = min(run[0][0] for run in runs)
for at, (name, _) in enumerate(ways):
    least, most = min(run[at][0] for run in runs), max(run[at][1] for run in runs)
    print(f"{name:42} processor {least:7.3f} s  memory {most:7.1f} MB  ratio {least / alone:5.2f}")
PY
