#!/usr/bin/env bash
# Measures a session that grows: publishes of 1,000 records, and a COUNT after each, up to N tablets (4,000 where no N is given). Wall microseconds of a
# publish and of a COUNT at 1, 100 and N tablets: the first one after a publish, which checks nothing but scans all, and one more, of which no tablet is
# new; then the most memory for each byte published. Let nothing else run.
# usage: bench/session.sh [N] [PROGRAM]
set -euo pipefail
count=${1:-4000}
top=$(cd "$(dirname "${BASH_SOURCE[0]}")/.." && pwd)
program=${2:-$top/crates/dremel/out/dremel}
schema=$(mktemp)
trap 'rm -f "$schema"' EXIT
echo 'message T { required int64 a; optional string b; }' > "$schema"
echo "$count tablets of 1,000 records, $(nproc) processors, load $(cut -d ' ' -f 1 /proc/loadavg)"
python3 - "$count" "$program" session --schema "$schema" <<'PY'
import subprocess, sys, time
count, *words = sys.argv[1:]
count = int(count)
places = sorted({1, min(100, count), count})
near = {n for place in places for n in range(max(1, place - 2), min(count, place + 2) + 1)}
session = subprocess.Popen(words, stdin=subprocess.PIPE, stdout=subprocess.PIPE)

def said(line, lines):
    """The wall microseconds until a line's answer is there."""
    begun = time.perf_counter()
    session.stdin.write(line)
    session.stdin.flush()
    for _ in range(lines):
        session.stdout.readline()
    return (time.perf_counter() - begun) * 1e6

def memory():
    """The most memory so far, in bytes."""
    with open(f"/proc/{session.pid}/status") as file:
        return next(int(row.split()[1]) * 1024 for row in file if row.startswith("VmHWM"))

ask, empty, took, sizes = b"?SELECT COUNT(a) AS n FROM T\n", memory(), {}, 0
for number in range(1, count + 1):
    records = b"".join(b'+{"a":%d,"b":"some text of record %d"}\n' % (at, at) for at in range(number * 1000, number * 1000 + 1000))
    session.stdin.write(records)
    session.stdin.flush()
    publish = said(b".\n", 1)
    if number in near:
        took[number] = (publish, said(ask, 2), said(ask, 2))
for place in places:
    rows = [took[n] for n in near if abs(n - place) <= 2 and n in took]
    publish, first, again = (min(row[at] for row in rows) for at in range(3))
    print(f"{place:6} tablets: a publish {publish:9.0f} us  COUNT {first:9.0f} us  once more {again:9.0f} us")
grown = memory() - empty
session.stdin.close()
session.wait()
if session.returncode:
    sys.exit(f"status {session.returncode}")
print(f"memory {grown / 1e6:.1f} MB beside the {empty / 1e6:.1f} MB of an empty session: {grown / count:.0f} bytes a tablet")
PY
# the bytes of a tablet of 1,000 such records, as `load` writes it
folder=$(mktemp -d)
trap 'rm -rf "$schema" "$folder"' EXIT
mkdir "$folder/a"
for at in $(seq 1000 1999); do echo "{\"a\":$at,\"b\":\"some text of record $at\"}"; done | "$program" load --schema "$schema" --table "$folder/t" --rows 1000 "$folder/a" > /dev/null
echo "a tablet has $(stat -c %s "$folder"/a/*.parquet) bytes"
