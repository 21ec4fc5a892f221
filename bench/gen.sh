#!/usr/bin/env bash
# Measures `gen` of N records (10,000,000 where no N is given, about 1.5 GB), whose text is thrown away: processor seconds, wall seconds, MB a wall
# second, and the most memory in MB; three rounds. Let nothing else run.
# usage: bench/gen.sh [N] [PROGRAM]
set -euo pipefail
count=${1:-10000000}
top=$(cd "$(dirname "${BASH_SOURCE[0]}")/.." && pwd)
program=${2:-$top/crates/dremel/out/dremel}
bytes=$("$program" gen --seed 0 --records "$count" | wc -c)
echo "$count records, $bytes bytes, $(nproc) processors, load $(cut -d ' ' -f 1 /proc/loadavg)"
for _ in 1 2 3; do
  python3 - "$bytes" "$program" gen --seed 0 --records "$count" <<'PY'
import resource, subprocess, sys, time
size, *words = sys.argv[1:]
begun = time.time()
status = subprocess.call(words, stdout=subprocess.DEVNULL)
wall = time.time() - begun
used = resource.getrusage(resource.RUSAGE_CHILDREN)
print(f"status {status}  processor {used.ru_utime + used.ru_stime:7.2f} s  wall {wall:7.2f} s  {int(size) / 1e6 / wall:7.1f} MB/s  memory {used.ru_maxrss / 1024:7.1f} MB")
PY
done
