#!/usr/bin/env bash
# Measures tables on N generated records (1,000,000 where no N is given, about 146 MB): `ask` with one COUNT over them, `load` into one folder and
# into four with two copies of each tablet, and `dump` of one leaf. A line for each: processor seconds, wall seconds, and the most memory in MB.
# Then the same `load` over a tenth of the records, by which time and memory grow, and in tablets of a thousand records, of which each is synced
# to the device. Where there is cc, loads are run again with each sync answered at once: what is less then is the price of syncing.
# usage: bench/load.sh [N] [PROGRAM]
set -euo pipefail
count=${1:-1000000}
top=$(cd "$(dirname "${BASH_SOURCE[0]}")/.." && pwd)
program=${2:-$top/crates/dremel/out/dremel}
work=$(mktemp -d)
trap 'rm -rf "$work"' EXIT
"$program" gen --seed 0 --records "$count" >"$work/records.jsonl"
"$program" gen --seed 0 --records "$((count / 10))" >"$work/tenth.jsonl"
mkdir "$work"/leaf{0,1,2,3,4,5,6,7,8}
schema=$top/examples/document.txt

# measured NAME INPUT WORDS..
measured() {
  python3 - "$program" "$work" "$@" <<'PY'
import os, resource, subprocess, sys, time
program, work, name, source, *words = sys.argv[1:]
begun = time.time()
with open(source) as given, open(work + "/out", "w") as out:
    status = subprocess.call([program, *words], stdin=given, stdout=out)
used = resource.getrusage(resource.RUSAGE_CHILDREN)
print(f"{name:44} status {status}  processor {used.ru_utime + used.ru_stime:7.2f} s  wall {time.time() - begun:7.2f} s  memory {used.ru_maxrss / 1024:7.1f} MB")
PY
}

measured "ask, one COUNT" "$work/records.jsonl" ask --schema "$schema" "SELECT COUNT(Name.Url) FROM Document"
measured "load, one folder" "$work/records.jsonl" load --schema "$schema" --table "$work/one.table" "$work/leaf0"
measured "load, four folders, two copies" "$work/records.jsonl" load --schema "$schema" --table "$work/four.table" --copies 2 "$work"/leaf{1,2,3,4}
measured "dump of DocId" /dev/null dump --table "$work/one.table" DocId
measured "dump of Name.Language.Code, two copies" /dev/null dump --table "$work/four.table" Name.Language.Code
measured "load of a tenth, one folder" "$work/tenth.jsonl" load --schema "$schema" --table "$work/tenth.table" "$work/leaf5"
measured "load, tablets of 1,000" "$work/records.jsonl" load --schema "$schema" --table "$work/small.table" --rows 1000 "$work/leaf6"
if command -v cc >/dev/null; then
  echo 'int fsync(int file) { (void)file; return 0; }' | cc -shared -fPIC -x c -o "$work/unsynced.so" -
  export LD_PRELOAD=$work/unsynced.so
  measured "load, one folder, no sync" "$work/records.jsonl" load --schema "$schema" --table "$work/unsynced.table" "$work/leaf7"
  measured "load, tablets of 1,000, no sync" "$work/records.jsonl" load --schema "$schema" --table "$work/unsynced.table" --rows 1000 "$work/leaf8"
  unset LD_PRELOAD
fi
du -sm "$work/leaf0" | awk '{ print "the tablets in one folder: " $1 " MB" }'
