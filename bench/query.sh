#!/usr/bin/env bash
# Measures four queries over N generated records (150,000 where no N is given, about 22 MB of JSON), loaded into one tablet and into ten, and asked of the records
# themselves: a line for each: processor seconds, wall seconds, and the most memory in MB. Then one of them over a tenth of the records, by which time and memory grow,
# and over the ten tablets with one worker, two and four; groups of 1,000,000 flat records, 1,000 groups of them and 100,000, in random order. Last, where rustc is there, these queries over the one tablet beside a hand-written reader
# (bench/limit/limit.rs, plain Rust on one thread, which must print the same): a line for each, with the least processor seconds of five runs of the program and of the
# reader, in turn, and their ratio. Let nothing else run.
# usage: bench/query.sh [N] [PROGRAM]
set -euo pipefail
count=${1:-150000}
top=$(cd "$(dirname "${BASH_SOURCE[0]}")/.." && pwd)
program=${2:-$top/crates/dremel/out/dremel}
work=$(mktemp -d)
trap 'rm -rf "$work"' EXIT
"$program" gen --seed 0 --records "$count" >"$work/records.jsonl"
"$program" gen --seed 0 --records "$((count / 10))" >"$work/tenth.jsonl"
mkdir "$work"/leaf{0,1,2}
schema=$top/examples/document.txt
echo "$(nproc) processors, load $(cut -d ' ' -f 1 /proc/loadavg)"

# measured NAME INPUT WORDS..
measured() {
  python3 - "$program" "$work" "$@" <<'PY'
import os, resource, subprocess, sys, time
program, work, name, source, *words = sys.argv[1:]
begun = time.time()
with open(source) as given, open(work + "/out", "w") as out:
    status = subprocess.call([program, *words], stdin=given, stdout=out)
used = resource.getrusage(resource.RUSAGE_CHILDREN)
print(f"{name:44} status {status}  processor {used.ru_utime + used.ru_stime:7.2f} s  wall {time.time() - begun:7.2f} s  memory {used.ru_maxrss / 1024:7.1f} MB")
PY
}

measured "load, one tablet" "$work/records.jsonl" load --schema "$schema" --table "$work/one.table" --rows "$count" "$work/leaf0"
"$program" load --schema "$schema" --table "$work/ten.table" --rows "$((count / 10))" "$work/leaf1" <"$work/records.jsonl"
"$program" load --schema "$schema" --table "$work/tenth.table" "$work/leaf2" <"$work/tenth.jsonl"

# asked NAME QUERY: the query over one tablet, over ten, and over the records themselves
asked() {
  measured "$1, one tablet" /dev/null query --table "$work/one.table" "$2"
  measured "$1, ten tablets" /dev/null query --table "$work/ten.table" "$2"
  measured "$1, asked" "$work/records.jsonl" ask --schema "$schema" "$2"
}

five="SELECT COUNT(*) AS r, COUNT(Name.Language.Code) AS c, COUNT(Name.Url) AS u, SUM(Links.Forward) AS f, MAX(DocId) AS m FROM Document"
asked "five aggregates" "$five"
groups="SELECT Name.Language.Country, COUNT(*) AS n, SUM(DocId) AS s FROM Document GROUP BY Name.Language.Country"
asked "groups" "$groups"
objects="SELECT DocId, COUNT(Name.Language.Code) WITHIN Name AS codes FROM Document WHERE Name.Url LIKE 'http://u/1%'"
asked "objects" "$objects"
selective="SELECT COUNT(*) AS n FROM Document WHERE DocId < 100"
asked "selective count" "$selective"
measured "five aggregates, a tenth of the records" /dev/null query --table "$work/tenth.table" "$five"


# by workers: the least wall and processor seconds of five runs over the ten tablets, and what they are of one worker's
python3 - "$program" "$work/ten.table" "$five" <<'PY'
import os, resource, subprocess, sys, time
program, table, query = sys.argv[1:]

def once(workers):
    begun, used = time.time(), resource.getrusage(resource.RUSAGE_CHILDREN)
    subprocess.check_call([program, "query", "--table", table, "--workers", str(workers), query], stdout=subprocess.DEVNULL)
    now = resource.getrusage(resource.RUSAGE_CHILDREN)
    return time.time() - begun, now.ru_utime + now.ru_stime - used.ru_utime - used.ru_stime

best = {}
for workers in (1, 2, 4):
    runs = [once(workers) for _ in range(5)]
    best[workers] = wall, processor = min(it[0] for it in runs), min(it[1] for it in runs)
    print(f"five aggregates, ten tablets, {workers} workers{'':9} processor {processor:7.2f} s ({processor / best[1][1]:.2f} of one's)  "
          f"wall {wall:7.2f} s ({wall / best[1][0]:.2f} of one's)")
PY

# groups in random order: the least processor seconds of five runs over 1,000,000 records, with 1,000 groups and with 100,000, in turn
python3 - "$program" "$work" <<'PY'
import os, random, resource, subprocess, sys
program, work = sys.argv[1:]
with open(work + "/flat.txt", "w") as schema:
    schema.write("message Flat { required int64 k; required int64 v; }\n")
tables = {}
for groups in (1_000, 100_000):
    made = random.Random(groups)
    lines = "".join(f'{{"k":{made.randrange(groups)},"v":{made.randrange(1000)}}}\n' for _ in range(1_000_000))
    os.mkdir(f"{work}/flat{groups}")
    tables[groups] = f"{work}/flat{groups}.table"
    subprocess.run([program, "load", "--schema", work + "/flat.txt", "--table", tables[groups], "--rows", "1000000", f"{work}/flat{groups}"], input=lines.encode(), check=True)

def once(table):
    used = resource.getrusage(resource.RUSAGE_CHILDREN)
    subprocess.check_call([program, "query", "--table", table, "SELECT k, COUNT(*) AS n, SUM(v) AS s FROM Flat GROUP BY k"], stdout=subprocess.DEVNULL)
    now = resource.getrusage(resource.RUSAGE_CHILDREN)
    return now.ru_utime + now.ru_stime - used.ru_utime - used.ru_stime

runs = [[once(table) for table in tables.values()] for _ in range(5)]
few, many = (min(run[at] for run in runs) for at in (0, 1))
print(f"groups of 1,000,000 records in random order  1,000 groups {few:.3f} s  100,000 groups {many:.3f} s  ratio {many / few:.2f}")
PY

# beside a hand-written reader: the least processor seconds of five runs of either, in turn
command -v rustc >/dev/null || exit 0
rustc -O -o "$work/limit" "$top/bench/limit/limit.rs"
python3 - "$program" "$work" five "$five" groups "$groups" selective "$selective" objects "$objects" <<'PY'
import resource, subprocess, sys
program, work, *rest = sys.argv[1:]

def once(words):
    used = resource.getrusage(resource.RUSAGE_CHILDREN)
    lines = subprocess.check_output(words)
    now = resource.getrusage(resource.RUSAGE_CHILDREN)
    return now.ru_utime + now.ru_stime - used.ru_utime - used.ru_stime, lines

for name, query in zip(rest[::2], rest[1::2]):
    ways = [program, "query", "--table", work + "/one.table", query], [work + "/limit", name, work + "/leaf0/t000000.parquet"]
    runs = [[once(words) for words in ways] for _ in range(5)]
    if any(lines != runs[0][0][1] for run in runs for _, lines in run):
        sys.exit(f"{name}: the reader prints other lines")
    whole, limit = (min(run[way][0] for run in runs) for way in (0, 1))
    print(f"{name}, one tablet, beside a hand-written reader{'':{11 - len(name)}} processor {whole:8.4f} s  reader {limit:8.4f} s  ratio {whole / limit:6.1f}")
PY
