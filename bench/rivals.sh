#!/usr/bin/env bash
# Measures reading N generated records (150,000 where no N is given, about 22 MB of JSON) beside other readers of the same lines: `load` and `ask` of one COUNT beside Rust's
# serde_json into its `Value` (where cargo and its crates are there) and a hand-written loader (bench/limit/load.rs, where rustc is there), which has to write the same file; `query` of the
# five aggregates of query.sh over the table beside jq over the lines; and `ask` of the four queries of query.sh beside Python with orjson, and node. What isn't there is left out; each has
# to print the same. A line for each, with the least processor seconds of five runs in turn, and in brackets what the program's are of it. Let nothing else run.
# usage: bench/rivals.sh [N] [PROGRAM]
set -euo pipefail
count=${1:-150000}
top=$(cd "$(dirname "${BASH_SOURCE[0]}")/.." && pwd)
program=${2:-$top/crates/dremel/out/dremel}
work=$(mktemp -d)
trap 'rm -rf "$work"' EXIT
"$program" gen --seed 0 --records "$count" >"$work/records.jsonl"
mkdir "$work/leaf"
cargo build --quiet --release --manifest-path "$top/bench/rivals/values/Cargo.toml" --target-dir "$work/values" 2>"$work/cargo" || echo "serde_json isn't there"
rustc -O -o "$work/loader" "$top/bench/limit/load.rs" 2>"$work/rustc" || echo "rustc isn't there"
echo "$(nproc) processors, load $(cut -d ' ' -f 1 /proc/loadavg)"

python3 - "$program" "$work" "$top" "$count" <<'PY'
import filecmp, os, shutil, subprocess, sys
program, work, top, count = sys.argv[1:]
records, schema = f"{work}/records.jsonl", f"{top}/examples/document.txt"

def seconds(words, out):
    with open(records) as given, open(out, "w") as printed:
        running = subprocess.Popen(words, stdin=given, stdout=printed)
        _, status, used = os.wait4(running.pid, 0)
    return used.ru_utime + used.ru_stime if status == 0 else None

def compared(name, own, others, same):
    least = {}
    for _ in range(5):
        for other, words in {"": own, **others}.items():
            taken = seconds(words, f"{work}/out{other}")
            if taken is not None:
                least[other] = min(taken, least.get(other, taken))
    mine = least.pop("")
    told = "".join(f"  {other} {taken:.3f} s ({mine / taken:.2f})" for other, taken in least.items())
    print(f"{name:16} {mine:.3f} s{told}", flush=True)
    for other in least if same else []:
        if open(f"{work}/out").read() != open(f"{work}/out{other}").read():
            print(f"{name}: {other} prints something else")

values = f"{work}/values/release/values"
rust = {"serde_json": [values]} if os.path.exists(values) else {}
hand = {"hand-written": [f"{work}/loader", f"{work}/loaded"]} if os.path.exists(f"{work}/loader") else {}
compared("load", [program, "load", "--schema", schema, "--table", f"{work}/t.table", "--rows", count, f"{work}/leaf"], {**rust, **hand}, False)
if hand and not filecmp.cmp(f"{work}/leaf/t000000.parquet", f"{work}/loaded", shallow=False):
    print("load: the hand-written loader writes another file")
compared("ask, one COUNT", [program, "ask", "--schema", schema, "SELECT COUNT(Name.Url) FROM Document"], rust, False)
queries = {
    "five": "SELECT COUNT(*) AS r, COUNT(Name.Language.Code) AS c, COUNT(Name.Url) AS u, SUM(Links.Forward) AS f, MAX(DocId) AS m FROM Document",
    "groups": "SELECT Name.Language.Country, COUNT(*) AS n, SUM(DocId) AS s FROM Document GROUP BY Name.Language.Country",
    "objects": "SELECT DocId, COUNT(Name.Language.Code) WITHIN Name AS codes FROM Document WHERE Name.Url LIKE 'http://u/1%'",
    "selective": "SELECT COUNT(*) AS n FROM Document WHERE DocId < 100",
}
by_jq = """reduce inputs as $d ({r: 0, c: 0, u: 0, f: 0, m: null}; {
  r: (.r + 1), c: (.c + ([$d.Name[]?.Language[]?.Code | values] | length)), u: (.u + ([$d.Name[]?.Url | values] | length)),
  f: (.f + ([$d.Links.Forward[]?] | add // 0)), m: ([.m, $d.DocId] | max)})"""
if shutil.which("jq"):
    compared("query, five", [program, "query", "--table", f"{work}/t.table", queries["five"]], {"jq": ["jq", "-nc", by_jq]}, True)
has_orjson = subprocess.call([sys.executable, "-c", "import orjson"], stderr=subprocess.DEVNULL) == 0
for name, query in queries.items():
    others = {"orjson": [sys.executable, f"{top}/bench/rivals/ask.py", name]} if has_orjson else {}
    if shutil.which("node"):
        others["node"] = ["node", f"{top}/bench/rivals/ask.js", name, records]
    compared(f"ask, {name}", [program, "ask", "--schema", schema, query], others, True)
PY
