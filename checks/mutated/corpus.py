"""The files that are changed: what `load` writes of several schemas and records in pages V1 and V2, and files of other forms and of older schemas."""
import json, os, random, subprocess

from changes import Base
from schemas import leaves_of, parse
from shapes import Maker, closed_beside, older, record_of

ONE = "message T { required int64 a; }"
KINDS = """message K { required boolean b; optional boolean c; repeated boolean d; required int32 i; optional int32 j; repeated int32 k;
  required int64 n; optional int64 o; repeated int64 p; required string s; optional string t; repeated string u; }"""
DEEP = """message D {
  repeated group a { optional group b { repeated group c { repeated int32 x; optional string y; } repeated string z; } required int64 w; }
  optional group e { optional group f { optional group g { optional boolean h; } } } }"""
MADE_EACH, OLDER_EACH = 16, 8


class Family:
    """A schema, and files of it."""

    def __init__(self, text):
        self.name, self.fields = parse(text)
        self.text, self.leaves, self.bases = text, leaves_of(self.fields), []

    def add(self, name, data):
        self.bases.append(Base(name, data))

    def weights(self):
        """Large files are taken less often."""
        return [len(base.data) ** -0.25 for base in self.bases]


def loaded(program, folder, text, lines, rows, pages=1):
    """The tablets that `load` writes of lines, in pages V1 or V2."""
    schema, table, leaf = (os.path.join(folder, name) for name in ("schema", "loaded.table", "loaded"))
    os.makedirs(leaf, exist_ok=True)
    with open(schema, "w") as file:
        file.write(text)
    words = [program, "load", "--schema", schema, "--table", table, "--rows", str(rows), "--pages", str(pages), leaf]
    ended = subprocess.run(words, input="".join(f"{line}\n" for line in lines).encode(), capture_output=True)
    if ended.returncode != 0:
        raise SystemExit(f"load ended with {ended.returncode}: {ended.stderr.decode()}")
    count = max(1, -(-len(lines) // rows))
    out = []
    for number in range(count):
        with open(os.path.join(leaf, f"t{number:06}.parquet"), "rb") as file:
            out.append(file.read())
    return out


def lines_of(fields, count, source):
    return [json.dumps(record_of(fields, source)) for _ in range(count)]


def made(family, source, is_older=False):
    """A file of another form, or also of an older schema."""
    fields = older(family.fields, source) if is_older else family.fields
    if source.random() < 0.4:
        fields = closed_beside(fields, source)
    groups = [[record_of(fields, source) for _ in range(source.choice((0, 1, 2, 3, 9, 20)))] for _ in range(source.choice((1, 1, 2, 3, 0)))]
    return Maker(source).file(family.name, fields, groups)


def families(program, folder, examples):
    """The corpus, the same each time."""
    source = random.Random("corpus")
    texts = [ONE, KINDS, DEEP]
    lines = {}
    for name in ("document", "sessions"):
        with open(os.path.join(examples, f"{name}.txt")) as schema, open(os.path.join(examples, f"{name}.jsonl")) as records:
            texts.append(schema.read())
            lines[texts[-1]] = records.read().splitlines()
    out = []
    for text in texts:
        family = Family(text)
        few = lines.get(text) or lines_of(family.fields, 12, source)
        for rows, some, pages in ((1, [], 1), (1, few[:3], 2), (5, few[:15], 1), (60, few[:60], 1), (60, few[:60], 2)):
            for number, data in enumerate(loaded(program, folder, text, some, rows, pages)):
                family.add(f"loaded {len(some)} by {rows} in pages V{pages}, {number}", data)
        if text == ONE:
            # more than one page
            many = [f'{{"a":{number}}}' for number in range(5000)]
            for pages in (1, 2):
                family.add(f"loaded 5000 in pages V{pages}", loaded(program, folder, text, many, 5000, pages)[0])
        for number in range(MADE_EACH):
            family.add(f"made {number}", made(family, source))
        for number in range(OLDER_EACH):
            family.add(f"made {number} of an older schema", made(family, source, True))
        out.append(family)
    return out
