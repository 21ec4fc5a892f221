# A dictionary of 1,000,000 values, whole numbers and texts, that each row names in turn from the last to the first: the answers are reckoned here.

mkdir "$work/dictionaries"
python3 - "$work/dictionaries" <<'PY'
import sys

COUNT, WIDTH = 1_000_000, 20


def varint(number):
    out = bytearray()
    while number >= 128:
        out.append(number & 127 | 128)
        number >>= 7
    return bytes([*out, number])


def zigzag(number):
    return varint(number << 1)


def page(kind, count, body, header):
    """A page's header, as docs/FORMATS.md tells it, and its body."""
    return b"\x15" + zigzag(kind) + b"\x15" + zigzag(len(body)) + b"\x15" + zigzag(len(body)) + header + b"\x15" + zigzag(count) + b"\x15"


def chunk(values):
    dictionary = b"".join(values)
    packed = bytearray()
    for start in range(COUNT, 0, -8):
        bits = sum((start - 1 - place) << place * WIDTH for place in range(8))
        packed += bits.to_bytes(WIDTH, "little")
    indices = bytes([WIDTH]) + varint(COUNT // 8 << 1 | 1) + bytes(packed)
    first = page(2, COUNT, dictionary, b"\x4c") + zigzag(0) + b"\0\0" + dictionary
    return first + page(0, COUNT, indices, b"\x2c") + zigzag(8) + b"\x15\x06\x15\x06\0\0" + indices


def file(kind, values):
    pages = chunk(values)
    footer = (
        b"\x15\x02\x19\x2c\x48\x01T\x15\x02\0\x15" + zigzag(kind) + b"\x25\0\x18\x01a\0\x16" + zigzag(COUNT) + b"\x19\x1c\x19\x1c\x3c\x15" + zigzag(kind)
        + b"\x35\0\x16" + zigzag(COUNT) + b"\x26" + zigzag(len(pages)) + b"\x26" + zigzag(4) + b"\0\0\x26" + zigzag(COUNT) + b"\0\0"
    )
    return b"PAR1" + pages + footer + len(footer).to_bytes(4, "little") + b"PAR1"


folder = sys.argv[1]
texts = [f"text {number:07}".encode() for number in range(COUNT)]
for name, type_name, kind, values in (
    ("numbers", "int64", 2, [(3 * number).to_bytes(8, "little") for number in range(COUNT)]),
    ("texts", "string", 6, [len(text).to_bytes(4, "little") + text for text in texts]),
):
    with open(f"{folder}/t000000.parquet.{name}", "wb") as it:
        it.write(file(kind, values))
    with open(f"{folder}/{name}.table", "w") as it:
        it.write(f"dremel-table 1\ntablets 1\ncopies 1\nleaf {folder}/{name}\nschema\nmessage T {{ required {type_name} a; }}\n")
PY
for name in numbers texts; do
  mkdir "$work/dictionaries/$name"
  mv "$work/dictionaries/t000000.parquet.$name" "$work/dictionaries/$name/t000000.parquet"
done
told "a dictionary of 1,000,000 whole numbers" 0 '{"r":1000000,"s":1499998500000,"l":0,"g":2999997}' "" \
  query --table "$work/dictionaries/numbers.table" "SELECT COUNT(*) AS r, SUM(a) AS s, MIN(a) AS l, MAX(a) AS g FROM T"
told "a dictionary of 1,000,000 texts" 0 '{"r":1000000,"l":"text 0000000","g":"text 0999999"}' "" \
  query --table "$work/dictionaries/texts.table" "SELECT COUNT(*) AS r, MIN(a) AS l, MAX(a) AS g FROM T"
told "one text of 1,000,000" 0 '{"n":1}' "" query --table "$work/dictionaries/texts.table" "SELECT COUNT(*) AS n FROM T WHERE a = 'text 0123456'"
printf '\xff' | dd of="$work/dictionaries/texts/t000000.parquet" bs=1 seek=8000000 conv=notrunc status=none
told "a byte of a dictionary that is no text" 3 "" "left t000000: 0 data" query --table "$work/dictionaries/texts.table" "SELECT COUNT(a) AS n FROM T"
rm -r "$work/dictionaries"
