"""Parquet files of other writers' forms: row groups, dictionaries, index pages, V2 pages, truth values in RLE, unknown fields, statistics, checksums,
long varints, closed fields; and older schemas."""
import random

import compact
from compact import BINARY, BYTE, DOUBLE, FALSE, I16, I32, I64, LIST, MAP, SET, STRUCT, TRUE, little, varint
from schemas import KINDS, REPETITIONS, Field, column, greatest_definition, greatest_repetition, leaves_of

MAGIC = b"PAR1"
DATA, INDEX, DICTIONARY, DATA_V2 = 0, 1, 2, 3
PLAIN, PLAIN_DICTIONARY, RLE, BIT_PACKED, RLE_DICTIONARY = 0, 2, 3, 4, 8


def hybrid(values, width, way=None):
    """Levels or indices in runs; `way` is a source of random choices, without which equal values stand in repeat runs as `load` writes them."""
    out, at = bytearray(), 0
    while at < len(values):
        equal = at
        while equal < len(values) and values[equal] == values[at]:
            equal += 1
        if (equal - at >= 8 or equal == len(values)) if way is None else way.random() < 0.5:
            count = equal - at if way is None else way.randint(1, equal - at)
            out += varint(count << 1) + little(values[at], (width + 7) // 8)
            at += count
        else:
            groups = 1 if way is None else way.randint(1, 3)
            packed = values[at:at + 8 * groups]
            bits = sum(value << place * width for place, value in enumerate(packed))
            out += varint(groups << 1 | 1) + little(bits, groups * width)
            at += 8 * groups
    return bytes(out)


def plain(kind, values):
    if kind == "boolean":
        bits = sum(value << place for place, value in enumerate(values))
        return little(bits, (len(values) + 7) // 8)
    if kind == "string":
        return b"".join(little(len(text.encode())) + text.encode() for text in values)
    return b"".join(little(value, 4 if kind == "int32" else 8) for value in values)


def levels(triplets, way, place, source):
    """The hybrid data of a part of levels; where the greatest level is 0 there is none."""
    greatest = (greatest_repetition, greatest_definition)[place](way)
    if greatest == 0:
        return b""
    runs = hybrid([triplet[place] for triplet in triplets], greatest.bit_length(), source)
    return runs + source.randbytes(2) if source and source.random() < 0.1 else runs


def sized(part):
    """A part behind its length."""
    return little(len(part)) + part


class Maker:
    """Makes the bytes of files by random choices of form."""

    def __init__(self, source):
        self.source = source
        self.spells = random.Random(source.random())
        long_numbers, long_headers = source.random() < 0.3, source.random() < 0.2
        self.writer = compact.Writer(
            lambda: self.spells.choice((1, 1, 2, 3, 5, 9, 10)) if long_numbers else 1,
            lambda: long_headers and self.spells.random() < 0.3,
        )
        self.has_extras, self.has_checksums, self.has_statistics = (source.random() < 0.4 for _ in range(3))
        self.later_share = source.choice((0, 0.5, 1))
        self.out = bytearray(MAGIC)

    # -- structs with fields that aren't read

    def extra(self, deep=0):
        kind = self.source.choice((TRUE, FALSE, BYTE, I16, I32, I64, DOUBLE, BINARY, LIST, SET, MAP, STRUCT))
        return kind, self.extra_value(kind, deep)

    def extra_value(self, kind, deep):
        source = self.source
        if kind in (BYTE, DOUBLE):
            return source.randbytes(1 if kind == BYTE else 8)
        if kind in (I16, I32, I64):
            return source.choice((0, 1, -1, source.getrandbits(15 if kind == I16 else 30)))
        if kind == BINARY:
            return source.randbytes(source.randint(0, 20))
        if kind in (TRUE, FALSE):
            return kind == TRUE
        count = source.randint(0, 3) if deep < 4 else 0
        if kind == STRUCT:
            return [(number + 1, *self.extra(deep + 1)) for number in range(count)]
        inner, value = (source.choice((TRUE, I32, BINARY, STRUCT)) for _ in range(2))
        if kind == MAP:
            return inner, value, [(self.extra_value(inner, deep + 1), self.extra_value(value, deep + 1)) for _ in range(count)]
        return inner, [self.extra_value(inner, deep + 1) for _ in range(count)]

    def struct(self, fields, last):
        """Bytes of a struct, now and then with unknown fields behind those of the format, whose last number is given."""
        return self.writer.struct(self.with_extras(fields, last))

    def with_extras(self, fields, last):
        if not self.has_extras or self.source.random() < 0.5:
            return fields
        numbers = sorted(self.source.sample(range(last + 1, last + 400), self.source.randint(1, 3)))
        return [*fields, *((number, *self.extra()) for number in numbers)]

    def statistics(self):
        return [(3, I64, 1), (5, BINARY, b"\xff" * 8), (6, BINARY, b"\0" * 8), (7, TRUE, True)]

    # -- pages and chunks

    def page(self, kind, body, own=()):
        fields = [(1, I32, kind), (2, I32, len(body)), (3, I32, len(body))]
        if self.has_checksums:
            fields.append((4, I32, self.source.getrandbits(31)))
        self.out += self.struct([*fields, *own], 8) + body

    def values(self, kind, values, dictionary, source):
        """An encoding, and values in it."""
        if dictionary is not None:
            width = max(len(dictionary) - 1, 0).bit_length() + self.source.choice((0, 0, 1, 7))
            indices = bytes([width]) + hybrid([dictionary.index(value) for value in values], width, source)
            return self.source.choice((PLAIN_DICTIONARY, RLE_DICTIONARY)), indices if values or self.source.random() < 0.5 else b""
        if kind == "boolean" and self.source.random() < 0.5:
            return RLE, sized(hybrid(values, 1, source)) if values or self.source.random() < 0.5 else b""
        return PLAIN, plain(kind, values)

    def data_page(self, way, triplets, dictionary):
        source = self.source if self.source.random() < 0.5 else None
        kind = way[-1].kind
        values = [value for _, definition, value in triplets if definition == greatest_definition(way)]
        repetitions, definitions = levels(triplets, way, 0, source), levels(triplets, way, 1, source)
        encoding, body = self.values(kind, values, dictionary, source)
        if self.source.random() < 0.1:
            body += self.source.randbytes(3)
        if self.source.random() < self.later_share:
            self.later_page(way, triplets, encoding, len(values), repetitions, definitions, body)
        else:
            self.first_page(way, triplets, encoding, repetitions, definitions, body)

    def first_page(self, way, triplets, encoding, repetitions, definitions, body):
        """A V1 page."""
        unlooked = self.source.choice((RLE, RLE, BIT_PACKED, 77))
        head = [(1, I32, len(triplets)), (2, I32, encoding)]
        head += [(3, I32, RLE if greatest_definition(way) else unlooked), (4, I32, RLE if greatest_repetition(way) else unlooked)]
        if self.has_statistics:
            head.append((5, STRUCT, self.statistics()))
        body = (sized(definitions) if greatest_definition(way) else b"") + body
        body = (sized(repetitions) if greatest_repetition(way) else b"") + body
        self.page(DATA, body, [(5, STRUCT, self.with_extras(head, 5))])

    def later_page(self, way, triplets, encoding, present, repetitions, definitions, body):
        """A V2 page. What it tells of NULLs, rows and compression may be wrong, or not there."""
        source = self.source
        if source.random() < 0.2:
            repetitions = repetitions if greatest_repetition(way) else source.randbytes(source.randint(1, 3))
            definitions = definitions if greatest_definition(way) else source.randbytes(source.randint(1, 3))
        told = [(2, I32, len(triplets) - present), (3, I32, sum(triplet[0] == 0 for triplet in triplets)), (7, FALSE, False)]
        if source.random() < 0.3:
            told = source.sample([(2, I32, source.choice((0, -1, 99))), (3, I32, source.choice((0, -1, 99))), (7, TRUE, True)], source.randint(0, 3))
        head = [(1, I32, len(triplets)), (4, I32, encoding), (5, I32, len(definitions)), (6, I32, len(repetitions)), *told]
        if self.has_statistics:
            head.append((8, STRUCT, self.statistics()))
        head.sort(key=lambda field: field[0])
        self.page(DATA_V2, repetitions + definitions + body, [(8, STRUCT, self.with_extras(head, 8))])

    def index_page(self):
        if self.source.random() < 0.1:
            self.page(INDEX, self.source.randbytes(self.source.randint(0, 12)), [(6, STRUCT, [])])

    def pages(self, way, triplets):
        """The pages of a chunk; the place of its dictionary, if it has one, and that of its first data page."""
        kind, place, dictionary = way[-1].kind, None, None
        values = list(dict.fromkeys(value for _, _, value in triplets if value is not None))
        if self.source.random() < 0.4:
            place, dictionary = len(self.out), values + values[:1]
            head = [(1, I32, len(dictionary)), (2, I32, self.source.choice((PLAIN, PLAIN_DICTIONARY))), (3, FALSE, False)]
            self.page(DICTIONARY, plain(kind, dictionary), [(7, STRUCT, head)])
        first, at = len(self.out), 0
        while at < len(triplets):
            self.index_page()
            count = self.source.randint(0, len(triplets) - at) if self.source.random() < 0.5 else len(triplets) - at
            if dictionary is not None and self.source.random() < 0.3:
                dictionary = None
            self.data_page(way, triplets[at:at + count], dictionary)
            at += count
        return place, first

    def chunk(self, way, triplets):
        """The footer's struct of a chunk, whose pages are written."""
        if self.source.random() < 0.2:
            self.out += self.source.randbytes(self.source.randint(1, 9))
        begin = len(self.out)
        if way[-1].kind in KINDS:
            place, first = self.pages(way, triplets)
        else:
            place, first = None, begin
            self.out += self.source.randbytes(20)
        if self.source.random() < 0.2:
            self.out += self.source.randbytes(5)
        size = len(self.out) - begin
        kind = KINDS.get(way[-1].kind, way[-1].kind)
        names = [field.name.encode() for field in way]
        meta = [(1, I32, kind), (2, LIST, (I32, [PLAIN, RLE])), (3, LIST, (BINARY, names)), (4, I32, 0 if way[-1].kind in KINDS else 2)]
        meta += [(5, I64, len(triplets)), (6, I64, size), (7, I64, size), (9, I64, first)]
        if place is not None:
            meta.append((11, I64, place))
        elif self.source.random() < 0.2:
            meta.append((11, I64, 0))
        if self.has_statistics:
            meta.append((12, STRUCT, self.statistics()))
        return [(2, I64, begin), (3, STRUCT, self.with_extras(meta, 14))]

    # -- the footer

    def element(self, field):
        fields = [] if field.kind is None else [(1, I32, KINDS.get(field.kind, field.kind))]
        fields += [(3, I32, REPETITIONS.index(field.repetition)), (4, BINARY, field.name.encode())]
        if field.kind is None:
            fields.append((5, I32, len(field.fields)))
        if field.converted is not None:
            fields.append((6, I32, field.converted))
        inside = [it for inner in field.fields for it in self.element(inner)]
        return [self.with_extras(fields, 10), *inside]

    def file(self, name, fields, groups):
        """The file of groups of records, each a list of them."""
        rows = []
        for group in groups:
            chunks = [self.chunk(way, [it for record in group for it in column(way, record)]) for way in leaves_of(fields)]
            whole = sum(value for chunk in chunks for number, _, value in chunk[1][2] if number == 6)
            rows.append([(1, LIST, (STRUCT, chunks)), (2, I64, whole), (3, I64, len(group))])
        elements = [[(4, BINARY, name.encode()), (5, I32, len(fields))], *(it for field in fields for it in self.element(field))]
        count = sum(len(group) for group in groups)
        footer = [(1, I32, 1), (2, LIST, (STRUCT, elements)), (3, I64, count), (4, LIST, (STRUCT, rows))]
        if self.source.random() < 0.5:
            footer.append((5, LIST, (STRUCT, [[(1, BINARY, b"key"), (2, BINARY, b"value")]])))
        footer.append((6, BINARY, b"another writer"))
        if self.source.random() < 0.3:
            footer.append((7, LIST, (STRUCT, [[(1, STRUCT, [])] * len(leaves_of(fields))])))
        struct = self.struct(footer, 7)
        return bytes(self.out) + struct + little(len(struct)) + MAGIC


def closed_beside(fields, source):
    """The same fields with closed ones beside them: of other types, converted types and names."""
    closed = [
        Field("optional", "Closed1", 5), Field("required", "Closed2", 3), Field("repeated", "Closed3", 4), Field("optional", "Closed4", 7),
        Field("optional", "Closed5", "int64", converted=14), Field("required", "not a name", "int32"),
        Field("repeated", "Closed6", None, [Field("optional", "Inner", 5)]),
    ]
    out = list(fields)
    for field in source.sample(closed, source.randint(1, 3)):
        out.insert(source.randint(0, len(out)), field)
    return out


def older(fields, source):
    """The fields of an older schema: without some that may lack, in another order, and now and then with a closed one of the same name."""
    out = []
    for field in fields:
        if field.repetition != "required" and source.random() < 0.3:
            if source.random() < 0.1:
                out.append(Field(field.repetition, field.name, 5))
        elif field.kind is None:
            inside = older(field.fields, source)
            if inside:
                out.append(Field(field.repetition, field.name, None, inside))
        else:
            out.append(field)
    source.shuffle(out)
    return out


# -- records

TEXTS = ("", "a", "us", "en-gb", "http://A", "\u00e9t\u00e9", "\u4f60\u597d", "a'b\"c\\d", "line\nend\t", "\U0001f600", "x" * 40)
NUMBERS = (0, 1, -1, 7, 100, 2**31 - 1, -2**31)
LONG_NUMBERS = (*NUMBERS, 2**31, 2**63 - 1, -2**63)


def value_of(kind, source):
    if kind == "boolean":
        return source.random() < 0.5
    if kind == "string":
        return source.choice(TEXTS)
    return source.choice(NUMBERS if kind == "int32" else LONG_NUMBERS)


def record_of(fields, source):
    """A random record, as JSON has it. Fields that are closed have values that aren't written."""
    record = {}
    for field in fields:
        count = {"required": 1, "optional": source.randint(0, 1), "repeated": source.choice((0, 0, 1, 2, 3))}[field.repetition]
        found = [value_of(field.kind, source) if field.kind is not None else record_of(field.fields, source) for _ in range(count)]
        if field.repetition == "repeated":
            record[field.name] = found
        elif found:
            record[field.name] = found[0]
    return record


