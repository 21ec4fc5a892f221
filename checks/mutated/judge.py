"""Reads a Parquet file by what docs/FORMATS.md says, and tells its cause for some leaves or its records: it shares nothing with the crates."""
import json, re

from compact import BINARY, I32, I64, LIST, STRUCT, Malformed, Reader, last_of
from schemas import KINDS, REPETITIONS, Field, NoRecords, dotted, greatest_definition, greatest_repetition, leaves_of, message, records_of, select

MAGIC = b"PAR1"
CLOSING = (5, 13, 14, 20, 21)
NAME = re.compile(rb"[A-Za-z_][A-Za-z0-9_]{0,63}\Z")
MOST_ROWS, MOST_TRIPLETS = 1_000_000_000, 1 << 40
# More triplets than this are not judged: they would take long here.
MOST_JUDGED = 200_000


class Cause(Exception):
    """The file has no records for the leaves: why."""


class Unjudged(Exception):
    """The file claims more than is judged here."""


class Endless(Unjudged):
    """It claims that many rows, and a leaf that is asked for is lacking in its records: each row is a NULL that is read, though no byte tells it."""


def needed(fields, number, kind):
    value = last_of(fields, number, kind)
    if value is None:
        raise Cause("footer")
    return value


def count(fields, number, kind=I64):
    value = needed(fields, number, kind)
    if value < 0:
        raise Cause("footer")
    return value


def structs(fields, number):
    kind, values = needed(fields, number, LIST)
    if kind != STRUCT:
        raise Cause("footer")
    return values


class Chunk:
    def __init__(self, fields):
        meta = needed(fields, 3, STRUCT)
        needed(meta, 1, I32)
        self.codec, self.values, self.size = needed(meta, 4, I32), count(meta, 5), count(meta, 7)
        first, dictionary = count(meta, 9), last_of(meta, 11, I64)
        self.begin = dictionary if dictionary is not None and 0 < dictionary < first else first
        if last_of(fields, 1, BINARY) is not None:
            raise Cause("footer")


class Group:
    def __init__(self, fields):
        columns = structs(fields, 1)
        self.rows = count(fields, 3)
        self.chunks = [Chunk(column) for column in columns]


class Element:
    def __init__(self, fields):
        self.name = needed(fields, 4, BINARY)
        self.kind, self.repetition, self.children, self.converted = (last_of(fields, number, I32) for number in (1, 3, 5, 6))


def tree_of(elements):
    """The fields below the root. A closed leaf, and what has a closed name, keeps None as its name or kind."""
    place = 1

    def fields(number):
        nonlocal place
        found = []
        for _ in range(number):
            if place >= len(elements):
                raise Cause("footer")
            element = elements[place]
            place += 1
            if element.repetition not in (0, 1, 2):
                raise Cause("footer")
            found.append(field(element))
        names = [it.name for it in found]
        for at, it in enumerate(found):
            if it.name is None or it.name in names[:at]:
                it.name = None
        return found

    def field(element):
        name = element.name.decode() if NAME.match(element.name) else None
        repetition = REPETITIONS[element.repetition]
        if element.kind is None:
            if element.children is None or element.children < 0:
                raise Cause("footer")
            return Field(repetition, name, None, fields(element.children))
        kinds = [kind for kind, number in KINDS.items() if number == element.kind and element.converted not in CLOSING]
        return Field(repetition, name, kinds[0] if kinds else 0)

    root = elements[0] if elements else None
    if root is None or root.kind is not None or root.children is None or root.children < 0:
        raise Cause("footer")
    found = fields(root.children)
    if place != len(elements):
        raise Cause("footer")
    return found


def is_open(way):
    return isinstance(way[-1].kind, str) and len(way) <= 32 and all(field.name is not None for field in way)


def same_parts(leaf, way):
    """Whether a leaf of a file goes along a way, by names and repetitions."""
    return len(leaf) >= len(way) and all((it.name, it.repetition) == (part.name, part.repetition) for it, part in zip(leaf, way))


def lacking_after(fields, way):
    """How many parts of a way lead to the group that lacks the next one, where the leaf may lack."""
    for parts, part in enumerate(way):
        found = next((field for field in fields if field.name == part.name), None)
        if found is None:
            return None if part.repetition == "required" else parts
        if found.repetition != part.repetition or found.kind is not None:
            return None
        fields = found.fields
    return None


def chain(leaf):
    """The fields that lead to one leaf."""
    field = leaf[-1]
    for it in reversed(leaf[:-1]):
        field = Field(it.repetition, it.name, None, [field])
    return field


class File:
    """A file whose footer can be read."""

    def __init__(self, data):
        self.data = data
        if len(data) < 12 or data[:4] != MAGIC or data[-4:] != MAGIC:
            raise Cause("footer")
        size = int.from_bytes(data[-8:-4], "little")
        if size > len(data) - 12:
            raise Cause("footer")
        self.end = len(data) - 8 - size
        try:
            fields = Reader(data, self.end, len(data) - 8).struct()
        except Malformed:
            raise Cause("footer") from None
        elements = [Element(it) for it in structs(fields, 2)]
        self.rows = count(fields, 3)
        self.groups = [Group(it) for it in structs(fields, 4)]
        self.fields = tree_of(elements)
        self.root = elements[0].name
        self.leaves = leaves_of(self.fields)
        if any(len(group.chunks) != len(self.leaves) for group in self.groups):
            raise Cause("footer")

    def schema(self):
        """The text of the open part."""
        kept = [dotted(way) for way in self.leaves if is_open(way)][:1024]
        if not kept:
            raise Cause("schema")
        name = self.root.decode() if NAME.match(self.root) else "Records"
        return message(name, select(named(self.fields), set(kept)))

    def source(self, way):
        """Where the column of a schema's leaf is: the leaf of the file whose chunks are read for it, or None, and the greatest levels of the group
        that lacks it, or None where nothing lacks."""
        for leaf in self.leaves:
            if is_open(leaf) and same_parts(leaf, way) and len(leaf) == len(way) and leaf[-1].kind == way[-1].kind:
                return leaf, None
        parts = lacking_after(self.fields, way)
        if parts is None:
            raise Cause("schema")
        group = way[:parts]
        below = [leaf for leaf in self.leaves if parts > 0 and is_open(leaf) and same_parts(leaf, group)]
        if parts > 0 and not below:
            raise Cause("schema")
        return (below[0] if below else None), (greatest_repetition(group), greatest_definition(group))

    def columns(self, fields):
        """The columns of all leaves of these fields, which are a schema's that was cut down to some leaves."""
        ways = leaves_of(fields)
        sources = [self.source(way) for way in ways]
        chunks = [[group.chunks[self.place(leaf)] for group in self.groups] for leaf, _ in sources if leaf is not None]
        if any(chunk.codec != 0 for its in chunks for chunk in its):
            raise Cause("codec")
        if self.rows != sum(group.rows for group in self.groups) or self.rows > MOST_ROWS:
            raise Cause("data")
        if any(sum(chunk.values for chunk in its) > MOST_TRIPLETS for its in chunks):
            raise Cause("data")
        if any(leaf is None for leaf, _ in sources) and self.rows > MOST_JUDGED:
            raise Endless
        columns, is_judged = {}, True
        for way, source in zip(ways, sources):
            try:
                columns[dotted(way)] = self.told(*source)
            except Unjudged:
                is_judged = False
        if not is_judged:
            raise Unjudged
        return columns

    def place(self, leaf):
        return next(place for place, it in enumerate(self.leaves) if it is leaf)

    def told(self, leaf, group):
        """The column of a leaf's own chunks, or what a leaf that stands in tells of one that is lacking."""
        if leaf is None:
            return [(0, 0, None)] * self.rows
        place, triplets = self.place(leaf), []
        for each in self.groups:
            triplets += self.column(each, each.chunks[place], leaf)
        if group is None:
            return triplets
        try:
            records_of([chain(leaf)], {dotted(leaf): triplets}, self.rows)
        except NoRecords:
            raise Cause("data") from None
        return [(r, min(d, group[1]), None) for r, d, _ in triplets if r <= group[0]]

    def records(self, fields):
        """The records for the leaves of these fields."""
        columns = self.columns(fields)
        if self.rows > MOST_JUDGED:
            raise Unjudged
        try:
            return columns, records_of(fields, columns, self.rows)
        except NoRecords:
            raise Cause("data") from None

    def column(self, group, chunk, way):
        if chunk.begin < 4 or chunk.begin + chunk.size > self.end:
            raise Cause("data")
        triplets = Pages(self.data, chunk, way).triplets()
        if sum(triplet[0] == 0 for triplet in triplets) != group.rows or triplets and triplets[0][0] != 0:
            raise Cause("data")
        return triplets


def named(fields):
    """Fields without those that have no name, so that all have one."""
    return [Field(it.repetition, it.name, it.kind, named(it.fields)) for it in fields if it.name is not None]


class Pages:
    """The pages of a chunk, read as those of a schema's leaf."""

    def __init__(self, data, chunk, way):
        self.data, self.at, self.end, self.left = data, chunk.begin, chunk.begin + chunk.size, chunk.values
        self.way, self.kind, self.dictionary = way, way[-1].kind, None

    def triplets(self):
        out, is_first = [], True
        while self.left > 0:
            kind, head, dictionary, later, body = self.page()
            if kind == 2 and is_first and dictionary is not None:
                self.take_dictionary(dictionary, body)
            elif kind == 0 and head is not None:
                out += self.data_page(*head[:2], *self.parts(*head[2:], body))
            elif kind == 3 and later is not None:
                out += self.data_page(*later[:2], *self.later_parts(*later[2:], body))
            elif kind != 1:
                raise Cause("data")
            is_first = False
        return out

    def page(self):
        """The next page: its type, the struct of a V1 data page, that of a dictionary page, that of a V2 data page, and the body."""
        reader = Reader(self.data, self.at, self.end)
        try:
            fields = reader.struct()
            kind, size = needed(fields, 1, I32), count(fields, 3, I32)
            head, dictionary = last_of(fields, 5, STRUCT), last_of(fields, 7, STRUCT)
            if head is not None:
                head = [count(head, 1, I32), *(needed(head, number, I32) for number in (2, 3, 4))]
            if dictionary is not None:
                dictionary = count(dictionary, 1, I32), needed(dictionary, 2, I32)
            later = last_of(fields, 8, STRUCT)
            if later is not None:
                later = [count(later, 1, I32), needed(later, 4, I32), count(later, 5, I32), count(later, 6, I32)]
            body = reader.bytes(size)
        except (Malformed, Cause):
            raise Cause("data") from None
        self.at = reader.at
        return kind, head, dictionary, later, body

    def take_dictionary(self, head, body):
        number, encoding = head
        if encoding not in (0, 2):
            raise Cause("data")
        self.dictionary = plain(self.kind, number, body)

    def parts(self, definition_encoding, repetition_encoding, body):
        """The parts of a V1 page's body: repetition levels, definition levels, values."""
        repetitions, body = sized_levels(greatest_repetition(self.way), repetition_encoding, body)
        definitions, body = sized_levels(greatest_definition(self.way), definition_encoding, body)
        return repetitions, definitions, body

    def later_parts(self, definition_size, repetition_size, body):
        """Those of a V2 page's body."""
        if repetition_size + definition_size > len(body):
            raise Cause("data")
        both = repetition_size + definition_size
        return body[:repetition_size], body[repetition_size:both], body[both:]

    def data_page(self, number, encoding, repetitions, definitions, body):
        if number > self.left:
            raise Cause("data")
        self.left -= number
        greatest = greatest_definition(self.way)
        repetitions = levels(greatest_repetition(self.way), number, repetitions)
        definitions = levels(greatest, number, definitions)
        values = iter(self.values(encoding, sum(level == greatest for level in definitions), body))
        return [(r, d, next(values) if d == greatest else None) for r, d in zip(repetitions, definitions)]

    def values(self, encoding, number, body):
        if encoding == 0:
            return plain(self.kind, number, body)
        if encoding == 3 and self.kind == "boolean":
            return [level == 1 for level in levels(1, number, sized(body)[0])] if number else []
        if encoding not in (2, 8):
            raise Cause("data")
        if number == 0:
            return []
        if not body or body[0] > 32:
            raise Cause("data")
        indices = hybrid(body[0], number, body[1:])
        dictionary = self.dictionary or []
        if any(index >= len(dictionary) for index in indices):
            raise Cause("data")
        return [dictionary[index] for index in indices]


def sized(body):
    """A part behind its length, and what stands behind it."""
    size = int.from_bytes(body[:4], "little")
    if len(body) < 4 or size > len(body) - 4:
        raise Cause("data")
    return body[4:4 + size], body[4 + size:]


def sized_levels(greatest, encoding, body):
    """A part of levels of a V1 page, and what stands behind it; where the greatest is 0 there is none."""
    if greatest == 0:
        return b"", body
    if encoding != 3:
        raise Cause("data")
    return sized(body)


def levels(greatest, number, part):
    """The levels of a part; where the greatest is 0 they are zeros, whatever the part."""
    if greatest == 0:
        judged(number)
        return [0] * number
    found = hybrid(greatest.bit_length(), number, part)
    if any(level > greatest for level in found):
        raise Cause("data")
    return found


def judged(number):
    if number > MOST_JUDGED:
        raise Unjudged


def hybrid(width, number, data):
    """So many values of runs."""
    out, reader, bytes_each = [], Reader(data), (width + 7) // 8
    while len(out) < number:
        left = number - len(out)
        try:
            head = reader.varint(())
            if head & 1:
                wanted = min(left, (head >> 1) * 8)
                bits = int.from_bytes(reader.bytes((wanted * width + 7) // 8), "little")
                judged(wanted)
                out += [bits >> place * width & (1 << width) - 1 for place in range(wanted)]
            else:
                value = int.from_bytes(reader.bytes(bytes_each), "little")
                judged(min(left, head >> 1))
                out += [value] * min(left, head >> 1)
        except Malformed:
            raise Cause("data") from None
    return out


def plain(kind, number, body):
    if kind == "string":
        return texts(number, body)
    size = {"boolean": (number + 7) // 8, "int32": 4 * number, "int64": 8 * number}[kind]
    if size > len(body):
        raise Cause("data")
    judged(number)
    if kind == "boolean":
        return [bool(body[place // 8] >> place % 8 & 1) for place in range(number)]
    each = 4 if kind == "int32" else 8
    return [int.from_bytes(body[at:at + each], "little", signed=True) for at in range(0, size, each)]


def texts(number, body):
    out, at = [], 0
    while len(out) < number:
        size = int.from_bytes(body[at:at + 4], "little")
        if len(body) - at < 4 or size > len(body) - at - 4:
            raise Cause("data")
        try:
            out.append(body[at + 4:at + 4 + size].decode())
        except UnicodeDecodeError:
            raise Cause("data") from None
        at += 4 + size
    return out


def line(record):
    """A record as it is printed."""
    return json.dumps(record, ensure_ascii=False, separators=(",", ":"))
