"""Changes of a file's bytes: bytes flipped, cut and spliced, numbers set to others, fields moved, footers put on other pages."""
import copy

import compact
from compact import BINARY, I32, I64, LIST, STRUCT, Malformed, Reader, last_of, little, varint, zigzag

MAGIC = b"PAR1"
SPECIAL = (0, -1, 1, 2, 8, 127, 128, 2**31 - 1, 2**31, 2**32, 2**40, 2**63 - 1, -2**63, -2**31)


def footer_place(data):
    """Where the footer begins, or None."""
    if len(data) < 12:
        return None
    size = int.from_bytes(data[-8:-4], "little")
    return len(data) - 8 - size if size <= len(data) - 12 else None


class Base:
    """A file of the corpus: its bytes, the places of its numbers, those of its pages, and its footer as a tree."""

    def __init__(self, name, data):
        self.name, self.data = name, data
        self.footer = footer_place(data)
        reader = Reader(data, self.footer, len(data) - 8)
        self.tree = reader.struct()
        self.spots = reader.spots
        self.pages, self.lengths = [], []
        for group in last_of(self.tree, 4, LIST)[1]:
            for chunk in last_of(group, 1, LIST)[1]:
                self.look_at(last_of(chunk, 3, STRUCT))

    def look_at(self, meta):
        """Notes the spots of the pages of a chunk, as far as there are pages."""
        first, place = last_of(meta, 9, I64), last_of(meta, 11, I64)
        at = place if place and 0 < place < first else first
        end = at + last_of(meta, 7, I64)
        while at < end:
            reader = Reader(self.data, at, end)
            try:
                fields = reader.struct()
                size = last_of(fields, 3, I32)
                reader.bytes(size)
            except (Malformed, TypeError):
                return
            self.pages += [(*spot[:3], (0, *spot[3])) for spot in reader.spots]
            begin = reader.at - size
            if size >= 4:
                self.lengths.append(begin)
                inside = begin + 4 + int.from_bytes(self.data[begin:begin + 4], "little")
                if inside + 4 <= reader.at:
                    self.lengths.append(inside)
            at = reader.at


def with_footer(data, footer, struct):
    """The bytes before a footer, and another footer behind them."""
    return data[:footer] + struct + little(len(struct)) + MAGIC


class Changer:
    """Makes changed files out of a corpus by random choices."""

    def __init__(self, source, corpus):
        self.source, self.corpus = source, corpus

    def number(self, old):
        source = self.source
        if source.random() < 0.5:
            return source.choice(SPECIAL)
        return old + source.choice((-1, 1, -2, 2, -8, 8, old, 1000, -old))

    def spell(self, number, signed):
        width = self.source.choice((1, 1, 1, 2, 5, 10))
        return zigzag(number, width) if signed else varint(number & (1 << 64) - 1, width)

    def value_at(self, data, spot):
        begin, _, signed, _ = spot
        return Reader(data, begin).varint((), signed)

    # -- each makes bytes of a base

    def as_it_is(self, base):
        return base.data

    def flipped(self, base):
        data = bytearray(base.data)
        at = self.place(base)
        for _ in range(self.source.choice((1, 1, 1, 2, 3, 8))):
            place = min(len(data) - 1, max(0, at + self.source.choice((0, 1, 2, -1, self.source.randint(-20, 20)))))
            data[place] = data[place] ^ 1 << self.source.randrange(8) if self.source.random() < 0.6 else self.source.choice((0, 1, 127, 128, 255))
        return bytes(data)

    def region(self, base):
        """A part of the file in which something is changed: the pages, the footer, all, or the end."""
        size = len(base.data)
        parts = (0, base.footer), (base.footer, size - 8), (0, size), (base.footer, size)
        return self.source.choices(parts, (12, 5, 2, 1))[0]

    def place(self, base):
        begin, end = self.region(base)
        return self.source.randrange(begin, max(end, begin + 1))

    def cut(self, base):
        size = len(base.data)
        way = self.source.random()
        if way < 0.1:
            return base.data[:self.source.randrange(size)]
        if way < 0.15:
            return base.data[:size - self.source.randint(1, min(size, 20))]
        begin = self.place(base)
        end = begin + self.source.choice((1, 1, 2, 3, 4, 8, 20, 100))
        return self.mended(base, begin, min(end, size), b"")

    def spliced(self, base):
        other = base if self.source.random() < 0.5 else self.source.choice(self.corpus)
        begin = self.source.randrange(len(other.data))
        piece = other.data[begin:begin + self.source.choice((1, 2, 4, 8, 50, 500))]
        if self.source.random() < 0.2:
            piece = self.source.randbytes(self.source.randint(1, 12))
        place = self.place(base)
        end = place if self.source.random() < 0.5 else min(len(base.data), place + len(piece))
        return self.mended(base, place, end, piece)

    def renumbered(self, base):
        """One to three numbers of the footer or of page headers are others."""
        spots = base.spots if self.source.random() < 0.5 or not base.pages else base.pages
        chosen = self.source.sample(spots, min(len(spots), self.source.choice((1, 1, 1, 2, 3))))
        data, end = base.data, len(base.data)
        out = b""
        for spot in sorted(chosen, reverse=True):
            out = self.spell(self.number(self.value_at(data, spot)), spot[2]) + data[spot[1]:end] + out
            end = spot[0]
        return self.with_length(base, data[:end] + out, sum(spot[0] < base.footer for spot in chosen) == 0)

    def with_length(self, base, data, is_footer):
        """The footer's length is mended where only the footer has changed, most times; where the pages have, its places are moved."""
        if self.source.random() < 0.1:
            return data
        if is_footer:
            return with_footer(data, base.footer, data[base.footer:-8])
        return self.moved(base, data)

    def moved(self, base, data):
        """The footer with its offsets and sizes moved to the pages of a front that has grown or shrunk. The first change of the front decides."""
        grown = len(data) - len(base.data)
        front = next((at for at, (old, new) in enumerate(zip(base.data, data)) if old != new), 0)
        tree = copy.deepcopy(base.tree)
        for group in last_of(tree, 4, LIST)[1]:
            for chunk in last_of(group, 1, LIST)[1]:
                self.move(last_of(chunk, 3, STRUCT), front, grown)
        return with_footer(data, base.footer + grown, compact.Writer().struct(tree))

    def move(self, meta, front, grown):
        first, place, size = last_of(meta, 9, I64), last_of(meta, 11, I64), last_of(meta, 7, I64)
        begin = place if place and 0 < place < first else first
        for at, (number, kind, value) in enumerate(meta):
            if number == 7 and begin <= front < begin + size:
                meta[at] = number, kind, value + grown
            elif number in (9, 11) and value > front:
                meta[at] = number, kind, value + grown

    def mended(self, base, begin, end, piece):
        data = base.data[:begin] + piece + base.data[end:]
        if begin >= base.footer and end <= len(base.data) - 8 and self.source.random() < 0.9:
            return with_footer(data, base.footer, data[base.footer:-8])
        if end <= base.footer and self.source.random() < 0.8:
            return self.moved(base, data)
        return data

    def relength(self, base):
        """The length of levels, of a text, or of the footer is another."""
        data = bytearray(base.data)
        place = self.source.choice(base.lengths) if base.lengths and self.source.random() < 0.9 else len(data) - 8
        old = int.from_bytes(data[place:place + 4], "little")
        data[place:place + 4] = little(self.number(old))
        return bytes(data)

    def other_footer(self, base):
        other = self.source.choice(self.corpus)
        struct = other.data[other.footer:-8]
        return with_footer(base.data, base.footer, struct)

    def retreed(self, base):
        """A field of the footer is dropped, doubled, moved, has another number or type, or stands deeper."""
        tree = copy.deepcopy(base.tree)
        structs = list(all_structs(tree))
        for _ in range(self.source.choice((1, 1, 2))):
            self.change_struct(self.source.choice(structs))
        return with_footer(base.data, base.footer, compact.Writer().struct(tree))

    def change_struct(self, fields):
        if not fields:
            fields.append((self.source.randint(1, 12), I64, self.source.choice(SPECIAL)))
            return
        at = self.source.randrange(len(fields))
        number, kind, value = fields[at]
        way = self.source.randrange(8)
        if way == 0:
            del fields[at]
        elif way == 1:
            fields.append((number, kind, value))
        elif way == 2:
            fields.insert(0, fields.pop(at))
        elif way == 3:
            fields[at] = self.source.choice((number + 1, number - 1, -number, 300)), kind, value
        elif way == 4 and kind in (I32, I64):
            fields[at] = number, self.source.choice((kind, I32 + I64 - kind)), self.number(value)
        elif way == 5 and kind == LIST:
            self.change_list(value[1])
        elif way == 6:
            deep = [(1, I64, 0)]
            for _ in range(self.source.choice((1, 5, 26, 27, 28, 29, 30, 31, 32, 40))):
                deep = [(1, STRUCT, deep)]
            fields.append((self.source.randint(20, 30), STRUCT, deep))
        else:
            texts = b"?", b"", b"a b", b"\xff", b"a" * 64, b"a" * 65, value * 2 if kind == BINARY else b"??"
            fields[at] = number, BINARY, self.source.choice(texts)

    def change_list(self, values):
        way = self.source.randrange(4)
        if not values or way == 0:
            values += values[-1:]
            return
        at = self.source.randrange(len(values))
        if way == 1:
            del values[at]
        elif way == 2:
            values.insert(0, values.pop(at))
        else:
            values.insert(at, copy.deepcopy(values[at]))

    def claimed(self, base):
        """Great counts that agree in the footer: rows and values of all chunks of the first row group."""
        tree = copy.deepcopy(base.tree)
        many = self.source.choice((2**20, 2**31 - 1, 10**9, 10**9 + 1, 2**40, 2**40 + 1, 2**63 - 1))
        groups = last_of(tree, 4, LIST)[1]
        if not groups:
            return base.data
        set_number(groups[0], 3, many)
        set_number(tree, 3, many + sum(last_of(group, 3, I64) for group in groups[1:]))
        for chunk in last_of(groups[0], 1, LIST)[1]:
            set_number(last_of(chunk, 3, STRUCT), 5, many)
        return with_footer(base.data, base.footer, compact.Writer().struct(tree))

    def made(self, base):
        """A changed file: most often by one change, now and then by two that each begin with bytes as a whole."""
        ways = [
            (self.as_it_is, 2), (self.flipped, 22), (self.cut, 12), (self.spliced, 14), (self.renumbered, 24),
            (self.relength, 8), (self.other_footer, 4), (self.retreed, 12), (self.claimed, 2),
        ]
        change = self.source.choices([way for way, _ in ways], [weight for _, weight in ways])[0]
        data = change(base)
        if self.source.random() < 0.15:
            data = self.changed_again(base.name, data)
        return data

    def changed_again(self, name, data):
        """Another change, where the bytes are still as those of a file as far as a base looks at them."""
        change = self.source.choice((self.flipped, self.renumbered, self.relength, self.spliced))
        try:
            return change(Base(name, data))
        except (Malformed, TypeError, ValueError, IndexError, OverflowError):
            return data


def all_structs(fields):
    yield fields
    for _, kind, value in fields:
        if kind == STRUCT:
            yield from all_structs(value)
        elif kind == LIST and value[0] == STRUCT:
            for inner in value[1]:
                yield from all_structs(inner)


def set_number(fields, number, value):
    for at, (its_number, kind, _) in enumerate(fields):
        if its_number == number:
            fields[at] = number, kind, value
