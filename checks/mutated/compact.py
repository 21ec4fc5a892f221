"""The Thrift compact protocol: structs as trees, written in short or in long spellings, and read with the places of their numbers."""

TRUE, FALSE, BYTE, I16, I32, I64, DOUBLE, BINARY, LIST, SET, MAP, STRUCT = range(1, 13)
DEEPEST = 32


class Malformed(Exception):
    """No struct is spelled there."""


def varint(number, width=1):
    """An unsigned number, in so many bytes at least."""
    out = bytearray()
    while number >= 128 or len(out) + 1 < width:
        out.append(128 | number & 127)
        number >>= 7
    out.append(number)
    return bytes(out)


def zigzag(number, width=1):
    return varint((number << 1 ^ number >> 63) & (1 << 64) - 1, width)


def little(number, size=4):
    return (number & (1 << 8 * size) - 1).to_bytes(size, "little")


class Writer:
    """Writes trees; `width` tells of each varint how many bytes it has at least, `long` whether a field's header is the long one."""

    def __init__(self, width=lambda: 1, long=lambda: False):
        self.width, self.long = width, long

    def struct(self, fields):
        out, last = bytearray(), 0
        for number, kind, value in fields:
            if 0 < number - last < 16 and not self.long():
                out.append(number - last << 4 | kind)
            else:
                out.append(kind)
                out += zigzag(number)
            out += self.value(kind, value)
            last = number
        return bytes(out) + b"\0"

    def value(self, kind, value):
        if kind in (TRUE, FALSE):
            return b""
        if kind in (BYTE, DOUBLE):
            return value
        if kind in (I16, I32, I64):
            return zigzag(value, self.width())
        if kind == BINARY:
            return varint(len(value), self.width()) + value
        if kind == STRUCT:
            return self.struct(value)
        return self.pairs(*value) if kind == MAP else self.items(*value)

    def items(self, kind, values):
        small = len(values) < 15 and self.width() == 1
        head = bytes([len(values) << 4 | kind]) if small else bytes([240 | kind]) + varint(len(values), self.width())
        return head + b"".join(self.element(kind, value) for value in values)

    def pairs(self, key_kind, kind, pairs):
        if not pairs:
            return b"\0"
        head = varint(len(pairs), self.width()) + bytes([key_kind << 4 | kind])
        return head + b"".join(self.element(key_kind, key) + self.element(kind, value) for key, value in pairs)

    def element(self, kind, value):
        return bytes([1 if value else 2]) if kind in (TRUE, FALSE) else self.value(kind, value)


class Reader:
    """Reads a struct from a place on; `spots` are the places of numbers: begin, end, whether it has a sign, and the fields on the way."""

    def __init__(self, data, at=0, end=None):
        self.data, self.at, self.end = data, at, len(data) if end is None else end
        self.spots = []

    def byte(self):
        if self.at >= self.end:
            raise Malformed
        self.at += 1
        return self.data[self.at - 1]

    def bytes(self, size):
        if not 0 <= size <= self.end - self.at:
            raise Malformed
        self.at += size
        return bytes(self.data[self.at - size:self.at])

    def varint(self, way, signed=False):
        begin, number, shift = self.at, 0, 0
        while True:
            byte = self.byte()
            number |= (byte & 127) << shift
            shift += 7
            if byte < 128:
                break
            if shift == 70:
                raise Malformed
        if number >> 64:
            raise Malformed
        self.spots.append((begin, self.at, signed, way))
        return number >> 1 ^ -(number & 1) if signed else number

    def struct(self, way=(), inside=0):
        if inside >= DEEPEST:
            raise Malformed
        fields, last = [], 0
        while True:
            head = self.byte()
            if head == 0:
                return fields
            kind, delta = head & 15, head >> 4
            if kind < TRUE or kind > STRUCT:
                raise Malformed
            last = last + delta if delta else self.varint(way, True)
            if not -32768 <= last <= 32767:
                raise Malformed
            value = kind == TRUE if kind in (TRUE, FALSE) else self.value(kind, (*way, last), inside + 1)
            fields.append((last, kind, value))

    def value(self, kind, way, inside):
        if kind in (TRUE, FALSE):
            return self.byte() == 1
        if kind == BYTE:
            return self.bytes(1)
        if kind == DOUBLE:
            return self.bytes(8)
        if kind in (I16, I32, I64):
            return self.varint(way, True)
        if kind == BINARY:
            return self.bytes(self.varint(way))
        if kind == STRUCT:
            return self.struct(way, inside)
        if inside >= DEEPEST:
            raise Malformed
        return self.map(way, inside) if kind == MAP else self.list(way, inside)

    def list(self, way, inside):
        head = self.byte()
        kind, size = head & 15, head >> 4
        if kind < TRUE or kind > STRUCT:
            raise Malformed
        size = self.varint(way) if size == 15 else size
        return kind, [self.value(kind, (*way, place), inside + 1) for place in self.places(size)]

    def map(self, way, inside):
        size = self.varint(way)
        if size == 0:
            return 0, 0, []
        kinds = self.byte()
        key_kind, kind = kinds >> 4, kinds & 15
        if not (TRUE <= key_kind <= STRUCT and TRUE <= kind <= STRUCT):
            raise Malformed
        pairs = []
        for place in self.places(size):
            key = self.value(key_kind, (*way, place), inside + 1)
            pairs.append((key, self.value(kind, (*way, place), inside + 1)))
        return key_kind, kind, pairs

    def places(self, size):
        """The places of a list's elements: each has a byte, so a list is no longer than what is left."""
        if size > self.end - self.at:
            raise Malformed
        return range(size)


def last_of(fields, number, kind):
    """The value of the last field with a number, where it has this kind."""
    for its_number, its_kind, value in reversed(fields):
        if its_number == number:
            return value if its_kind == kind else None
    return None
