"""Writes the footer of a file of 30 leaves with so many row groups to standard output: bench/footer.py GROUPS"""
import sys


def varint(n):
    out = bytearray()
    while n >= 128:
        out.append(128 + n % 128)
        n //= 128
    out.append(n)
    return bytes(out)


def number(kind, n):
    return kind, varint(2 * n)


def text(s):
    return 8, varint(len(s)) + s.encode()


def struct(fields):
    out, last = bytearray(), 0
    for ident, (kind, body) in fields:
        out.append((ident - last) * 16 + kind)
        out += body
        last = ident
    return 12, bytes(out) + b"\0"


def items(kind, bodies):
    head = bytes([len(bodies) * 16 + kind]) if len(bodies) < 15 else bytes([240 + kind]) + varint(len(bodies))
    return 9, head + b"".join(bodies)


def chunk(leaf, place):
    meta = struct([
        (1, number(5, 2)), (2, items(5, [varint(0), varint(6)])), (3, items(8, [text(f"leaf{leaf}")[1]])), (4, number(5, 0)),
        (5, number(6, 1000)), (6, number(6, 8000)), (7, number(6, 8000)), (9, number(6, place)),
    ])
    return struct([(2, number(6, place)), (3, meta)])[1]


def main():
    groups, leaves = int(sys.argv[1]), 30
    elements = [struct([(4, text("root")), (5, number(5, leaves))])[1]]
    elements += [struct([(1, number(5, 2)), (3, number(5, 1)), (4, text(f"leaf{k}"))])[1] for k in range(leaves)]
    rows = [
        struct([(1, items(12, [chunk(k, 4 + (g * leaves + k) * 8000) for k in range(leaves)])), (2, number(6, 240000)), (3, number(6, 1000))])[1]
        for g in range(groups)
    ]
    footer = struct([
        (1, number(5, 1)), (2, items(12, elements)), (3, number(6, 1000 * groups)), (4, items(12, rows)), (6, text("generated")),
    ])
    sys.stdout.buffer.write(footer[1])


main()
