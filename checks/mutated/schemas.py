"""Schemas as trees of fields, the columns of records, and the records of columns."""

KINDS = {"boolean": 0, "int32": 1, "int64": 2, "string": 6}
REPETITIONS = ("required", "optional", "repeated")


class Field:
    """A field: a leaf of a kind, or a group of fields. A kind may be the number of a type that closes the leaf."""

    def __init__(self, repetition, name, kind=None, fields=(), converted=None):
        self.repetition, self.name, self.kind, self.fields, self.converted = repetition, name, kind, list(fields), converted

    def text(self):
        if self.kind is not None:
            return f"{self.repetition} {self.kind} {self.name};"
        return f"{self.repetition} group {self.name} {{ {' '.join(field.text() for field in self.fields)} }}"

    def leaves(self, way=()):
        """The ways to the leaves: the fields from the root on."""
        way = (*way, self)
        return [way] if self.kind is not None else [leaf for field in self.fields for leaf in field.leaves(way)]


def message(name, fields):
    return f"message {name} {{ {' '.join(field.text() for field in fields)} }}"


def leaves_of(fields):
    return [leaf for field in fields for leaf in field.leaves()]


def dotted(way):
    return ".".join(field.name for field in way)


def greatest_repetition(way):
    return sum(field.repetition == "repeated" for field in way)


def greatest_definition(way):
    return sum(field.repetition != "required" for field in way)


def parse(text):
    """The message's name and the fields of a schema's text."""
    words = text.replace("{", " { ").replace("}", " } ").replace(";", " ; ").split()
    at = 3

    def fields():
        nonlocal at
        found = []
        while words[at] != "}":
            repetition, kind, name = words[at:at + 3]
            at += 4
            if kind == "group":
                found.append(Field(repetition, name, None, fields()))
            else:
                found.append(Field(repetition, name, kind))
            while at < len(words) and words[at] == ";":
                at += 1
        at += 1
        return found

    return words[1], fields()


def select(fields, kept):
    """The fields that lead to the leaves that are kept, given by their dotted paths."""

    def below(field, way):
        path = f"{way}{field.name}"
        if field.kind is not None:
            return field if path in kept else None
        inside = [it for it in (below(inner, f"{path}.") for inner in field.fields) if it]
        return Field(field.repetition, field.name, None, inside) if inside else None

    return [it for it in (below(field, "") for field in fields) if it]


def instances(field, record):
    """The instances of a field in a record as it is read from JSON."""
    value = record.get(field.name)
    if field.repetition == "repeated":
        return value or []
    return [] if value is None else [value]


def column(way, record, repetition=0, definition=0, level=0):
    """A leaf's triplets in a record: repetition level, definition level, value."""
    field, rest = way[0], way[1:]
    level += field.repetition == "repeated"
    found = instances(field, record)
    if not found:
        return [(repetition, definition, None)]
    deeper = definition + (field.repetition != "required")
    out = []
    for place, value in enumerate(found):
        first = level if place else repetition
        out += column(rest, value, first, deeper, level) if rest else [(first, deeper, value)]
    return out


class NoRecords(Exception):
    """Columns that no records have."""


def cut_at(triplets, level):
    """Triplets cut before each one of this repetition level, but for the first; none has a lower one."""
    parts = [[triplets[0]]]
    for triplet in triplets[1:]:
        if triplet[0] < level:
            raise NoRecords
        if triplet[0] == level:
            parts.append([])
        parts[-1].append(triplet)
    return parts


def records_of(fields, columns, rows):
    """The records that have these columns, by the dotted paths of their leaves, or NoRecords. Every field leads to a leaf that has a column."""
    parts = {}
    for path, triplets in columns.items():
        if triplets and triplets[0][0] != 0:
            raise NoRecords
        parts[path] = cut_at(triplets, 0) if triplets else []
        if len(parts[path]) != rows:
            raise NoRecords
    return [group_of(fields, {path: part[row] for path, part in parts.items()}, "", 0, 0) for row in range(rows)]


def group_of(fields, columns, way, repetition, definition):
    """An instance of a group, from the triplets of the leaves below it."""
    group = {}
    for field in fields:
        path = f"{way}{field.name}"
        below = {it: triplets for it, triplets in columns.items() if it == path or it.startswith(f"{path}.")}
        found = instances_of(field, below, path, repetition, definition)
        if field.repetition == "repeated":
            group[field.name] = found
        elif found:
            group[field.name] = found[0]
    return group


def instances_of(field, below, path, repetition, definition):
    """The instances of a field in one instance of its group."""
    repetition += field.repetition == "repeated"
    deeper = definition + (field.repetition != "required")
    lacking = {triplets[0][1] < deeper for triplets in below.values()}
    if len(lacking) != 1:
        raise NoRecords
    if lacking.pop():
        if any(len(triplets) != 1 or triplets[0][1] != definition for triplets in below.values()):
            raise NoRecords
        return []
    if field.repetition == "repeated":
        parts = {it: cut_at(triplets, repetition) for it, triplets in below.items()}
    else:
        parts = {it: [triplets] for it, triplets in below.items()}
    if len({len(part) for part in parts.values()}) != 1:
        raise NoRecords
    count = len(next(iter(parts.values())))
    return [instance_of(field, {it: part[at] for it, part in parts.items()}, path, repetition, deeper) for at in range(count)]


def instance_of(field, columns, path, repetition, definition):
    if field.kind is None:
        return group_of(field.fields, columns, f"{path}.", repetition, definition)
    (triplets,) = columns.values()
    if len(triplets) != 1 or triplets[0][1] != definition:
        raise NoRecords
    return triplets[0][2]
