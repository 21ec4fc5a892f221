"""What queries and dumps of records print, and what a query is asked."""
from schemas import dotted
from judge import line


def query_of_counts(name, ways):
    """Counts of all leaves, and what they sum up to and lie between."""
    items = ["COUNT(*) AS r"]
    for place, way in enumerate(ways):
        path = quoted(way)
        items.append(f"COUNT({path}) AS c{place}")
        if way[-1].kind in ("int32", "int64"):
            items.append(f"SUM({path}) AS s{place}")
        items += [f"MIN({path}) AS l{place}", f"MAX({path}) AS g{place}"]
    return f"SELECT {', '.join(items)} FROM {name}"


def counts_of(ways, files):
    """The line of that query, of files' columns and records."""
    found = {"r": sum(len(records) for _, records in files)}
    for place, way in enumerate(ways):
        values = [value for columns, _ in files for _, _, value in columns[dotted(way)] if value is not None]
        found[f"c{place}"] = len(values)
        if way[-1].kind in ("int32", "int64"):
            found[f"s{place}"] = sum(values) if values else None
        order = str.encode if way[-1].kind == "string" else None
        found[f"l{place}"] = min(values, key=order, default=None)
        found[f"g{place}"] = max(values, key=order, default=None)
    return line(found)


def quoted(way):
    return ".".join(f'"{field.name}"' for field in way)


def query_of_records(name, ways):
    return f"SELECT {', '.join(quoted(way) for way in ways)} FROM {name}"


def object_of(fields, record, before=""):
    """The object of an instance: its values, then a list for each repeated field below it."""
    items, lists = {}, {}

    def go(fields, record, way):
        for field in fields:
            value = record.get(field.name)
            path = f"{way}{field.name}"
            if field.repetition == "repeated":
                lists[path] = [
                    object_of(field.fields, it, f"{before}{path}.") if field.kind is None else {f"{before}{path}": it} for it in value or []
                ]
            elif field.kind is None:
                go(field.fields, value or {}, f"{path}.")
            else:
                items[f"{before}{path}"] = value

    go(fields, record, "")
    return {**items, **lists}
