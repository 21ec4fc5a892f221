"""What Python with orjson takes for the four queries of query.sh over records of examples/document.txt, one to a line of standard input.
usage: ask.py five|groups|objects|selective"""
import sys

import orjson


def five(records):
    count = codes = urls = forward = 0
    most = None
    for record in records:
        count += 1
        most = record["DocId"] if most is None else max(most, record["DocId"])
        links = record.get("Links")
        if links:
            forward += sum(links.get("Forward") or ())
        for name in record.get("Name") or ():
            codes += len(name.get("Language") or ())
            urls += name.get("Url") is not None
    yield {"r": count, "c": codes, "u": urls, "f": forward, "m": most}


def groups(records):
    found = {}
    for record in records:
        number = record["DocId"]
        rows = [language.get("Country") for name in record.get("Name") or () for language in name.get("Language") or [{}]] or [None]
        for country in rows:
            group = found.setdefault(country, [0, 0])
            group[0] += 1
            group[1] += number
    for country in sorted(found, key=lambda it: (it is not None, it)):
        yield {"Name.Language.Country": country, "n": found[country][0], "s": found[country][1]}


def objects(records):
    for record in records:
        names = [name for name in record.get("Name") or () if (name.get("Url") or "").startswith("http://u/1")]
        if names:
            yield {"DocId": record["DocId"], "Name": [{"codes": len(name.get("Language") or ())} for name in names]}


def selective(records):
    yield {"n": sum(record["DocId"] < 100 for record in records)}


query = {"five": five, "groups": groups, "objects": objects, "selective": selective}[sys.argv[1]]
for row in query(map(orjson.loads, sys.stdin.buffer)):
    sys.stdout.buffer.write(orjson.dumps(row) + b"\n")
