// What node takes for the four queries of query.sh over records of examples/document.txt, one to a line of a file.
// usage: node ask.js five|groups|objects|selective FILE
const fs = require('fs');
const [, , query, file] = process.argv;

function* records() {
  const text = fs.readFileSync(file, 'utf8');
  for (let begin = 0; begin < text.length;) {
    let end = text.indexOf('\n', begin);
    if (end < 0) end = text.length;
    yield JSON.parse(text.slice(begin, end));
    begin = end + 1;
  }
}

const queries = {
  five() {
    const row = { r: 0, c: 0, u: 0, f: 0, m: null };
    for (const record of records()) {
      row.r += 1;
      if (row.m === null || record.DocId > row.m) row.m = record.DocId;
      for (const forward of record.Links?.Forward ?? []) row.f += forward;
      for (const name of record.Name ?? []) {
        row.c += name.Language?.length ?? 0;
        if (name.Url != null) row.u += 1;
      }
    }
    return [row];
  },
  groups() {
    const found = new Map();
    for (const record of records()) {
      const rows = (record.Name ?? []).flatMap((name) => (name.Language?.length ? name.Language : [{}]).map((language) => language.Country ?? null));
      for (const country of rows.length ? rows : [null]) {
        const group = found.get(country) ?? { n: 0, s: 0 };
        group.n += 1;
        group.s += record.DocId;
        found.set(country, group);
      }
    }
    const rows = [...found].map(([country, group]) => ({ 'Name.Language.Country': country, ...group }));
    return rows.sort((one, other) => (one['Name.Language.Country'] ?? '') < (other['Name.Language.Country'] ?? '') ? -1 : 1);
  },
  objects() {
    const rows = [];
    for (const record of records()) {
      const names = (record.Name ?? []).filter((name) => name.Url?.startsWith('http://u/1'));
      if (names.length) rows.push({ DocId: record.DocId, Name: names.map((name) => ({ codes: name.Language?.length ?? 0 })) });
    }
    return rows;
  },
  selective() {
    let n = 0;
    for (const record of records()) if (record.DocId < 100) n += 1;
    return [{ n }];
  },
};
const lines = queries[query]().map((row) => JSON.stringify(row));
process.stdout.write(lines.join('\n') + '\n');
