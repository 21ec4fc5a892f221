//! What a hand-written reader takes, on one thread, for three aggregate queries and one of objects over Parquet files as `dremel load` writes them (docs/FORMATS.md) of the schema
//! examples/document.txt:
//!   five:      SELECT COUNT(*) AS r, COUNT(Name.Language.Code) AS c, COUNT(Name.Url) AS u, SUM(Links.Forward) AS f, MAX(DocId) AS m FROM Document
//!   groups:    SELECT Name.Language.Country, COUNT(*) AS n, SUM(DocId) AS s FROM Document GROUP BY Name.Language.Country
//!   selective: SELECT COUNT(*) AS n FROM Document WHERE DocId < 100
//!   objects:   SELECT DocId, COUNT(Name.Language.Code) WITHIN Name AS codes FROM Document WHERE Name.Url LIKE 'http://u/1%'
//! It prints the lines that dremel prints. It reads the footer, then the chunks of the query's leaves only, page by page, each once. Of these it checks levels by their
//! greatest, the numbers of triplets, values and records, texts as UTF-8, and that records have these columns. Other pages, encodings and schemas are refused.
//! usage: limit five|groups|selective|objects FILE..

use std::collections::HashMap;
use std::convert::TryFrom;
use std::fs::File;
use std::hash::{BuildHasherDefault, Hasher};
use std::os::unix::fs::FileExt;
use std::process::ExitCode;

type Answer<T> = Result<T, &'static str>;

fn ensure(holds: bool, cause: &'static str) -> Answer<()> {
    if holds {
        Ok(())
    } else {
        Err(cause)
    }
}

// Bytes, and the Thrift compact protocol in them

const I32: u8 = 5;
const I64: u8 = 6;
const BINARY: u8 = 8;
const LIST: u8 = 9;
const STRUCT: u8 = 12;

/// The greatest number of structs and lists in one another.
const NESTED: u8 = 32;

/// Bytes that are read from their front.
struct Bytes<'a>(&'a [u8]);

impl<'a> Bytes<'a> {
    fn take(&mut self, length: usize) -> Answer<&'a [u8]> {
        let (taken, rest) = self.0.split_at_checked(length).ok_or("bytes end too early")?;
        self.0 = rest;
        Ok(taken)
    }

    fn byte(&mut self) -> Answer<u8> {
        Ok(self.take(1)?[0])
    }

    #[inline]
    fn varint(&mut self) -> Answer<u64> {
        let mut value = 0;
        for shift in (0..64).step_by(7) {
            let byte = self.byte()?;
            value |= u64::from(byte & 127) << shift;
            if byte < 128 {
                return Ok(value);
            }
        }
        Err("a number is too long")
    }

    fn number(&mut self) -> Answer<i64> {
        let value = self.varint()?;
        Ok((value >> 1) as i64 ^ -((value & 1) as i64))
    }

    /// A number that isn't negative.
    fn size(&mut self) -> Answer<u64> {
        u64::try_from(self.number()?).map_err(|_| "a size is negative")
    }

    fn binary(&mut self) -> Answer<&'a [u8]> {
        let length = self.varint()?;
        self.take(usize::try_from(length).map_err(|_| "bytes end too early")?)
    }

    /// Four bytes of a length, and so many bytes.
    fn sized(&mut self) -> Answer<&'a [u8]> {
        let length = self.take(4)?;
        self.take(u32::from_le_bytes([length[0], length[1], length[2], length[3]]) as usize)
    }

    /// The type of a list's elements, and how many they are.
    fn list(&mut self) -> Answer<(u8, u64)> {
        let head = self.byte()?;
        let count = if head >> 4 == 15 { self.varint()? } else { u64::from(head >> 4) };
        Ok((head & 15, count))
    }

    /// Reads a list of structs.
    fn structs<T>(&mut self, each: impl Fn(&mut Self) -> Answer<T>) -> Answer<Vec<T>> {
        let (kind, count) = self.list()?;
        ensure(kind == STRUCT || count == 0, "a list has other elements")?;
        (0..count).map(|_| each(self)).collect()
    }

    /// Reads a struct: `field` has each field's number and type, and says whether it has read it; others are passed over.
    fn fields(&mut self, depth: u8, field: &mut dyn FnMut(i64, u8, &mut Self) -> Answer<bool>) -> Answer<()> {
        ensure(depth < NESTED, "the footer is nested too deep")?;
        let mut number: i64 = 0;
        loop {
            let head = self.byte()?;
            let kind = head & 15;
            if head == 0 {
                return Ok(());
            }
            number = if head >> 4 == 0 { self.number()? } else { number.wrapping_add(i64::from(head >> 4)) };
            if !field(number, kind, self)? {
                self.pass(kind, depth + 1)?;
            }
        }
    }

    /// Passes over a value.
    fn pass(&mut self, kind: u8, depth: u8) -> Answer<()> {
        ensure(depth < NESTED, "the footer is nested too deep")?;
        match kind {
            1 | 2 => Ok(()),
            3 => self.take(1).map(drop),
            4..=6 => self.varint().map(drop),
            7 => self.take(8).map(drop),
            8 => self.binary().map(drop),
            9 | 10 => {
                let (kind, count) = self.list()?;
                (0..count).try_for_each(|_| self.pass_element(kind, depth + 1))
            }
            11 => {
                let count = self.varint()?;
                let kinds = if count == 0 { 0 } else { self.byte()? };
                (0..count).try_for_each(|_| {
                    self.pass_element(kinds >> 4, depth + 1)?;
                    self.pass_element(kinds & 15, depth + 1)
                })
            }
            STRUCT => self.fields(depth, &mut |_, _, _| Ok(false)),
            _ => Err("a field has no type"),
        }
    }

    /// Passes over a value in a list, where a truth value has a byte.
    fn pass_element(&mut self, kind: u8, depth: u8) -> Answer<()> {
        if kind == 1 || kind == 2 {
            self.take(1).map(drop)
        } else {
            self.pass(kind, depth)
        }
    }
}

// The schema

const INT64: u64 = 2;
const BYTE_ARRAY: u64 = 6;

const REQUIRED: u64 = 0;
const OPTIONAL: u64 = 1;
const REPEATED: u64 = 2;

/// An element of the footer's schema.
#[derive(Default, PartialEq)]
struct Element<'a> {
    name: &'a [u8],
    repetition: Option<u64>,
    kind: Option<u64>,
    children: u64,
}

impl<'a> Element<'a> {
    fn read(bytes: &mut Bytes<'a>) -> Answer<Self> {
        let mut element = Self::default();
        bytes.fields(2, &mut |number, kind, bytes| {
            match (number, kind) {
                (1, I32) => element.kind = Some(bytes.size()?),
                (3, I32) => element.repetition = Some(bytes.size()?),
                (4, BINARY) => element.name = bytes.binary()?,
                (5, I32) => element.children = bytes.size()?,
                _ => return Ok(false),
            }
            Ok(true)
        })?;
        Ok(element)
    }
}

const fn group(name: &str, repetition: u64, children: u64) -> Element<'_> {
    Element { name: name.as_bytes(), repetition: Some(repetition), kind: None, children }
}

const fn leaf(name: &str, repetition: u64, kind: u64) -> Element<'_> {
    Element { name: name.as_bytes(), repetition: Some(repetition), kind: Some(kind), children: 0 }
}

/// What examples/document.txt is in a footer, behind its root.
const DOCUMENT: [Element; 9] = [
    leaf("DocId", REQUIRED, INT64),
    group("Links", OPTIONAL, 2),
    leaf("Backward", REPEATED, INT64),
    leaf("Forward", REPEATED, INT64),
    group("Name", REPEATED, 2),
    group("Language", REPEATED, 2),
    leaf("Code", REQUIRED, BYTE_ARRAY),
    leaf("Country", OPTIONAL, BYTE_ARRAY),
    leaf("Url", OPTIONAL, BYTE_ARRAY),
];

const LEAVES: usize = 6;

/// A leaf: its place among the leaves, its type, its greatest levels, and for each repetition level the definition level from which an instance is there.
struct Leaf {
    place: usize,
    kind: u64,
    repetition: u8,
    definition: u8,
    there: [u8; 3],
}

const DOC_ID: Leaf = Leaf { place: 0, kind: INT64, repetition: 0, definition: 0, there: [0; 3] };
const FORWARD: Leaf = Leaf { place: 2, kind: INT64, repetition: 1, definition: 2, there: [0, 2, 0] };
const CODE: Leaf = Leaf { place: 3, kind: BYTE_ARRAY, repetition: 2, definition: 2, there: [0, 1, 2] };
const COUNTRY: Leaf = Leaf { place: 4, kind: BYTE_ARRAY, repetition: 2, definition: 3, there: [0, 1, 2] };
const URL: Leaf = Leaf { place: 5, kind: BYTE_ARRAY, repetition: 1, definition: 2, there: [0, 1, 0] };

// The footer

/// A column chunk: where it begins, and its bytes and triplets.
struct Chunk {
    kind: u64,
    codec: u64,
    triplets: u64,
    length: u64,
    begin: u64,
}

impl Chunk {
    fn read(bytes: &mut Bytes) -> Answer<Self> {
        let mut chunk = None;
        bytes.fields(4, &mut |number, kind, bytes| match (number, kind) {
            (1, BINARY) => Err("a chunk is in another file"),
            (3, STRUCT) => {
                chunk = Some(Self::read_data(bytes)?);
                Ok(true)
            }
            _ => Ok(false),
        })?;
        chunk.ok_or("a chunk lacks a field")
    }

    fn read_data(bytes: &mut Bytes) -> Answer<Self> {
        let mut sizes = [None; 5];
        bytes.fields(5, &mut |number, kind, bytes| {
            let place = match (number, kind) {
                (1, I32) => 0,
                (4, I32) => 1,
                (5, I64) => 2,
                (7, I64) => 3,
                (9, I64) => 4,
                _ => return Ok(false),
            };
            sizes[place] = Some(bytes.size()?);
            Ok(true)
        })?;
        let [Some(kind), Some(codec), Some(triplets), Some(length), Some(begin)] = sizes else {
            return Err("a chunk lacks a field");
        };
        Ok(Self { kind, codec, triplets, length, begin })
    }
}

struct RowGroup {
    rows: u64,
    chunks: Vec<Chunk>,
}

impl RowGroup {
    fn read(bytes: &mut Bytes) -> Answer<Self> {
        let (mut rows, mut chunks) = (None, Vec::new());
        bytes.fields(2, &mut |number, kind, bytes| {
            match (number, kind) {
                (1, LIST) => chunks = bytes.structs(Chunk::read)?,
                (3, I64) => rows = Some(bytes.size()?),
                _ => return Ok(false),
            }
            Ok(true)
        })?;
        ensure(chunks.len() == LEAVES, "a row group has other chunks")?;
        Ok(Self { rows: rows.ok_or("a row group lacks a field")?, chunks })
    }
}

/// A file, its row groups, and where its footer begins.
struct Tablet {
    file: File,
    groups: Vec<RowGroup>,
    end: u64,
}

impl Tablet {
    fn open(name: &str) -> Answer<Self> {
        let file = File::open(name).map_err(|_| "no such file")?;
        let size = file.metadata().map_err(|_| "no file")?.len();
        ensure(size >= 12, "no frame")?;
        let mut last = [0; 8];
        let mut first = [0; 4];
        read(&file, &mut last, size - 8)?;
        read(&file, &mut first, 0)?;
        ensure(&first == b"PAR1" && &last[4..] == b"PAR1", "no frame")?;
        let length = u64::from(u32::from_le_bytes([last[0], last[1], last[2], last[3]]));
        ensure(length <= size - 12, "no footer")?;
        let end = size - 8 - length;
        let mut footer = vec![0; length as usize];
        read(&file, &mut footer, end)?;
        Ok(Self { file, groups: read_footer(&footer)?, end })
    }

    /// Hands over each page of a leaf's chunk, whose records must be those of the row group.
    fn pages(&self, group: &RowGroup, leaf: &Leaf, mut each: impl FnMut(Page) -> Answer<()>) -> Answer<()> {
        let chunk = &group.chunks[leaf.place];
        ensure(chunk.kind == leaf.kind, "a chunk has another type")?;
        ensure(chunk.codec == 0, "a chunk is compressed")?;
        let begin = chunk.begin;
        let end = begin.checked_add(chunk.length).ok_or("a chunk is past its room")?;
        ensure(begin >= 4 && end <= self.end, "a chunk is past its room")?;
        let mut window = Window { file: &self.file, at: begin, end, bytes: Vec::new(), used: 0 };
        let mut levels = Levels::default();
        let (mut triplets, mut records) = (chunk.triplets, 0);
        while triplets > 0 {
            let head = PageHead::read(&mut window)?;
            triplets = triplets.checked_sub(head.triplets as u64).ok_or("a page has too many triplets")?;
            let page = levels.page(head.triplets, window.take(head.length)?, leaf)?;
            records += page.records();
            each(page)?;
        }
        ensure(records == group.rows, "a column has other records")
    }
}

fn read(file: &File, to: &mut [u8], at: u64) -> Answer<()> {
    file.read_exact_at(to, at).map_err(|_| "the file can't be read")
}

fn read_footer(footer: &[u8]) -> Answer<Vec<RowGroup>> {
    let (mut schema, mut rows, mut groups) = (Vec::new(), None, Vec::new());
    Bytes(footer).fields(0, &mut |number, kind, bytes| {
        match (number, kind) {
            (2, LIST) => schema = bytes.structs(Element::read)?,
            (3, I64) => rows = Some(bytes.size()?),
            (4, LIST) => groups = bytes.structs(RowGroup::read)?,
            _ => return Ok(false),
        }
        Ok(true)
    })?;
    ensure(schema.first().is_some_and(|root| root.children == 3) && schema[1..] == DOCUMENT, "another schema")?;
    let sum = groups.iter().try_fold(0u64, |sum, group: &RowGroup| sum.checked_add(group.rows));
    ensure(sum.is_some() && sum == rows, "row groups have other rows")?;
    Ok(groups)
}

// Pages

/// So many bytes of a chunk are read at once; a page's head has no more.
const WINDOW: usize = 1 << 18;

/// A chunk's bytes, of which those in front are in memory: `used` of them are done with.
struct Window<'a> {
    file: &'a File,
    at: u64,
    end: u64,
    bytes: Vec<u8>,
    used: usize,
}

impl Window<'_> {
    /// The bytes in front: so many at least, or all that the chunk has.
    fn front(&mut self, length: usize) -> Answer<&[u8]> {
        if self.bytes.len() - self.used < length && self.at < self.end {
            self.bytes.drain(..self.used);
            self.used = 0;
            let kept = self.bytes.len();
            let more = (self.end - self.at).min((length.max(WINDOW) - kept) as u64);
            self.bytes.resize(kept + more as usize, 0);
            read(self.file, &mut self.bytes[kept..], self.at)?;
            self.at += more;
        }
        Ok(&self.bytes[self.used..])
    }

    fn take(&mut self, length: usize) -> Answer<&[u8]> {
        self.front(length)?;
        let begin = self.used;
        ensure(self.bytes.len() - begin >= length, "a page is past its room")?;
        self.used += length;
        Ok(&self.bytes[begin..self.used])
    }
}

/// What is told of a page before its bytes.
struct PageHead {
    length: usize,
    triplets: usize,
}

impl PageHead {
    /// Reads the head in front of a window: first with few bytes, which are mostly there.
    fn read(window: &mut Window) -> Answer<Self> {
        for length in [256, WINDOW] {
            let front = window.front(length)?;
            let mut bytes = Bytes(front);
            let given = front.len();
            if let Ok(head) = Self::parse(&mut bytes) {
                let length = given - bytes.0.len();
                window.take(length)?;
                return Ok(head);
            }
        }
        Err("a page has no head, or is of another kind")
    }

    fn parse(bytes: &mut Bytes) -> Answer<Self> {
        let (mut data, mut length, mut triplets, mut plain) = (false, None, None, [false; 3]);
        bytes.fields(0, &mut |number, kind, bytes| {
            match (number, kind) {
                (1, I32) => data = bytes.size()? == 0,
                (3, I32) => length = Some(bytes.size()?),
                (5, STRUCT) => bytes.fields(1, &mut |number, kind, bytes| {
                    match (number, kind) {
                        (1, I32) => triplets = Some(bytes.size()?),
                        (2, I32) => plain[0] = bytes.size()? == 0,
                        (3 | 4, I32) => plain[number as usize - 2] = bytes.size()? == 3,
                        _ => return Ok(false),
                    }
                    Ok(true)
                })?,
                _ => return Ok(false),
            }
            Ok(true)
        })?;
        ensure(data && plain == [true; 3], "a page is of another kind")?;
        let small = |size: Option<u64>| size.filter(|&size| size <= i32::MAX as u64).map(|size| size as usize).ok_or("a page has no size");
        Ok(Self { length: small(length)?, triplets: small(triplets)? })
    }
}

/// A page whose levels and values are checked: levels are there where the leaf has some above 0.
struct Page<'a> {
    repetition: &'a [u8],
    definition: &'a [u8],
    values: &'a [u8],
    count: usize,
}

impl<'a> Page<'a> {
    fn records(&self) -> u64 {
        if self.repetition.is_empty() {
            self.count as u64
        } else {
            count(self.repetition, 0) as u64
        }
    }

    fn triplets(&self) -> impl Iterator<Item = (u8, u8)> + use<'a> {
        self.repetition.iter().copied().zip(self.definition.iter().copied())
    }

    fn numbers(&self) -> impl Iterator<Item = i64> + use<'a> {
        let (numbers, _) = self.values.as_chunks();
        numbers.iter().map(|&number| i64::from_le_bytes(number))
    }
}

/// How often a level occurs, counted in bytes first.
fn count(levels: &[u8], level: u8) -> usize {
    levels.chunks(255).map(|some| usize::from(some.iter().map(|&it| u8::from(it == level)).sum::<u8>())).sum()
}

/// The levels of a page, and the last definition level of the one before.
#[derive(Default)]
struct Levels {
    repetition: Vec<u8>,
    definition: Vec<u8>,
    last: u8,
}

impl Levels {
    /// Reads a page's levels, and tests them and its values.
    fn page<'a>(&'a mut self, triplets: usize, body: &'a [u8], leaf: &Leaf) -> Answer<Page<'a>> {
        let mut bytes = Bytes(body);
        decode(&mut bytes, triplets, leaf.repetition, &mut self.repetition)?;
        decode(&mut bytes, triplets, leaf.definition, &mut self.definition)?;
        self.check(leaf)?;
        let count = if leaf.definition == 0 { triplets } else { count(&self.definition, leaf.definition) };
        let values = if leaf.kind == INT64 { bytes.take(count * 8)? } else { texts(bytes.0, count)? };
        Ok(Page { repetition: &self.repetition, definition: &self.definition, values, count })
    }

    /// Tests that a triplet which goes on with a list is in it, and the one before, too.
    fn check(&mut self, leaf: &Leaf) -> Answer<()> {
        let [none, one, two] = leaf.there;
        let needed = |repetition| match repetition {
            0 => none,
            1 => one,
            _ => two,
        };
        let (Some(first), Some(last)) = (self.definition.first(), self.definition.last()) else {
            return Ok(());
        };
        let mut fits = self.last.min(*first) >= needed(self.repetition[0]);
        for ((&repetition, &definition), &before) in self.repetition[1..].iter().zip(&self.definition[1..]).zip(&self.definition) {
            fits &= before.min(definition) >= needed(repetition);
        }
        self.last = *last;
        ensure(fits, "no records have these levels")
    }
}

/// Decodes so many levels from runs and packed groups of eight; of none where the greatest is 0.
fn decode(bytes: &mut Bytes, count: usize, greatest: u8, levels: &mut Vec<u8>) -> Answer<()> {
    levels.clear();
    if greatest == 0 {
        return Ok(());
    }
    let width = if greatest == 1 { 1 } else { 2 };
    let mut runs = Bytes(bytes.sized()?);
    while levels.len() < count {
        let head = runs.varint()?;
        if head & 1 == 0 {
            let run = (head >> 1).min((count - levels.len()) as u64);
            levels.resize(levels.len() + run as usize, runs.byte()?);
        } else {
            let groups = usize::try_from(head >> 1).map_err(|_| "bytes end too early")?;
            let packed = runs.take(groups.checked_mul(width).ok_or("bytes end too early")?)?;
            let needed = (count - levels.len()).div_ceil(8);
            packed.chunks_exact(width).take(needed).for_each(|group| levels.extend_from_slice(&unpacked(group)));
        }
    }
    levels.truncate(count);
    ensure(levels.iter().fold(0, |most, &level| most.max(level)) <= greatest, "a level is too great")
}

/// The eight levels of a packed group, of one byte or two.
fn unpacked(group: &[u8]) -> [u8; 8] {
    let spread = if let &[low, high] = group {
        let bits = u64::from(u16::from_le_bytes([low, high]));
        let bits = (bits | bits << 24) & 0x0000_00ff_0000_00ff;
        let bits = (bits | bits << 12) & 0x000f_000f_000f_000f;
        (bits | bits << 6) & 0x0303_0303_0303_0303
    } else {
        let bits = u64::from(group[0]);
        let bits = (bits | bits << 28) & 0x0000_000f_0000_000f;
        let bits = (bits | bits << 14) & 0x0003_0003_0003_0003;
        (bits | bits << 7) & 0x0101_0101_0101_0101
    };
    spread.to_le_bytes()
}

/// The bytes of so many texts, each in UTF-8. Where all bytes are ASCII, those of short lengths among them, no text is looked at alone.
fn texts(values: &[u8], count: usize) -> Answer<&[u8]> {
    let ascii = values.is_ascii();
    let mut rest = Bytes(values);
    for _ in 0..count {
        let text = rest.sized()?;
        ensure(ascii || std::str::from_utf8(text).is_ok(), "a text isn't UTF-8")?;
    }
    Ok(&values[..values.len() - rest.0.len()])
}

// The queries

#[derive(Default)]
struct Five {
    records: u64,
    codes: u64,
    urls: u64,
    sum: Option<i128>,
    greatest: Option<i64>,
}

impl Five {
    fn take(&mut self, tablet: &Tablet, group: &RowGroup) -> Answer<()> {
        tablet.pages(group, &DOC_ID, |page| {
            self.records += page.records();
            self.greatest = self.greatest.max(page.numbers().max());
            Ok(())
        })?;
        tablet.pages(group, &FORWARD, |page| {
            if page.count > 0 {
                *self.sum.get_or_insert(0) += page.numbers().map(i128::from).sum::<i128>();
            }
            Ok(())
        })?;
        let (mut of_code, mut of_url) = (Vec::new(), Vec::new());
        tablet.pages(group, &CODE, |page| {
            self.codes += page.count as u64;
            names(&page, &mut of_code);
            Ok(())
        })?;
        tablet.pages(group, &URL, |page| {
            self.urls += page.count as u64;
            names(&page, &mut of_url);
            Ok(())
        })?;
        ensure(of_code == of_url, "columns have other names")
    }

    fn print(&self) {
        let Self { records, codes, urls, .. } = self;
        let (sum, greatest) = (or_null(self.sum), or_null(self.greatest));
        println!("{{\"r\":{records},\"c\":{codes},\"u\":{urls},\"f\":{sum},\"m\":{greatest}}}");
    }
}

fn or_null<T: ToString>(value: Option<T>) -> String {
    value.map_or("null".to_string(), |value| value.to_string())
}

/// Notes for each Name, or record without one, that a page begins: whether it goes on with a record, and is there.
fn names(page: &Page, to: &mut Vec<u8>) {
    let mut end = to.len();
    to.resize(end + page.repetition.len(), 0);
    for (repetition, definition) in page.triplets() {
        to[end] = repetition << 1 | definition.min(1);
        end += usize::from(repetition < 2);
    }
    to.truncate(end);
}

/// The names whose address begins so are kept, and records with such names.
const ADDRESS: &[u8] = b"http://u/1";

/// The lines of objects.
#[derive(Default)]
struct Objects(String);

impl Objects {
    fn take(&mut self, tablet: &Tablet, group: &RowGroup) -> Answer<()> {
        let (mut ids, mut codes, mut kept) = (Vec::new(), Vec::new(), Vec::new());
        let (mut of_code, mut of_url) = (Vec::new(), Vec::new());
        tablet.pages(group, &DOC_ID, |page| {
            ids.extend(page.numbers());
            Ok(())
        })?;
        tablet.pages(group, &CODE, |page| {
            names(&page, &mut of_code);
            for (repetition, definition) in page.triplets() {
                if repetition < 2 {
                    codes.push(0u32);
                }
                *codes.last_mut().ok_or("no records have these levels")? += u32::from(definition == CODE.definition);
            }
            Ok(())
        })?;
        tablet.pages(group, &URL, |page| {
            names(&page, &mut of_url);
            let mut texts = Bytes(page.values);
            for (_, definition) in page.triplets() {
                kept.push(definition == URL.definition && texts.sized()?.starts_with(ADDRESS));
            }
            Ok(())
        })?;
        ensure(of_code == of_url, "columns have other names")?;
        self.append(&ids, &of_url, &kept, &codes)
    }

    /// Appends the lines of a row group's records.
    fn append(&mut self, ids: &[i64], names: &[u8], kept: &[bool], codes: &[u32]) -> Answer<()> {
        use std::fmt::Write;
        let mut ids = ids.iter();
        let (mut id, mut open) = (0, false);
        for ((name, kept), codes) in names.iter().zip(kept).zip(codes) {
            if name >> 1 == 0 {
                self.close(open);
                (id, open) = (*ids.next().ok_or("a column has other records")?, false);
            }
            if *kept {
                let told = if open { write!(self.0, ",{{\"codes\":{codes}}}") } else { write!(self.0, "{{\"DocId\":{id},\"Name\":[{{\"codes\":{codes}}}") };
                told.map_err(|_| "no line")?;
                open = true;
            }
        }
        self.close(open);
        Ok(())
    }

    fn close(&mut self, open: bool) {
        if open {
            self.0 += "]}\n";
        }
    }
}

/// The hash of Fowler, Noll and Vo, quick for short texts.
struct Fnv(u64);

impl Default for Fnv {
    fn default() -> Self {
        Self(0xcbf2_9ce4_8422_2325)
    }
}

impl Hasher for Fnv {
    fn write(&mut self, bytes: &[u8]) {
        for &byte in bytes {
            self.write_usize(usize::from(byte));
        }
    }

    fn write_usize(&mut self, number: usize) {
        self.0 = (self.0 ^ number as u64).wrapping_mul(0x0100_0000_01b3);
    }

    fn finish(&self) -> u64 {
        self.0
    }
}

/// What is gathered of a country's rows.
#[derive(Default)]
struct Gathered {
    rows: u64,
    sum: i128,
}

impl Gathered {
    fn take(&mut self, id: i64) {
        self.rows += 1;
        self.sum += i128::from(id);
    }

    fn print(&self, country: &str) {
        println!("{{\"Name.Language.Country\":{country},\"n\":{},\"s\":{}}}", self.rows, self.sum);
    }
}

#[derive(Default)]
struct Groups {
    none: Gathered,
    gathered: Vec<Gathered>,
    places: HashMap<Vec<u8>, usize, BuildHasherDefault<Fnv>>,
}

impl Groups {
    fn take(&mut self, tablet: &Tablet, group: &RowGroup) -> Answer<()> {
        let mut ids = Vec::new();
        tablet.pages(group, &DOC_ID, |page| {
            ids.extend(page.numbers());
            Ok(())
        })?;
        let mut ids = ids.into_iter();
        let mut id = 0;
        tablet.pages(group, &COUNTRY, |page| {
            let mut texts = Bytes(page.values);
            for (repetition, definition) in page.triplets() {
                if repetition == 0 {
                    id = ids.next().ok_or("a column has other records")?;
                }
                let gathered = if definition == COUNTRY.definition { self.of(texts.sized()?) } else { &mut self.none };
                gathered.take(id);
            }
            Ok(())
        })
    }

    fn of(&mut self, country: &[u8]) -> &mut Gathered {
        let place = self.places.get(country).copied().unwrap_or_else(|| {
            self.gathered.push(Gathered::default());
            self.places.insert(country.to_vec(), self.gathered.len() - 1);
            self.gathered.len() - 1
        });
        &mut self.gathered[place]
    }

    fn print(&self) {
        if self.none.rows > 0 {
            self.none.print("null");
        }
        let mut places: Vec<_> = self.places.iter().collect();
        places.sort();
        for (country, &place) in places {
            self.gathered[place].print(&quoted(&String::from_utf8_lossy(country)));
        }
    }
}

/// A text as JSON.
fn quoted(text: &str) -> String {
    let mut json = String::from("\"");
    for sign in text.chars() {
        match sign {
            '"' | '\\' => json.extend(['\\', sign]),
            '\u{8}' => json.push_str("\\b"),
            '\t' => json.push_str("\\t"),
            '\n' => json.push_str("\\n"),
            '\u{c}' => json.push_str("\\f"),
            '\r' => json.push_str("\\r"),
            ..' ' => json.push_str(&format!("\\u{:04x}", sign as u32)),
            _ => json.push(sign),
        }
    }
    json + "\""
}

fn for_each_group(files: &[String], mut each: impl FnMut(&Tablet, &RowGroup) -> Answer<()>) -> Result<(), String> {
    for name in files {
        let told = |cause| format!("{name}: {cause}");
        let tablet = Tablet::open(name).map_err(told)?;
        tablet.groups.iter().try_for_each(|group| each(&tablet, group)).map_err(told)?;
    }
    Ok(())
}

fn answer(query: &str, files: &[String]) -> Result<(), String> {
    match query {
        "five" => {
            let mut five = Five::default();
            for_each_group(files, |tablet, group| five.take(tablet, group))?;
            five.print();
        }
        "groups" => {
            let mut groups = Groups::default();
            for_each_group(files, |tablet, group| groups.take(tablet, group))?;
            groups.print();
        }
        "selective" => {
            let mut few = 0;
            for_each_group(files, |tablet, group| {
                tablet.pages(group, &DOC_ID, |page| {
                    few += page.numbers().filter(|&id| id < 100).count();
                    Ok(())
                })
            })?;
            println!("{{\"n\":{few}}}");
        }
        "objects" => {
            let mut objects = Objects::default();
            for_each_group(files, |tablet, group| objects.take(tablet, group))?;
            print!("{}", objects.0);
        }
        _ => return Err("usage: limit five|groups|selective|objects FILE..".to_string()),
    }
    Ok(())
}

fn main() -> ExitCode {
    let words: Vec<String> = std::env::args().skip(1).collect();
    let (query, files) = words.split_first().map_or(("", &[][..]), |(query, files)| (query.as_str(), files));
    match answer(query, files) {
        Ok(()) => ExitCode::SUCCESS,
        Err(fault) => {
            eprintln!("{fault}");
            ExitCode::FAILURE
        }
    }
}
