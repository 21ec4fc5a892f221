//! What a hand-written loader takes, on one thread, for records of the schema examples/document.txt, one to a line of standard input: it reads them as JSON by the schema,
//! straight into columns, and writes the file that `dremel load` puts as the only tablet of these records (docs/FORMATS.md), byte for byte.
//! It checks lines as UTF-8 and JSON, keys, kinds, ranges, and that required fields are there. A number with a point or an exponent, a key that comes twice and a line that is
//! no record are refused alike, with the number of the line.
//! usage: load FILE < RECORDS

use std::fs::File;
use std::io::{stdin, BufRead, Write};
use std::process::ExitCode;
use std::str;

type Answer<T> = Result<T, &'static str>;

// The schema

#[derive(Clone, Copy, PartialEq)]
enum Kind {
    Int,
    Text,
}

#[derive(Clone, Copy, PartialEq)]
enum Repetition {
    Required,
    Optional,
    Repeated,
}

use Repetition::{Optional, Repeated, Required};

enum Shape {
    /// A leaf, by its column.
    Leaf(usize),
    Group(&'static [Field]),
}

struct Field {
    name: &'static str,
    repetition: Repetition,
    shape: Shape,
    /// The repetition level of a further instance, where the field is repeated.
    level: u8,
}

const fn field(name: &'static str, repetition: Repetition, level: u8, shape: Shape) -> Field {
    Field { name, repetition, shape, level }
}

static LINKS: [Field; 2] = [field("Backward", Repeated, 1, Shape::Leaf(1)), field("Forward", Repeated, 1, Shape::Leaf(2))];
static LANGUAGE: [Field; 2] = [field("Code", Required, 2, Shape::Leaf(3)), field("Country", Optional, 2, Shape::Leaf(4))];
static NAME: [Field; 2] = [field("Language", Repeated, 2, Shape::Group(&LANGUAGE)), field("Url", Optional, 1, Shape::Leaf(5))];
static DOCUMENT: [Field; 3] = [
    field("DocId", Required, 0, Shape::Leaf(0)),
    field("Links", Optional, 0, Shape::Group(&LINKS)),
    field("Name", Repeated, 1, Shape::Group(&NAME)),
];

/// A leaf's path, kind, and greatest levels of repetition and definition.
struct Leaf(&'static [&'static str], Kind, u8, u8);

static LEAVES: [Leaf; 6] = [
    Leaf(&["DocId"], Kind::Int, 0, 0),
    Leaf(&["Links", "Backward"], Kind::Int, 1, 2),
    Leaf(&["Links", "Forward"], Kind::Int, 1, 2),
    Leaf(&["Name", "Language", "Code"], Kind::Text, 2, 2),
    Leaf(&["Name", "Language", "Country"], Kind::Text, 2, 3),
    Leaf(&["Name", "Url"], Kind::Text, 1, 2),
];

// Columns

/// A page is full at so many triplets, or bytes of values.
const ENOUGH_TRIPLETS: usize = 4096;
const ENOUGH_BYTES: usize = 1 << 20;

/// The pages of a leaf, and what the open page has: levels, and values in PLAIN.
#[derive(Default)]
struct Column {
    pages: Vec<u8>,
    triplets: usize,
    repetitions: Vec<u8>,
    definitions: Vec<u8>,
    values: Vec<u8>,
}

impl Column {
    fn put(&mut self, repetition: u8, definition: u8) {
        self.repetitions.push(repetition);
        self.definitions.push(definition);
    }

    /// Closes the page.
    fn close(&mut self, leaf: &Leaf, body: &mut Vec<u8>) {
        let count = self.repetitions.len();
        if count == 0 {
            return;
        }
        body.clear();
        put_levels(body, &self.repetitions, leaf.2);
        put_levels(body, &self.definitions, leaf.3);
        let size = body.len() + self.values.len();
        let mut head = Struct::new(&mut self.pages);
        head.i32(1, 0);
        head.i32(2, size as i64);
        head.i32(3, size as i64);
        head.inner(5, |data| {
            data.i32(1, count as i64);
            data.i32(2, 0);
            data.i32(3, 3);
            data.i32(4, 3);
        });
        head.stop();
        self.pages.extend_from_slice(body);
        self.pages.extend_from_slice(&self.values);
        self.triplets += count;
        self.repetitions.clear();
        self.definitions.clear();
        self.values.clear();
    }
}

/// Levels as hybrid data behind its length; none where the greatest is 0.
fn put_levels(to: &mut Vec<u8>, levels: &[u8], most: u8) {
    if most == 0 {
        return;
    }
    let width = (8 - most.leading_zeros()) as usize;
    let begin = to.len();
    to.extend_from_slice(&[0; 4]);
    let mut rest = levels;
    while let [first, behind @ ..] = rest {
        let equal = 1 + behind.iter().position(|level| level != first).unwrap_or(behind.len());
        if equal >= 8 || equal == rest.len() {
            put_varint(to, 2 * equal as u64);
            to.push(*first);
            rest = &rest[equal..];
        } else {
            let (now, later) = rest.split_at(rest.len().min(8));
            let packed = now.iter().enumerate().fold(0u64, |packed, (place, level)| packed | u64::from(*level) << (place * width));
            to.push(3);
            to.extend_from_slice(&packed.to_le_bytes()[..width]);
            rest = later;
        }
    }
    let length = (to.len() - begin - 4) as u32;
    to[begin..begin + 4].copy_from_slice(&length.to_le_bytes());
}

// Lines

/// A line that is read from its front into columns.
struct Line<'a> {
    text: &'a str,
    at: usize,
    columns: &'a mut [Column; 6],
    /// A text with escapes, without them.
    plain: &'a mut Vec<u8>,
}

impl<'a> Line<'a> {
    /// The next byte that is no blank, which stays.
    #[inline]
    fn peek(&mut self) -> Answer<u8> {
        let bytes = self.text.as_bytes();
        while let Some(byte) = bytes.get(self.at) {
            if !matches!(byte, b' ' | b'\t' | b'\r' | b'\n') {
                return Ok(*byte);
            }
            self.at += 1;
        }
        Err("the line ends too early")
    }

    #[inline]
    fn expect(&mut self, wanted: u8) -> Answer<()> {
        if self.peek()? != wanted {
            return Err("no JSON, or a value of another kind");
        }
        self.at += 1;
        Ok(())
    }

    /// Whether a list or an object goes on behind a part; its end is passed.
    fn goes_on(&mut self, end: u8) -> Answer<bool> {
        match self.peek()? {
            b',' => {
                self.at += 1;
                Ok(true)
            }
            byte if byte == end => {
                self.at += 1;
                Ok(false)
            }
            _ => Err("no JSON"),
        }
    }

    /// Whether a list or an object that was begun is empty; its end is passed.
    fn is_empty(&mut self, end: u8) -> Answer<bool> {
        let is_empty = self.peek()? == end;
        self.at += usize::from(is_empty);
        Ok(is_empty)
    }

    fn is_null(&mut self) -> Answer<bool> {
        let is_null = self.peek()? == b'n' && self.text.as_bytes()[self.at..].starts_with(b"null");
        self.at += if is_null { 4 } else { 0 };
        Ok(is_null)
    }

    /// The next text; one with escapes is in `plain`, which the answer then tells by none.
    #[inline]
    fn text(&mut self) -> Answer<Option<&'a [u8]>> {
        self.expect(b'"')?;
        let bytes = self.text.as_bytes();
        let begin = self.at;
        while let Some(byte) = bytes.get(self.at) {
            match byte {
                b'"' => {
                    self.at += 1;
                    return Ok(Some(&bytes[begin..self.at - 1]));
                }
                b'\\' => return self.escaped(begin),
                0..=31 => return Err("a control character in a text"),
                _ => self.at += 1,
            }
        }
        Err("the line ends too early")
    }

    /// The rest of a text that has an escape.
    fn escaped(&mut self, begin: usize) -> Answer<Option<&'a [u8]>> {
        let bytes = self.text.as_bytes();
        self.plain.clear();
        self.plain.extend_from_slice(&bytes[begin..self.at]);
        loop {
            let byte = *bytes.get(self.at).ok_or("the line ends too early")?;
            self.at += 1;
            match byte {
                b'"' => return Ok(None),
                b'\\' => self.escape()?,
                0..=31 => return Err("a control character in a text"),
                _ => self.plain.push(byte),
            }
        }
    }

    /// What stands behind a backslash.
    fn escape(&mut self) -> Answer<()> {
        let byte = *self.text.as_bytes().get(self.at).ok_or("the line ends too early")?;
        self.at += 1;
        let plain = match byte {
            b'"' | b'\\' | b'/' => byte,
            b'b' => 8,
            b'f' => 12,
            b'n' => 10,
            b'r' => 13,
            b't' => 9,
            b'u' => return self.unicode(),
            _ => return Err("no JSON"),
        };
        self.plain.push(plain);
        Ok(())
    }

    fn unicode(&mut self) -> Answer<()> {
        let mut point = self.hexadecimal()?;
        if (0xD800..0xDC00).contains(&point) {
            if !self.text.as_bytes()[self.at..].starts_with(b"\\u") {
                return Err("half a character");
            }
            self.at += 2;
            let low = self.hexadecimal()?;
            if !(0xDC00..0xE000).contains(&low) {
                return Err("half a character");
            }
            point = 0x10000 + ((point - 0xD800) << 10) + (low - 0xDC00);
        }
        let character = char::from_u32(point).ok_or("half a character")?;
        self.plain.extend_from_slice(character.encode_utf8(&mut [0; 4]).as_bytes());
        Ok(())
    }

    fn hexadecimal(&mut self) -> Answer<u32> {
        let digits = self.text.as_bytes().get(self.at..self.at + 4).ok_or("the line ends too early")?;
        self.at += 4;
        digits.iter().try_fold(0, |sum, digit| Some(16 * sum + char::from(*digit).to_digit(16)?)).ok_or("no JSON")
    }

    #[inline]
    fn integer(&mut self) -> Answer<i64> {
        let is_negative = self.peek()? == b'-';
        self.at += usize::from(is_negative);
        let bytes = self.text.as_bytes();
        let begin = self.at;
        let mut value: i64 = 0;
        while let Some(digit) = bytes.get(self.at).filter(|byte| byte.is_ascii_digit()) {
            let digit = i64::from(digit - b'0');
            let signed = if is_negative { -digit } else { digit };
            value = value.checked_mul(10).and_then(|value| value.checked_add(signed)).ok_or("a number out of range")?;
            self.at += 1;
        }
        let is_plain = self.at > begin && (bytes[begin] != b'0' || self.at == begin + 1 && !is_negative);
        if !is_plain || matches!(bytes.get(self.at), Some(b'.' | b'e' | b'E')) {
            return Err("no whole number");
        }
        Ok(value)
    }

    /// A leaf's value, or a group's fields.
    fn instance(&mut self, shape: &Shape, repetition: u8, definition: u8) -> Answer<()> {
        let place = match shape {
            Shape::Group(fields) => return self.group(fields, repetition, definition),
            Shape::Leaf(place) => *place,
        };
        match LEAVES[place].1 {
            Kind::Int => {
                let value = self.integer()?;
                self.columns[place].values.extend_from_slice(&value.to_le_bytes());
            }
            Kind::Text => {
                let text = self.text()?;
                let text = text.unwrap_or(self.plain);
                let values = &mut self.columns[place].values;
                values.extend_from_slice(&(text.len() as u32).to_le_bytes());
                values.extend_from_slice(text);
            }
        }
        self.columns[place].put(repetition, definition);
        Ok(())
    }

    /// What stands for a field.
    fn value(&mut self, field: &Field, repetition: u8, definition: u8) -> Answer<()> {
        if self.is_null()? {
            return self.absent(field, repetition, definition);
        }
        match field.repetition {
            Required => self.instance(&field.shape, repetition, definition),
            Optional => self.instance(&field.shape, repetition, definition + 1),
            Repeated => {
                self.expect(b'[')?;
                if self.is_empty(b']')? {
                    return self.absent(field, repetition, definition);
                }
                self.instance(&field.shape, repetition, definition + 1)?;
                while self.goes_on(b']')? {
                    self.instance(&field.shape, field.level, definition + 1)?;
                }
                Ok(())
            }
        }
    }

    fn absent(&mut self, field: &Field, repetition: u8, definition: u8) -> Answer<()> {
        if field.repetition == Required {
            return Err("a required field is missing");
        }
        self.nothing(&field.shape, repetition, definition);
        Ok(())
    }

    /// A NULL for each leaf.
    fn nothing(&mut self, shape: &Shape, repetition: u8, definition: u8) {
        match shape {
            Shape::Leaf(place) => self.columns[*place].put(repetition, definition),
            Shape::Group(fields) => fields.iter().for_each(|field| self.nothing(&field.shape, repetition, definition)),
        }
    }

    /// The members of an object. Mostly they come in the order of the fields.
    fn group(&mut self, fields: &[Field], repetition: u8, definition: u8) -> Answer<()> {
        self.expect(b'{')?;
        let (mut seen, mut next) = (0u8, 0);
        let mut goes_on = !self.is_empty(b'}')?;
        while goes_on {
            let key = self.text()?;
            let key = key.unwrap_or(self.plain);
            let is_it = |place: &usize| fields[*place].name.as_bytes() == key;
            let place = (next..fields.len()).chain(0..next).find(is_it).ok_or("an unknown key")?;
            if seen >> place & 1 == 1 {
                return Err("a key comes twice");
            }
            seen |= 1 << place;
            next = place + 1;
            self.expect(b':')?;
            self.value(&fields[place], repetition, definition)?;
            goes_on = self.goes_on(b'}')?;
        }
        for (place, field) in fields.iter().enumerate().filter(|(place, _)| seen >> place & 1 == 0) {
            let _ = place;
            self.absent(field, repetition, definition)?;
        }
        Ok(())
    }
}

fn read_line(line: &[u8], columns: &mut [Column; 6], plain: &mut Vec<u8>) -> Answer<()> {
    if line.len() > 1 << 20 {
        return Err("a line is too long");
    }
    let text = str::from_utf8(line).map_err(|_| "no UTF-8")?;
    let mut line = Line { text, at: 0, columns, plain };
    line.group(&DOCUMENT, 0, 0)?;
    match line.peek() {
        Ok(_) => Err("more than a value"),
        Err(_) => Ok(()),
    }
}

// The Thrift compact protocol

fn put_varint(to: &mut Vec<u8>, mut value: u64) {
    while value >= 128 {
        to.push(value as u8 | 128);
        value >>= 7;
    }
    to.push(value as u8);
}

fn put_number(to: &mut Vec<u8>, value: i64) {
    put_varint(to, (value << 1 ^ value >> 63) as u64);
}

fn put_binary(to: &mut Vec<u8>, bytes: &[u8]) {
    put_varint(to, bytes.len() as u64);
    to.extend_from_slice(bytes);
}

/// A struct that is written field by field.
struct Struct<'a> {
    to: &'a mut Vec<u8>,
    last: u8,
}

impl<'a> Struct<'a> {
    fn new(to: &'a mut Vec<u8>) -> Self {
        Self { to, last: 0 }
    }

    fn head(&mut self, number: u8, kind: u8) {
        self.to.push((number - self.last) << 4 | kind);
        self.last = number;
    }

    fn i32(&mut self, number: u8, value: i64) {
        self.head(number, 5);
        put_number(self.to, value);
    }

    fn i64(&mut self, number: u8, value: usize) {
        self.head(number, 6);
        put_number(self.to, value as i64);
    }

    fn binary(&mut self, number: u8, bytes: &[u8]) {
        self.head(number, 8);
        put_binary(self.to, bytes);
    }

    fn list(&mut self, number: u8, kind: u8, count: usize) {
        self.head(number, 9);
        if count < 15 {
            self.to.push((count as u8) << 4 | kind);
        } else {
            self.to.push(0xF0 | kind);
            put_varint(self.to, count as u64);
        }
    }

    fn inner(&mut self, number: u8, fields: impl FnOnce(&mut Struct)) {
        self.head(number, 12);
        let mut inner = Struct::new(self.to);
        fields(&mut inner);
        inner.stop();
    }

    fn stop(&mut self) {
        self.to.push(0);
    }
}

// The file

fn put_element(to: &mut Vec<u8>, field: &Field) {
    let repetition = match field.repetition {
        Required => 0,
        Optional => 1,
        Repeated => 2,
    };
    let mut element = Struct::new(to);
    match &field.shape {
        Shape::Leaf(place) => {
            let is_text = LEAVES[*place].1 == Kind::Text;
            element.i32(1, if is_text { 6 } else { 2 });
            element.i32(3, repetition);
            element.binary(4, field.name.as_bytes());
            if is_text {
                element.i32(6, 0);
            }
            element.stop();
        }
        Shape::Group(fields) => {
            element.i32(3, repetition);
            element.binary(4, field.name.as_bytes());
            element.i32(5, fields.len() as i64);
            element.stop();
            fields.iter().for_each(|field| put_element(to, field));
        }
    }
}

fn put_chunk(to: &mut Vec<u8>, leaf: &Leaf, column: &Column, place: usize) {
    let mut chunk = Struct::new(to);
    chunk.i64(2, place);
    chunk.inner(3, |meta| {
        meta.i32(1, if leaf.1 == Kind::Text { 6 } else { 2 });
        meta.list(2, 5, 2);
        put_number(meta.to, 0);
        put_number(meta.to, 3);
        meta.list(3, 8, leaf.0.len());
        leaf.0.iter().for_each(|name| put_binary(meta.to, name.as_bytes()));
        meta.i32(4, 0);
        meta.i64(5, column.triplets);
        meta.i64(6, column.pages.len());
        meta.i64(7, column.pages.len());
        meta.i64(9, place);
    });
    chunk.stop();
}

fn footer_of(columns: &[Column; 6], rows: usize) -> Vec<u8> {
    let mut bytes = Vec::new();
    let mut footer = Struct::new(&mut bytes);
    footer.i32(1, 1);
    footer.list(2, 12, 10);
    let mut root = Struct::new(footer.to);
    root.binary(4, b"Document");
    root.i32(5, DOCUMENT.len() as i64);
    root.stop();
    DOCUMENT.iter().for_each(|field| put_element(footer.to, field));
    footer.i64(3, rows);
    footer.list(4, 12, usize::from(rows > 0));
    if rows > 0 {
        let mut group = Struct::new(footer.to);
        group.list(1, 12, columns.len());
        let mut place = 4;
        for (leaf, column) in LEAVES.iter().zip(columns) {
            put_chunk(group.to, leaf, column, place);
            place += column.pages.len();
        }
        group.i64(2, place - 4);
        group.i64(3, rows);
        group.stop();
    }
    footer.binary(6, b"dremel-nested 1");
    footer.stop();
    bytes
}

fn write_file(name: &str, columns: &[Column; 6], rows: usize) -> std::io::Result<()> {
    let footer = footer_of(columns, rows);
    let mut file = File::create(name)?;
    file.write_all(b"PAR1")?;
    for column in columns {
        file.write_all(&column.pages)?;
    }
    file.write_all(&footer)?;
    file.write_all(&(footer.len() as u32).to_le_bytes())?;
    file.write_all(b"PAR1")
}

/// Reads all lines into columns, and answers how many records they are.
fn load(columns: &mut [Column; 6]) -> Result<usize, String> {
    let (mut input, mut line, mut plain, mut body) = (stdin().lock(), Vec::new(), Vec::new(), Vec::new());
    let mut rows = 0;
    while input.read_until(b'\n', &mut line).map_err(|_| "the input can't be read")? > 0 {
        let text = line.strip_suffix(b"\n").unwrap_or(&line);
        read_line(text, columns, &mut plain).map_err(|why| format!("line {}: {why}", rows + 1))?;
        rows += 1;
        line.clear();
        for (column, leaf) in columns.iter_mut().zip(&LEAVES) {
            if column.repetitions.len() >= ENOUGH_TRIPLETS || column.values.len() >= ENOUGH_BYTES {
                column.close(leaf, &mut body);
            }
        }
    }
    for (column, leaf) in columns.iter_mut().zip(&LEAVES) {
        column.close(leaf, &mut body);
    }
    Ok(rows)
}

fn main() -> ExitCode {
    let Some(name) = std::env::args().nth(1) else {
        eprintln!("usage: load FILE < RECORDS");
        return ExitCode::from(1);
    };
    let mut columns = <[Column; 6]>::default();
    let loaded = load(&mut columns).and_then(|rows| write_file(&name, &columns, rows).map_err(|error| error.to_string()));
    match loaded {
        Ok(()) => ExitCode::SUCCESS,
        Err(why) => {
            eprintln!("load: {why}");
            ExitCode::from(2)
        }
    }
}
