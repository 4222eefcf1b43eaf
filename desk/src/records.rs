//! The record of a block as text: lines of a key and its values, in the order of FORMAT.md's Records in C.

use crate::files::Contents;
use crate::json::{self, Object};
use crate::layout::{self, Bytes, Field, Kind, Unit, DEVICES};
use crate::names;
use crate::numbers::{hexadecimal, millionths, whole, written};
use crate::refusals::{Stop, Told};

/// How many bytes stand on a line.
const LINE: usize = 24;
/// How many numbers and how many bytes a record has.
const NUMBERS: usize = 20;
const ROOM: usize = 504;

/// A record as C has it: its numbers and its bytes.
pub(crate) struct Passed {
    pub numbers: [i32; NUMBERS],
    pub bytes: [u8; ROOM],
}

/// A key of a record, with its values as they are written.
struct Entry {
    key: &'static str,
    values: Vec<String>,
}

/// The keys of a record that the library read, in order, but for palettes and programs.
fn entries(record: &Passed, kind: &'static Kind) -> Vec<Entry> {
    let mut entries = Vec::new();
    let mut left = &record.numbers[2..];
    for field in kind.fields {
        let (own, rest) = left.split_at(field.count.min(left.len()));
        left = rest;
        let written = |v: &i32| match field.unit {
            Unit::Millionths => written(*v),
            Unit::Whole => v.to_string(),
            Unit::Reference => layout::reference(*v as u32),
            Unit::Name => names::written(&record.bytes[..(*v as usize).min(ROOM)]),
            Unit::Names => packed(&record.bytes, *v).join(" "),
        };
        let values = own.iter().map(written).collect();
        entries.push(Entry {
            key: field.key,
            values,
        });
    }
    entries
}

/// So many names as they lie in a record's bytes, each after a byte with its length.
fn packed(bytes: &[u8], count: i32) -> Vec<String> {
    let mut left = bytes;
    let mut made = Vec::new();
    for _ in 0..count {
        let Some((size, rest)) = left.split_first() else {
            break;
        };
        let (name, rest) = rest.split_at(rest.len().min(usize::from(*size)));
        made.push(names::written(name));
        left = rest;
    }
    made
}

/// The bytes of a record up to the last that is not zero.
fn used(bytes: &[u8]) -> &[u8] {
    let end = bytes.iter().rposition(|b| *b != 0);
    &bytes[..end.map_or(0, |last| last + 1)]
}

/// Whether bytes are shown as text: printed characters and ends of lines alone.
fn is_text(bytes: &[u8]) -> bool {
    let fits = |b: &u8| matches!(b, b' '..=b'~' | b'\n' | b'\t');
    bytes.iter().all(fits)
}

/// The text of a record.
pub(crate) fn text_of(record: &Passed) -> String {
    let Some(kind) = layout::kind_of(record.numbers[1]) else {
        return format!("number {}\nkind {}\n", record.numbers[0], record.numbers[1]);
    };
    let mut text = format!("number {}\nkind {}\n", record.numbers[0], kind.name);
    for Entry { key, values } in entries(record, kind) {
        text += format!("{key} {}", values.join(" ")).trim_end();
        text.push('\n');
    }
    let bytes = used(&record.bytes);
    match kind.bytes {
        Bytes::Unused => {}
        Bytes::Program if is_text(bytes) => {
            text += &format!("program\n{}\n", String::from_utf8_lossy(bytes));
        }
        Bytes::Palette | Bytes::Program => {
            for line in bytes.chunks(LINE) {
                text += &format!("bytes {}\n", hexadecimal(line));
            }
        }
    }
    text
}

/// A record as an object.
pub(crate) fn object_of(record: &Passed) -> Object {
    let object = Object::new().number("number", i64::from(record.numbers[0]));
    let Some(kind) = layout::kind_of(record.numbers[1]) else {
        return object.number("kind", i64::from(record.numbers[1]));
    };
    let mut object = object.text("kind", kind.name);
    for (Entry { key, values }, field) in entries(record, kind).iter().zip(kind.fields) {
        let value = match (field.unit, &values[..]) {
            (Unit::Millionths | Unit::Whole, [one]) => one.clone(),
            (Unit::Millionths | Unit::Whole, several) => json::list(several),
            (_, several) => json::string(&several.join(" ")),
        };
        object = object.raw(key, &value);
    }
    let bytes = used(&record.bytes);
    match kind.bytes {
        Bytes::Unused => object,
        Bytes::Program if is_text(bytes) => object.text("program", &String::from_utf8_lossy(bytes)),
        Bytes::Palette | Bytes::Program => object.text("bytes", &hexadecimal(bytes)),
    }
}

/// A line of a record's text: where it begins, its key, and its values with their places.
struct Line<'a> {
    at: usize,
    key: &'a [u8],
    values: Vec<(usize, &'a [u8])>,
}

/// The words of a line, with their places, up to a comment.
fn words(line: &[u8], from: usize) -> Vec<(usize, &[u8])> {
    let end = line.iter().position(|b| *b == b'%');
    let line = &line[..end.unwrap_or(line.len())];
    let mut at = from;
    let mut words = Vec::new();
    for word in line.split(u8::is_ascii_whitespace) {
        if !word.is_empty() {
            words.push((at, word));
        }
        at += word.len() + 1;
    }
    words
}

/// The lines of a record's text, and what stands after the line `program`.
fn lines(text: &[u8]) -> (Vec<Line<'_>>, Option<(usize, &[u8])>) {
    let mut lines = Vec::new();
    let mut at = 0;
    for line in text.split_inclusive(|b| *b == b'\n') {
        let mut words = words(line, at).into_iter();
        let start = at;
        at += line.len();
        match words.next() {
            Some((_, b"program")) => {
                let program = &text[at..];
                let program = program.strip_suffix(b"\n").unwrap_or(program);
                return (lines, Some((start, program)));
            }
            Some((place, key)) => lines.push(Line {
                at: place,
                key,
                values: words.collect(),
            }),
            None => {}
        }
    }
    (lines, None)
}

/// A record's text that is being read.
struct Reading<'a> {
    file: &'a Contents,
    lines: Vec<Line<'a>>,
    program: Option<(usize, &'a [u8])>,
}

/// The records of a text: one, or of a palette or a program as many as it takes.
pub(crate) fn read(file: &Contents) -> Result<Vec<Passed>, Stop> {
    let (lines, program) = lines(&file.bytes);
    let reading = Reading {
        file,
        lines,
        program,
    };
    let kind = reading.kind()?;
    reading.known_keys(kind)?;
    let mut record = Passed {
        numbers: [0; NUMBERS],
        bytes: [0; ROOM],
    };
    record.numbers[0] = reading.one("number")?;
    record.numbers[1] = kind.number;
    let mut place = 2;
    for field in kind.fields {
        place += reading.field(field, &mut record, place)?;
    }
    if kind.bytes == Bytes::Unused {
        return Ok(vec![record]);
    }
    Ok(parts(&record, &reading.bytes()?))
}

/// The blocks of a palette or of a program, numbered on from the first.
fn parts(first: &Passed, bytes: &[u8]) -> Vec<Passed> {
    let count = bytes.len().div_ceil(ROOM).max(1);
    let part = |k: usize| {
        let mut numbers = first.numbers;
        numbers[0] = numbers[0].saturating_add(k as i32);
        let own = bytes.iter().skip(k * ROOM).take(ROOM);
        let mut room = [0; ROOM];
        room.iter_mut().zip(own).for_each(|(to, b)| *to = *b);
        Passed {
            numbers,
            bytes: room,
        }
    };
    (0..count).map(part).collect()
}

impl Reading<'_> {
    fn fault(&self, at: usize, words: &str) -> Stop {
        let told = Told::fault(&self.file.name, words);
        told.in_text(&self.file.bytes, at).into()
    }

    /// The line of a key, which stands once.
    fn line(&self, key: &str) -> Result<&Line<'_>, Stop> {
        let mut found = self.lines.iter().filter(|line| line.key == key.as_bytes());
        let end = self.file.bytes.len();
        let missing = || self.fault(end, &format!("a line with {key} is missing"));
        let first = found.next().ok_or_else(missing)?;
        match found.next() {
            Some(second) => Err(self.fault(second.at, &format!("{key} stands twice"))),
            None => Ok(first),
        }
    }

    /// The line of a key that has so many values.
    fn values(&self, key: &str, count: usize) -> Result<&[(usize, &[u8])], Stop> {
        let line = self.line(key)?;
        if line.values.len() != count {
            let words = format!("{key} has {} values, and wants {count}", line.values.len());
            return Err(self.fault(line.at, &words));
        }
        Ok(&line.values)
    }

    fn kind(&self) -> Result<&'static Kind, Stop> {
        let (at, name) = self.values("kind", 1)?[0];
        layout::kind_named(name).ok_or_else(|| {
            let kinds: Vec<&str> = layout::KINDS.iter().map(|kind| kind.name).collect();
            self.fault(at, &format!("a kind is one of {}", kinds.join(", ")))
        })
    }

    /// Each key is one of the kind's.
    fn known_keys(&self, kind: &Kind) -> Result<(), Stop> {
        let own = |key: &[u8]| kind.fields.iter().any(|field| field.key.as_bytes() == key);
        let known = |key: &[u8]| match key {
            b"number" | b"kind" => true,
            b"bytes" => kind.bytes != Bytes::Unused,
            _ => own(key),
        };
        if let Some(line) = self.lines.iter().find(|line| !known(line.key)) {
            let words = format!("no key of a record of kind {}", kind.name);
            return Err(self.fault(line.at, &words));
        }
        match self.program {
            Some((at, _)) if kind.bytes != Bytes::Program => {
                let words = format!("a record of kind {} has no program", kind.name);
                Err(self.fault(at, &words))
            }
            _ => Ok(()),
        }
    }

    /// A whole number that a key has.
    fn one(&self, key: &str) -> Result<i32, Stop> {
        let (at, word) = self.values(key, 1)?[0];
        whole(word).ok_or_else(|| self.fault(at, "not a whole number of 32 bits"))
    }

    /// The numbers of a field, put in their places; gives how many they are.
    fn field(&self, field: &Field, record: &mut Passed, place: usize) -> Result<usize, Stop> {
        if matches!(field.unit, Unit::Name | Unit::Names) {
            record.numbers[place] = match field.unit {
                Unit::Name => self.name(field.key, record)?,
                _ => self.names(field.key, record)?,
            };
            return Ok(1);
        }
        for (k, (at, word)) in self.values(field.key, field.count)?.iter().enumerate() {
            record.numbers[place + k] = match field.unit {
                Unit::Millionths => {
                    millionths(word).map_err(|fault| self.fault(*at, fault.words()))?
                }
                Unit::Reference => self.reference(*at, word)?,
                Unit::Whole | Unit::Name | Unit::Names => {
                    whole(word).ok_or_else(|| self.fault(*at, "not a whole number of 32 bits"))?
                }
            };
        }
        Ok(field.count)
    }

    /// A name, put into the record's bytes; gives its length.
    fn name(&self, key: &str, record: &mut Passed) -> Result<i32, Stop> {
        let line = self.line(key)?;
        let (at, word) = line.values.first().copied().unwrap_or((line.at, b""));
        if let Some((at, _)) = line.values.get(1) {
            return Err(self.fault(*at, "a name is one word: #20 is a space in it"));
        }
        let bad = || self.fault(at, "two hexadecimal digits follow a # in a name");
        let name = names::read(word).ok_or_else(bad)?;
        record
            .bytes
            .iter_mut()
            .zip(&name)
            .for_each(|(to, b)| *to = *b);
        Ok(i32::try_from(name.len()).unwrap_or(i32::MAX))
    }

    /// Names, put into the record's bytes, each after a byte with its length; gives how many they are.
    fn names(&self, key: &str, record: &mut Passed) -> Result<i32, Stop> {
        let line = self.line(key)?;
        let mut bytes = Vec::new();
        for (at, word) in &line.values {
            let name = names::read(word).filter(|name| name.len() < 256);
            let bad = || {
                self.fault(
                    *at,
                    "a name of at most 255 bytes, with two digits after a #",
                )
            };
            let name = name.ok_or_else(bad)?;
            bytes.push(name.len() as u8);
            bytes.extend(name);
        }
        record
            .bytes
            .iter_mut()
            .zip(&bytes)
            .for_each(|(to, b)| *to = *b);
        Ok(line.values.len() as i32)
    }

    /// A device space's name, or a number.
    fn reference(&self, at: usize, word: &[u8]) -> Result<i32, Stop> {
        let named = |device: &&(u32, &str, &str)| device.1.as_bytes() == word;
        match DEVICES.iter().find(named) {
            Some(device) => Ok(device.0 as i32),
            None => whole(word)
                .ok_or_else(|| self.fault(at, "neither a block's number nor a device space")),
        }
    }

    /// The bytes of a palette or a program: those after `program`, or those of every line `bytes`.
    fn bytes(&self) -> Result<Vec<u8>, Stop> {
        let mut bytes = Vec::new();
        for line in self.lines.iter().filter(|line| line.key == b"bytes") {
            for (at, word) in &line.values {
                if word.len() % 2 != 0 || !word.iter().all(u8::is_ascii_hexdigit) {
                    return Err(self.fault(*at, "not bytes in hexadecimal, two digits each"));
                }
                let digit = |b: &u8| char::from(*b).to_digit(16).unwrap_or(0) as u8;
                bytes.extend(word.chunks(2).map(|d| digit(&d[0]) * 16 + digit(&d[1])));
            }
        }
        match self.program {
            Some((at, _)) if !bytes.is_empty() => {
                Err(self.fault(at, "a record has bytes or a program, and not both"))
            }
            Some((_, program)) => Ok(program.to_vec()),
            None => Ok(bytes),
        }
    }
}
