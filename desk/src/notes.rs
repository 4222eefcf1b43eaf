//! Facts read off a page beside a refusal. They decide nothing: the refusal came before them.

use crate::layout::{self, Bytes, Field, Kind, Unit};
use crate::names;
use crate::numbers::{self, thousands};
use crate::pages::BLOCK;
use sktelbaan::{Refusal, PAGE_BYTES};

/// How many bytes of a block a name has room for.
const NAME_ROOM: usize = 128;
/// How many characters of a program are shown.
const SHOWN: usize = 100;

/// What can be said of a page that was refused.
pub(crate) fn of(page: &[u8], refusal: &Refusal) -> Vec<String> {
    let from = refusal.block as usize * BLOCK;
    let block = page.get(from..from + BLOCK);
    match (refusal.number, block) {
        (1, _) => vec![length(page)],
        (2, Some(block)) => vec![sums(block)],
        (3, Some(block)) => form(block, Some(refusal.block)),
        (4 | 5, Some(block)) => vec![record(block)],
        (6, Some(block)) => vec![refers(block, Some(page))],
        (7, Some(block)) => vec![record(block), follows(page, refusal.block)],
        (16 | 17, Some(_)) => vec![program(page, refusal.block)],
        _ => Vec::new(),
    }
}

/// What can be said of a block that was refused by itself.
pub(crate) fn of_one(block: &[u8], number: u32) -> Vec<String> {
    match (number, block.len()) {
        (2, BLOCK) => vec![sums(block)],
        (3, BLOCK) => form(block, None),
        (4 | 5, BLOCK) => vec![record(block)],
        (6, BLOCK) => vec![refers(block, None)],
        (10, size) => vec![format!("the file has {size} bytes of this block")],
        _ => Vec::new(),
    }
}

/// What stands at a number that is no space's.
pub(crate) fn no_space(page: &[u8], number: u32) -> String {
    let blocks = page.len() / BLOCK;
    match page.get(number as usize * BLOCK..).and_then(<[u8]>::first) {
        Some(kind) => format!("block {number} is of kind {}", kind_shown(*kind)),
        None => format!("the page has {blocks} blocks, 0 to {}", blocks.max(1) - 1),
    }
}

fn length(page: &[u8]) -> String {
    let size = page.len();
    if size > PAGE_BYTES {
        return format!("it has more than {} bytes", thousands(PAGE_BYTES as u64));
    }
    let (blocks, over) = (size / BLOCK, size % BLOCK);
    let unit = |count: usize, one: &str| match count {
        1 => format!("1 {one}"),
        _ => format!("{count} {one}s"),
    };
    let [size, blocks, over] =
        [(size, "byte"), (blocks, "block"), (over, "byte")].map(|(count, one)| unit(count, one));
    format!("it has {size}: {blocks} and {over} over")
}

fn two(block: &[u8], at: usize) -> u32 {
    u32::from(block[at]) << 8 | u32::from(block[at + 1])
}

/// The check that a block has, and that of its bytes.
fn sums(block: &[u8]) -> String {
    let (first, second) = (two(block, 508), two(block, 510));
    let bytes = || (0_u64..).zip(&block[..508]);
    let sum: u64 = bytes().map(|(_, b)| u64::from(*b)).sum();
    let over: u64 = bytes().map(|(k, b)| (508 - k) * u64::from(*b)).sum();
    let (sum, over) = (sum % 65535, over % 65535);
    format!("the check stored is {first} and {second}, that of the bytes {sum} and {over}")
}

/// A kind by its number and name.
fn kind_shown(kind: u8) -> String {
    match layout::kind_of(i32::from(kind)) {
        Some(known) => format!("{kind} ({})", known.name),
        None => format!("{kind}, which is not known"),
    }
}

/// Kind, own number and the first byte that should be zero and is not.
fn form(block: &[u8], place: Option<u32>) -> Vec<String> {
    let own = two(block, 2);
    let kind = kind_shown(block[0]);
    let place = place.map_or(String::new(), |place| format!(", at block {place}"));
    let mut notes = vec![format!("kind {kind}; own number {own}{place}")];
    let known = layout::kind_of(i32::from(block[0]));
    let spare = known.map_or(508, |kind| kind.first_spare);
    let byte = |at: usize| format!("byte {at} of the block is {:02X}", block[at]);
    let seven = known.filter(|kind| kind.fields.iter().any(|f| f.unit == Unit::Names));
    let mut places = [1].into_iter().chain(seven.map(|_| 7)).chain(spare..508);
    notes.extend(places.find(|at| block[*at] != 0).map(byte));
    if let Some(kind) = known.filter(|kind| kind.fields.iter().any(|f| f.unit == Unit::Name)) {
        notes.push(name_note(block, kind));
    }
    notes
}

/// The name of a record, with its length.
fn name_note(block: &[u8], kind: &Kind) -> String {
    let at = offset_of(kind, Unit::Name);
    let length = usize::from(block[at]);
    let room = &block[at + 1..at + 1 + NAME_ROOM];
    let name = names::quoted(&room[..length.min(NAME_ROOM)]);
    format!("its name's length is {length}, its name {name}")
}

/// How many bytes of a block a field takes.
fn bytes_of(field: &Field) -> usize {
    field.size * field.count
        + if field.unit == Unit::Name {
            NAME_ROOM
        } else {
            0
        }
}

/// Where the field of a unit begins in a block.
fn offset_of(kind: &Kind, unit: Unit) -> usize {
    let before = kind.fields.iter().take_while(|field| field.unit != unit);
    4 + before.map(bytes_of).sum::<usize>()
}

/// The numbers of a record, as they stand in its block.
fn record(block: &[u8]) -> String {
    let Some(kind) = layout::kind_of(i32::from(block[0])) else {
        return format!("kind {}", block[0]);
    };
    let mut at = 4;
    let mut parts = vec![kind.name.to_string()];
    for field in kind.fields {
        let values: Vec<String> = (0..field.count)
            .map(|k| number_shown(block, at + k * field.size, field))
            .collect();
        if !matches!(field.unit, Unit::Name | Unit::Names) {
            parts.push(format!("{} {}", field.key, values.join(" ")));
        }
        at += bytes_of(field);
    }
    parts.join(", ")
}

/// A number of a block, in its unit.
fn number_shown(block: &[u8], at: usize, field: &Field) -> String {
    let bytes = &block[at..at + field.size];
    let value = bytes.iter().fold(0_u32, |v, b| v << 8 | u32::from(*b));
    match field.unit {
        Unit::Millionths => numbers::written(value as i32),
        Unit::Reference => layout::reference(value),
        Unit::Whole | Unit::Name | Unit::Names => value.to_string(),
    }
}

/// What a record refers to, on its page.
fn refers(block: &[u8], page: Option<&[u8]>) -> String {
    let reference = two(block, 4);
    let Some(page) = page else {
        return format!("it refers to {reference}");
    };
    let last = page.len() / BLOCK - 1;
    match page.get(reference as usize * BLOCK) {
        Some(kind) => {
            let kind = kind_shown(*kind);
            format!("it refers to block {reference}, of kind {kind}")
        }
        None => format!("it refers to {reference}, and the page has blocks 0 to {last}"),
    }
}

/// How many blocks of which kind follow a block.
fn follows(page: &[u8], number: u32) -> String {
    let after = page
        .get((number as usize + 1) * BLOCK..)
        .unwrap_or_default();
    let mut kinds = after.chunks_exact(BLOCK).map(|block| block[0]);
    let Some(first) = kinds.next() else {
        return "no block follows it".to_string();
    };
    let count = 1 + kinds.take_while(|kind| *kind == first).count();
    let kind = kind_shown(first);
    match count {
        1 => format!("a block of kind {kind} follows it"),
        _ => format!("{count} blocks of kind {kind} follow it"),
    }
}

/// The text of a program, on one line.
fn program(page: &[u8], number: u32) -> String {
    let after = page
        .get((number as usize + 1) * BLOCK..)
        .unwrap_or_default();
    let is_part = |block: &&[u8]| {
        let kind = layout::kind_of(i32::from(block[0]));
        kind.is_some_and(|kind| kind.bytes == Bytes::Program)
    };
    let blocks = after.chunks_exact(BLOCK).take_while(is_part);
    let text: Vec<u8> = blocks.flat_map(|block| block[4..508].to_vec()).collect();
    let text = text.split(|b| *b == 0).next().unwrap_or_default();
    let text = String::from_utf8_lossy(text);
    let text: Vec<&str> = text.split_whitespace().collect();
    let text: String = text.join(" ").chars().filter(|c| !c.is_control()).collect();
    let shown: String = text.chars().take(SHOWN).collect();
    let more = if shown.len() < text.len() { " .." } else { "" };
    format!("its program is {shown}{more}")
}
