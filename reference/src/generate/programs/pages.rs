//! Records and pages with programs, accepted ones and ones broken in ways that only such pages have.

use super::{damage_program_text, damaged_program, random_program, MOST_TEXT};
use crate::block::{Body, Record, BLOCK, BODY, BODY_AT, DEVICE_CMYK, DEVICE_GRAY, DEVICE_RGB};
use crate::generate::damage::Victim;
use crate::generate::pages::{page_of, random_count, Tints};
use crate::generate::{random_lone_record, Rng};
use crate::numbers::VALUES;
use crate::page::{program_text, MOST_PROGRAM_BLOCKS};

/// How many ways `damage_program_page` knows.
pub const PROGRAM_PAGE_WAYS: usize = 18;

/// A way to break a page that has programs.
type Way = fn(&mut Victim<'_>, usize);

/// Every way, with its name in a few words. Each is given the block of a record that has a program.
const TABLE: [(&str, Way); PROGRAM_PAGE_WAYS] = [
    ("a program missing", missing),
    ("a program's block made free", block_free),
    ("a program's block made a palette", block_palette),
    ("a zero in a text", zero_within),
    ("a byte after a text", byte_after),
    ("a program's block all zeros", block_zeros),
    ("a stray program block", stray),
    ("a program of five blocks", five_blocks),
    ("C0 or C1 over a program", entry),
    ("exponent 1 to 5 over a program", exponent),
    ("exponent 0 without a program", no_program),
    ("a byte of a text", text_byte),
    ("a refused program", refused),
    ("a refused program, C0 or C1", refused_and_entry),
    ("a damaged text", damaged_text),
    ("another alternate", alternate),
    ("another alternate and no program", alternate_and_missing),
    ("two blocks of a text exchanged", blocks_exchanged),
];

/// A record that is accepted by itself: a part of a program's text, or a Separation with exponent 0.
pub fn random_lone_program_record(rng: &mut Rng, number: u16) -> Record {
    let mut record = random_lone_record(rng, number);
    while !matches!(record.body, Body::Separation { .. } | Body::Palette) {
        record = random_lone_record(rng, number);
    }
    match &mut record.body {
        Body::Separation { exponent, .. } => *exponent = 0,
        body => {
            *body = Body::Program;
            if rng.once_in(2) {
                record.bytes = [0; BODY];
                let text = random_program(rng, 1, 1);
                for (place, byte) in record.bytes.iter_mut().zip(text) {
                    *place = byte;
                }
            }
        }
    }
    record
}

/// An accepted page of exactly this many blocks (taken into 1..`MOST_BLOCKS`), of random spaces, many of them over programs.
pub fn random_program_page_of(rng: &mut Rng, count: usize) -> Vec<u8> {
    page_of(rng, count, Tints::Programs)
}

/// An accepted page of 1 to `MOST_BLOCKS` blocks, of random spaces, many of them over programs.
pub fn random_program_page(rng: &mut Rng) -> Vec<u8> {
    let count = random_count(rng);
    page_of(rng, count, Tints::Programs)
}

/// Breaks a page that has programs in one of many ways and says which in a few words. Without a program most ways leave
/// it as it is.
pub fn damage_program_page(rng: &mut Rng, page: &mut Vec<u8>) -> &'static str {
    let way = rng.below(PROGRAM_PAGE_WAYS);
    damage_program_page_by(rng, page, way)
}

/// Breaks a page in the way of this number, 0 up to but not including `PROGRAM_PAGE_WAYS`.
pub fn damage_program_page_by(rng: &mut Rng, page: &mut Vec<u8>, way: usize) -> &'static str {
    let (name, way) = TABLE[way % PROGRAM_PAGE_WAYS];
    let found: Vec<usize> = page
        .chunks_exact(BLOCK)
        .enumerate()
        .filter(|(_, block)| block[0] == 8 || block[0] == 5 && block[6] == 0)
        .map(|(number, _)| number)
        .collect();
    let any = rng.below(page.len() / BLOCK);
    let record = rng.pick(&found, any);
    way(&mut Victim { rng, page, any }, record);
    name
}

/// How many blocks of kind 7 stand straight after a record, up to four.
pub(in crate::generate) fn run_length(v: &Victim<'_>, record: usize) -> usize {
    (1..=MOST_PROGRAM_BLOCKS)
        .take_while(|step| v.byte(record + step, 0) == 7)
        .count()
}

/// One of the blocks of a record's run; the one straight after it where there is none.
fn run_block(v: &mut Victim<'_>, record: usize) -> usize {
    let length = run_length(v, record);
    record + 1 + v.rng.below(length)
}

/// Lays another text into the blocks of a run, as far as it goes, and zeros after it.
pub(in crate::generate) fn lay_text(v: &mut Victim<'_>, record: usize, text: &[u8]) {
    let length = run_length(v, record);
    for place in 0..length * BODY {
        let byte = text.get(place).copied().unwrap_or(0);
        v.put_byte(record + 1 + place / BODY, BODY_AT + place % BODY, byte);
    }
    for block in record + 1..=record + length {
        v.repair(block);
    }
}

/// How many tints the program of a record takes: a DeviceN's count of names, where it is one, and 1 for any other.
fn taken_of(v: &Victim<'_>, record: usize) -> usize {
    match v.byte(record, 0) {
        8 => usize::from(v.byte(record, 6)).clamp(1, VALUES),
        _ => 1,
    }
}

/// The count of components that the alternate of a record has by its device code; 1 for any other.
fn left_of(v: &Victim<'_>, record: usize) -> usize {
    match u16::from_be_bytes([v.byte(record, 4), v.byte(record, 5)]) {
        DEVICE_RGB => 3,
        DEVICE_CMYK => 4,
        _ => 1,
    }
}

fn missing(v: &mut Victim<'_>, record: usize) {
    for block in record + 1..=record + run_length(v, record) {
        v.make_free(block);
    }
}

fn block_free(v: &mut Victim<'_>, record: usize) {
    let block = run_block(v, record);
    v.make_free(block);
}

fn block_palette(v: &mut Victim<'_>, record: usize) {
    let block = run_block(v, record);
    v.byte_repaired(block, 0, 6);
}

fn zero_within(v: &mut Victim<'_>, record: usize) {
    let length = program_text(v.page, record as u32).map_or(1, |text| text.len());
    let any = v.rng.below(length);
    let place = v.rng.pick(&[0, any, any, length.saturating_sub(1)], any);
    v.byte_repaired(record + 1 + place / BODY, BODY_AT + place % BODY, 0);
}

fn byte_after(v: &mut Victim<'_>, record: usize) {
    let length = program_text(v.page, record as u32).map_or(0, |text| text.len());
    let place = match v.rng.below(3) {
        0 => length + 1,
        1 => length.next_multiple_of(BODY).saturating_sub(1),
        _ => length,
    };
    let byte = v.rng.pick(b" {x1", b' ');
    v.byte_repaired(record + 1 + place / BODY, BODY_AT + place % BODY, byte);
}

fn block_zeros(v: &mut Victim<'_>, record: usize) {
    let block = run_block(v, record);
    for place in 0..BODY {
        v.put_byte(block, BODY_AT + place, 0);
    }
    v.repair(block);
}

fn stray(v: &mut Victim<'_>, _: usize) {
    let block = v.block_of_kind(&[0, 1, 2, 3, 5, 6, 8]);
    let text = v.rng.once_in(2);
    v.byte_repaired(block, 0, 7);
    if text {
        v.byte_repaired(block, BODY_AT, b'{');
    }
}

/// Blocks of kind 7 after a run, all of them full, so that there are more than four; the spaces there go.
fn five_blocks(v: &mut Victim<'_>, record: usize) {
    let text = [b"{ }".to_vec(), vec![b' '; MOST_TEXT]].concat();
    for block in record + 1..=record + 5 {
        v.make_free(block);
        v.byte_repaired(block, 0, 7);
    }
    lay_text(v, record, &text[..MOST_TEXT]);
    v.byte_repaired(record + 5, BODY_AT, b' ');
}

fn entry(v: &mut Victim<'_>, record: usize) {
    let place = 136 + 4 * v.rng.below(8);
    let entry = v.rng.number();
    v.four_repaired(record, place, entry);
}

fn exponent(v: &mut Victim<'_>, record: usize) {
    let exponent = v.rng.pick(&[1, 2, 3, 4, 5, 255], 1);
    v.byte_repaired(record, 6, exponent);
}

fn no_program(v: &mut Victim<'_>, _: usize) {
    let record = v.block_of_kind(&[5]);
    v.byte_repaired(record, 6, 0);
}

fn text_byte(v: &mut Victim<'_>, record: usize) {
    let length = program_text(v.page, record as u32).map_or(1, |text| text.len());
    let place = v.rng.below(length);
    let byte = (v.rng.next() as u8).max(1);
    v.byte_repaired(record + 1 + place / BODY, BODY_AT + place % BODY, byte);
}

fn refused(v: &mut Victim<'_>, record: usize) {
    let (taken, left) = (taken_of(v, record), left_of(v, record));
    let (text, _, _) = damaged_program(v.rng, taken, left);
    lay_text(v, record, &text);
}

fn refused_and_entry(v: &mut Victim<'_>, record: usize) {
    refused(v, record);
    entry(v, record);
}

fn damaged_text(v: &mut Victim<'_>, record: usize) {
    let Some(mut text) = program_text(v.page, record as u32) else {
        return;
    };
    damage_program_text(v.rng, &mut text);
    lay_text(v, record, &text);
}

fn alternate(v: &mut Victim<'_>, record: usize) {
    let block = v.rng.below(v.count() + 1) as u16;
    let codes = [DEVICE_GRAY, DEVICE_RGB, DEVICE_CMYK, 0xff02, block, block];
    let other = v.rng.pick(&codes, DEVICE_GRAY);
    v.two_repaired(record, 4, other);
}

fn alternate_and_missing(v: &mut Victim<'_>, record: usize) {
    alternate(v, record);
    missing(v, record);
}

fn blocks_exchanged(v: &mut Victim<'_>, record: usize) {
    let (one, other) = (run_block(v, record), run_block(v, record));
    for place in BODY_AT..BODY_AT + BODY {
        let (left, right) = (v.byte(one, place), v.byte(other, place));
        v.put_byte(one, place, right);
        v.put_byte(other, place, left);
    }
    v.repair(one);
    v.repair(other);
}
