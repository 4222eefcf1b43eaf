//! Random DeviceN records: names that look for edges, accepted pages with them, and pages broken in ways that only they
//! have.

use super::damage::Victim;
use super::pages::{page_of, random_count, Tints};
use super::programs::{lay_text, random_program, run_length};
use super::{random_lone_record, Rng};
use crate::block::{
    packed_names, Body, Record, BLOCK, BODY, DEVICE_CMYK, DEVICE_GRAY, DEVICE_RGB, MOST_NAMES,
    MOST_NAME_BYTES, NAMES, NAME_AT,
};
use crate::page::components;

/// How many ways `damage_device_n` knows.
pub const DEVICE_N_WAYS: usize = 17;

/// A way to break a page that has a DeviceN.
type Way = fn(&mut Victim<'_>, usize);

/// Every way, with its name in a few words. Each is given the block of a DeviceN.
const TABLE: [(&str, Way); DEVICE_N_WAYS] = [
    ("two equal names", equal_names),
    ("All among the names", all_among),
    ("None for a name", none_among),
    ("None for every name", all_none),
    ("names nearly equal", nearly_equal),
    ("a count of names of 0 or 9", bad_count),
    ("one name more or less", other_count),
    ("a name's length 0 or 49", bad_length),
    ("a name's length one more or less", other_length),
    ("a zero byte in a name", zero_in_name),
    ("byte 7", byte_seven),
    ("a byte after the names", byte_after),
    ("an alternate of the wrong kind", wrong_alternate),
    ("an alternate of another count", other_alternate),
    ("a program of other tints", other_tints),
    ("a Separation in its place", separation),
    ("equal names and a bad alternate", names_and_alternate),
];

/// Names packed one after the other.
pub fn packed(names: &[Vec<u8>]) -> Vec<u8> {
    let with_length = |name: &Vec<u8>| [&[name.len() as u8], &name[..]].concat();
    names.iter().flat_map(with_length).collect()
}

/// Names that are near None and All, inks that are common, and one that is as long as a real document's.
const COMMON: [&[u8]; 14] = [
    b"none",
    b"Non",
    b"None ",
    b"all",
    b"All ",
    b"ALL",
    b"Cyan",
    b"Magenta",
    b"Yellow",
    b"Black",
    b"Blue",
    b"Buff",
    b"IBM",
    b"PANTONE 2727 C Glossy",
];

/// A name other than All: None, a common one, or any bytes.
fn random_name(rng: &mut Rng) -> Vec<u8> {
    match rng.below(8) {
        0 | 1 => b"None".to_vec(),
        2..=4 => rng.pick(&COMMON, b"Blue").to_vec(),
        _ => {
            let length = rng.between(1, MOST_NAME_BYTES as i32);
            let length = rng.pick(&[1, 2, 4, 48, length, length], 1);
            (0..length).map(|_| rng.byte().max(1)).collect()
        }
    }
}

/// A name that differs from another in one byte, in a letter's case or in its length.
fn near(rng: &mut Rng, name: &[u8]) -> Vec<u8> {
    let mut near = name.to_vec();
    let place = rng.below(near.len());
    match rng.below(4) {
        0 if near.len() < MOST_NAME_BYTES => near.push(b' '),
        1 if near.len() > 1 => drop(near.pop()),
        2 => near[place] ^= 0x20,
        _ => near[place] = near[place].wrapping_add(1),
    }
    near.iter_mut().for_each(|byte| *byte = (*byte).max(1));
    near
}

/// Whether names may stand in one DeviceN.
fn may_stand(names: &[Vec<u8>]) -> bool {
    let alone = |place: usize| names[place] == b"None" || !names[..place].contains(&names[place]);
    (0..names.len()).all(alone) && names.iter().all(|name| name != b"All")
}

/// One to eight names that may stand in one DeviceN: some nearly equal, None now and then more than once, or all of them.
pub fn random_names(rng: &mut Rng) -> Vec<Vec<u8>> {
    let count = rng.pick(&[1, 2, 2, 2, 3, 4, 5, 6, 7, 8, 8], 2);
    if rng.once_in(10) {
        return vec![b"None".to_vec(); count];
    }
    loop {
        let mut names: Vec<Vec<u8>> = Vec::new();
        while names.len() < count {
            let name = match names.last() {
                Some(last) if rng.once_in(4) => near(rng, last),
                _ => random_name(rng),
            };
            names.push(name);
        }
        if may_stand(&names) {
            return names;
        }
    }
}

/// A DeviceN that is accepted by itself.
pub fn random_lone_device_n(rng: &mut Rng, number: u16) -> Record {
    loop {
        let record = random_lone_record(rng, number);
        if matches!(record.body, Body::DeviceN { .. }) {
            return record;
        }
    }
}

/// An accepted page of exactly this many blocks (taken into 1..`MOST_BLOCKS`), of random spaces, many of them DeviceN.
pub fn random_device_n_page_of(rng: &mut Rng, count: usize) -> Vec<u8> {
    page_of(rng, count, Tints::DeviceN)
}

/// An accepted page of 1 to `MOST_BLOCKS` blocks, of random spaces, many of them DeviceN.
pub fn random_device_n_page(rng: &mut Rng) -> Vec<u8> {
    let count = random_count(rng);
    page_of(rng, count, Tints::DeviceN)
}

/// Breaks a page that has DeviceNs in one of many ways and says which in a few words; a page that has none stays.
pub fn damage_device_n(rng: &mut Rng, page: &mut Vec<u8>) -> &'static str {
    let way = rng.below(DEVICE_N_WAYS);
    damage_device_n_by(rng, page, way)
}

/// Breaks a page in the way of this number, 0 up to but not including `DEVICE_N_WAYS`.
pub fn damage_device_n_by(rng: &mut Rng, page: &mut Vec<u8>, way: usize) -> &'static str {
    let (name, way) = TABLE[way % DEVICE_N_WAYS];
    let blocks = page.chunks_exact(BLOCK).enumerate();
    let found: Vec<usize> = blocks
        .filter(|(_, block)| block[0] == 8)
        .map(|(number, _)| number)
        .collect();
    if let Some(any) = found.get(rng.below(found.len())).copied() {
        way(&mut Victim { rng, page, any }, any);
    }
    name
}

/// The names of a DeviceN; none where they are not packed as they must be.
fn names_at(v: &Victim<'_>, record: usize) -> Vec<Vec<u8>> {
    let start = record * BLOCK + NAME_AT;
    let bytes = v.page.get(start..start + NAMES).unwrap_or_default();
    let names = packed_names(bytes, v.byte(record, 6)).unwrap_or_default();
    names.iter().map(|name| name.to_vec()).collect()
}

/// Lays these names and their count into a DeviceN, as far as they fit.
fn lay_names(v: &mut Victim<'_>, record: usize, names: &[Vec<u8>]) {
    let packed = packed(names);
    for place in 0..NAMES {
        let byte = packed.get(place).copied().unwrap_or(0);
        v.put_byte(record, NAME_AT + place, byte);
    }
    v.byte_repaired(record, 6, names.len() as u8);
}

/// Lays a name in place of one of a DeviceN's; with a count to keep there must be another beside it.
fn replaced(v: &mut Victim<'_>, record: usize, name: impl Fn(&mut Rng, &[Vec<u8>]) -> Vec<u8>) {
    let mut names = names_at(v, record);
    if names.is_empty() {
        return;
    }
    let place = v.rng.below(names.len());
    names[place] = name(v.rng, &names);
    lay_names(v, record, &names);
}

fn equal_names(v: &mut Victim<'_>, record: usize) {
    let mut names = names_at(v, record);
    if names.len() < 2 {
        return lay_names(v, record, &[b"Blue".to_vec(), b"Blue".to_vec()]);
    }
    let from = v.rng.below(names.len());
    let to = v.rng.below(names.len());
    if names[from] == b"None" {
        names[from] = b"Buff".to_vec();
    }
    names[to] = names[from].clone();
    lay_names(v, record, &names);
}

fn all_among(v: &mut Victim<'_>, record: usize) {
    replaced(v, record, |_, _| b"All".to_vec());
}

fn none_among(v: &mut Victim<'_>, record: usize) {
    replaced(v, record, |_, _| b"None".to_vec());
}

fn all_none(v: &mut Victim<'_>, record: usize) {
    let names = names_at(v, record);
    lay_names(v, record, &vec![b"None".to_vec(); names.len()]);
}

fn nearly_equal(v: &mut Victim<'_>, record: usize) {
    replaced(v, record, |rng, names| {
        let other = names[rng.below(names.len())].clone();
        near(rng, &other)
    });
}

fn bad_count(v: &mut Victim<'_>, record: usize) {
    let count = v.rng.pick(&[0, MOST_NAMES as u8 + 1, 10, 128, 255], 0);
    v.byte_repaired(record, 6, count);
}

/// A count that is one more or less than there are names, with or without the name.
fn other_count(v: &mut Victim<'_>, record: usize) {
    let count = v.byte(record, 6);
    let more = v.rng.once_in(2);
    if v.rng.once_in(2) {
        let other = if more {
            count.wrapping_add(1)
        } else {
            count.wrapping_sub(1)
        };
        return v.byte_repaired(record, 6, other);
    }
    let mut names = names_at(v, record);
    if more {
        names.push(b"Another".to_vec());
    } else {
        names.pop();
    }
    lay_names(v, record, &names);
}

/// The place of one of the length bytes of a DeviceN's names, and that length.
fn a_length(v: &mut Victim<'_>, record: usize) -> (usize, usize) {
    let names = names_at(v, record);
    let which = v.rng.below(names.len());
    let before: usize = names.iter().take(which).map(|name| name.len() + 1).sum();
    let length = names.get(which).map_or(0, Vec::len);
    (NAME_AT + before, length)
}

fn bad_length(v: &mut Victim<'_>, record: usize) {
    let (place, _) = a_length(v, record);
    let length = v.rng.pick(&[0, MOST_NAME_BYTES as u8 + 1, 127, 255], 0);
    v.byte_repaired(record, place, length);
}

fn other_length(v: &mut Victim<'_>, record: usize) {
    let (place, length) = a_length(v, record);
    let other = v.rng.pick(&[length + 1, length.wrapping_sub(1)], 0);
    v.byte_repaired(record, place, other as u8);
}

fn zero_in_name(v: &mut Victim<'_>, record: usize) {
    let (place, length) = a_length(v, record);
    let within = v.rng.below(length);
    v.byte_repaired(record, place + 1 + within, 0);
}

fn byte_seven(v: &mut Victim<'_>, record: usize) {
    let byte = v.rng.byte().max(1);
    v.byte_repaired(record, 7, byte);
}

fn byte_after(v: &mut Victim<'_>, record: usize) {
    let used = packed(&names_at(v, record)).len();
    let any = v.rng.below(NAMES - used);
    let place = used + v.rng.pick(&[0, NAMES - 1 - used, any], any);
    let byte = v.rng.byte().max(1);
    v.byte_repaired(record, NAME_AT + place, byte);
}

/// A block that is no alternate: of a Separation, an Indexed, a DeviceN, a palette or a program, free, or none.
fn wrong_alternate(v: &mut Victim<'_>, record: usize) {
    let kind = v.rng.pick(&[0, 4, 5, 6, 7, 8], 8);
    let block = v.block_of_kind(&[kind]) as u16;
    let (count, own) = (v.count() as u16, record as u16);
    let other = v.rng.pick(&[block, block, own, count, 0xff02, 0xffff], own);
    v.two_repaired(record, 4, other);
}

fn other_alternate(v: &mut Victim<'_>, record: usize) {
    let block = v.block_of_kind(&[1, 2, 3]) as u16;
    let codes = [DEVICE_GRAY, DEVICE_RGB, DEVICE_CMYK, block];
    let other = v.rng.pick(&codes, DEVICE_GRAY);
    v.two_repaired(record, 4, other);
}

/// A program that takes another count of tints, in as many blocks as there are.
fn other_tints(v: &mut Victim<'_>, record: usize) {
    let alternate = u32::from(u16::from_be_bytes([v.byte(record, 4), v.byte(record, 5)]));
    let left = components(v.page, alternate).unwrap_or(1);
    let taken = 1 + v.rng.below(MOST_NAMES);
    let text = random_program(v.rng, taken, left);
    if text.len().div_ceil(BODY) == run_length(v, record) {
        lay_text(v, record, &text);
    }
}

/// A Separation with exponent 0 and a name, over the same alternate and program.
fn separation(v: &mut Victim<'_>, record: usize) {
    for place in 6..NAME_AT + NAMES {
        v.put_byte(record, place, 0);
    }
    v.put_byte(record, 7, 1);
    v.put_byte(record, NAME_AT, b'A');
    v.byte_repaired(record, 0, 5);
}

fn names_and_alternate(v: &mut Victim<'_>, record: usize) {
    equal_names(v, record);
    wrong_alternate(v, record);
}
