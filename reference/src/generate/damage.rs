//! Pages broken in one of many ways.

use super::Rng;
use crate::block::{seal, BLOCK, BODY, DEVICE_CMYK, DEVICE_GRAY, DEVICE_RGB, MOST_BLOCKS};
use crate::numbers::{read_two, write_four, write_two, ONE};
use crate::page::components;

/// How many ways `damage` knows.
pub const WAYS: usize = 21;

/// A way to break a page.
type Way = fn(&mut Victim<'_>);

/// Every way, with its name in a few words.
const TABLE: [(&str, Way); WAYS] = [
    ("length", length),
    ("a flipped byte", flipped),
    ("a flipped byte, check repaired", flipped_and_repaired),
    ("the check", check),
    ("a wrong kind", kind),
    ("byte 1", byte_one),
    ("own number", own_number),
    ("gamma", gamma),
    ("exponent", exponent),
    ("reference", reference),
    ("a palette block made free", palette_made_free),
    ("hival", hival),
    ("a spare palette byte", spare_byte),
    ("name", name),
    ("white point", white_point),
    ("black point", black_point),
    ("range", range),
    ("a stray palette block", stray_palette),
    ("a C0 or C1 entry", entry),
    ("last blocks missing", blocks_missing),
    ("two blocks exchanged", blocks_exchanged),
];

/// Breaks a page in one of many ways and says which in a few words.
/// Most pages are refused afterwards; a few changed bytes leave a page that is still accepted.
pub fn damage(rng: &mut Rng, page: &mut Vec<u8>) -> &'static str {
    let way = rng.below(WAYS);
    damage_by(rng, page, way)
}

/// Breaks a page in the way of this number, 0 up to but not including `WAYS`, and says which in a few words.
pub fn damage_by(rng: &mut Rng, page: &mut Vec<u8>, way: usize) -> &'static str {
    let (name, way) = TABLE[way % WAYS];
    let any = rng.below(page.len() / BLOCK);
    way(&mut Victim { rng, page, any });
    name
}

/// Lays the right check into the block of this number, where the page has it.
pub fn repair(page: &mut [u8], number: usize) {
    let (blocks, _) = page.as_chunks_mut();
    if let Some(block) = blocks.get_mut(number) {
        seal(block);
    }
}

/// A page to be broken, where the random numbers come from, and any block of the page. A place that the page does not
/// have stays unaltered.
pub(super) struct Victim<'a> {
    pub(super) rng: &'a mut Rng,
    pub(super) page: &'a mut Vec<u8>,
    pub(super) any: usize,
}

impl Victim<'_> {
    /// How many blocks the page has.
    pub(super) fn count(&self) -> usize {
        self.page.len() / BLOCK
    }

    /// One of the blocks that have one of these kinds; any block where there is none.
    pub(super) fn block_of_kind(&mut self, kinds: &[u8]) -> usize {
        let blocks = self.page.chunks_exact(BLOCK).enumerate();
        let found: Vec<usize> = blocks
            .filter(|(_, block)| kinds.contains(&block[0]))
            .map(|(number, _)| number)
            .collect();
        let any = self.rng.below(self.count());
        self.rng.pick(&found, any)
    }

    /// The byte at this place of a block.
    pub(super) fn byte(&self, number: usize, at: usize) -> u8 {
        self.page.get(number * BLOCK + at).copied().unwrap_or(0)
    }

    /// Lays one byte into a block.
    pub(super) fn put_byte(&mut self, number: usize, at: usize, v: u8) {
        if let Some(byte) = self.page.get_mut(number * BLOCK + at) {
            *byte = v;
        }
    }

    /// Lays one byte into a block, and its check anew.
    pub(super) fn byte_repaired(&mut self, number: usize, at: usize, v: u8) {
        self.put_byte(number, at, v);
        repair(self.page, number);
    }

    /// Lays a two-byte number into a block, and its check anew.
    pub(super) fn two_repaired(&mut self, number: usize, at: usize, v: u16) {
        write_two(self.page, number * BLOCK + at, v);
        repair(self.page, number);
    }

    /// Lays a four-byte number into a block, and its check anew.
    pub(super) fn four_repaired(&mut self, number: usize, at: usize, v: i32) {
        write_four(self.page, number * BLOCK + at, v);
        repair(self.page, number);
    }

    /// Lays the check of a block anew.
    pub(super) fn repair(&mut self, number: usize) {
        repair(self.page, number);
    }

    /// Makes a block free, with its own number and its check.
    pub(super) fn make_free(&mut self, number: usize) {
        let start = number * BLOCK;
        if let Some(block) = self.page.get_mut(start..start + BLOCK) {
            block.fill(0);
        }
        self.two_repaired(number, 2, number as u16);
    }

    /// Changes one byte of a block to another value.
    fn flip(&mut self, number: usize, at: usize) {
        let mask = if self.rng.once_in(2) {
            1u8 << self.rng.below(8)
        } else {
            (self.rng.next() as u8).max(1)
        };
        self.put_byte(number, at, self.byte(number, at) ^ mask);
    }
}

fn length(v: &mut Victim<'_>) {
    let length = match v.rng.below(5) {
        0 => 0,
        1 => v.page.len().saturating_sub(1 + v.rng.below(BLOCK - 1)),
        2 => v.page.len() + 1 + v.rng.below(BLOCK - 1),
        3 => (MOST_BLOCKS + 1) * BLOCK,
        _ => (MOST_BLOCKS + 1 + v.rng.below(70)) * BLOCK,
    };
    v.page.resize(length, 0);
}

fn flipped(v: &mut Victim<'_>) {
    let at = v.rng.below(BLOCK);
    v.flip(v.any, at);
}

fn flipped_and_repaired(v: &mut Victim<'_>) {
    let at = v.rng.below(508);
    v.flip(v.any, at);
    repair(v.page, v.any);
}

fn check(v: &mut Victim<'_>) {
    let at = 508 + v.rng.below(4);
    v.flip(v.any, at);
}

fn kind(v: &mut Victim<'_>) {
    let kinds = if v.rng.once_in(2) { 10 } else { 256 };
    let kind = v.rng.below(kinds) as u8;
    v.byte_repaired(v.any, 0, kind);
}

fn byte_one(v: &mut Victim<'_>) {
    let byte = v.rng.byte().max(1);
    v.byte_repaired(v.any, 1, byte);
}

fn own_number(v: &mut Victim<'_>) {
    let next = (v.any as u16).wrapping_add(1);
    let most = MOST_BLOCKS as u16;
    let own = v.rng.pick(&[0, 1, most - 1, most, 256, 0xffff, next], 0);
    v.two_repaired(v.any, 2, own);
}

fn gamma(v: &mut Victim<'_>) {
    let at = v.block_of_kind(&[1, 2]);
    let which = if v.byte(at, 0) == 2 {
        v.rng.below(3)
    } else {
        0
    };
    let near = [
        ONE - 1,
        1_850_000,
        4_100_000,
        5 * ONE,
        -ONE,
        v.rng.near_gamma(),
    ];
    let far = [0, -1, 1, i32::MIN, i32::MAX];
    let gamma = v.rng.pick(&[&near[..], &far].concat(), 0);
    v.four_repaired(at, 28 + 4 * which, gamma);
}

fn exponent(v: &mut Victim<'_>) {
    let at = v.block_of_kind(&[5]);
    let exponent = v.rng.pick(&[0, 5, 6, 255], 0);
    v.byte_repaired(at, 6, exponent);
}

fn reference(v: &mut Victim<'_>) {
    let at = v.block_of_kind(&[4, 5, 8]);
    let other = v.rng.below(v.count()) as u16;
    let (count, most) = (v.count() as u16, MOST_BLOCKS as u16);
    let blocks = [at as u16, other, other, other, count, most - 1, most];
    let no_codes = [0xff00, 0xff02, 0xff05, 0xffff, 0x0100];
    let codes = [DEVICE_GRAY, DEVICE_RGB, DEVICE_CMYK];
    let few = [&blocks[..], &no_codes, &codes].concat();
    let reference = v.rng.pick(&few, 0);
    v.two_repaired(at, 4, reference);
}

fn palette_made_free(v: &mut Victim<'_>) {
    let at = v.block_of_kind(&[6]);
    if v.rng.once_in(2) {
        v.make_free(at);
    } else {
        v.byte_repaired(at, 0, 0);
    }
}

fn hival(v: &mut Victim<'_>) {
    let at = v.block_of_kind(&[4]);
    let few = [255, 256, 0, 0x0100, 0xffff, 128, 167, 168];
    let hival = v.rng.pick(&few, 0);
    v.two_repaired(at, 6, hival);
}

/// The first byte past a palette, its last block's last byte, or one between.
fn spare_byte(v: &mut Victim<'_>) {
    let at = v.block_of_kind(&[4]);
    let base = u32::from(read_two(v.page, at * BLOCK + 4));
    let hival = usize::from(read_two(v.page, at * BLOCK + 6));
    let bytes = components(v.page, base).unwrap_or(1) * (hival + 1);
    let room = bytes.div_ceil(BODY) * BODY - bytes;
    let between = v.rng.below(room);
    let spare = v.rng.pick(&[0, room.saturating_sub(1), between], 0);
    let place = bytes + spare;
    let byte = v.rng.byte().max(1);
    v.byte_repaired(at + 1 + place / BODY, 4 + place % BODY, byte);
}

fn name(v: &mut Victim<'_>) {
    let at = v.block_of_kind(&[5]);
    let length = v.byte(at, 7);
    let places = usize::from(length);
    let (place, byte) = match v.rng.below(5) {
        0 => (7, v.rng.pick(&[0, 128, 255], 0)),
        1 => (8 + v.rng.below(places.max(1)), 0),
        2 => (8 + places.min(127), 1),
        3 => (135, 0x41),
        _ => (7, length.wrapping_add(1)),
    };
    v.byte_repaired(at, place, byte);
}

fn white_point(v: &mut Victim<'_>) {
    let at = v.block_of_kind(&[1, 2, 3]);
    let white = v.rng.pick(&[0, -1, ONE - 1, ONE + 1, i32::MIN], 0);
    let which = v.rng.below(3);
    v.four_repaired(at, 4 + 4 * which, white);
}

fn black_point(v: &mut Victim<'_>) {
    let at = v.block_of_kind(&[1, 2, 3]);
    let which = v.rng.below(3);
    let black = v.rng.pick(&[-1, i32::MIN], -1);
    v.four_repaired(at, 16 + 4 * which, black);
}

fn range(v: &mut Victim<'_>) {
    let at = v.block_of_kind(&[3]);
    let pair = 28 + 8 * v.rng.below(2);
    let lo = v.rng.between(-5, 5);
    let hi = lo - v.rng.between(0, 1);
    v.four_repaired(at, pair, lo);
    v.four_repaired(at, pair + 4, hi);
}

fn stray_palette(v: &mut Victim<'_>) {
    let at = v.block_of_kind(&[0, 1, 2, 3, 5, 8]);
    v.byte_repaired(at, 0, 6);
}

fn entry(v: &mut Victim<'_>) {
    let at = v.block_of_kind(&[5]);
    let place = 136 + 16 * v.rng.below(2) + 4 * (1 + v.rng.below(3));
    let entry = v.rng.number();
    v.four_repaired(at, place, entry);
}

fn blocks_missing(v: &mut Victim<'_>) {
    let keep = 1 + v.rng.below(v.count());
    v.page.truncate(keep * BLOCK);
}

/// Two blocks exchanged, as they stand or each with its new place's number.
fn blocks_exchanged(v: &mut Victim<'_>) {
    let other = v.rng.below(v.count());
    let (blocks, _) = v.page.as_chunks_mut::<BLOCK>();
    if v.any < blocks.len() && other < blocks.len() {
        blocks.swap(v.any, other);
    }
    if v.rng.once_in(2) {
        for number in [v.any, other] {
            v.two_repaired(number, 2, number as u16);
        }
    }
}
