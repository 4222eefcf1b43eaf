//! A page of 1 to 128 "blocks of 512 bytes" (2026-09): the spaces on it, and judging it.

mod programs;

pub use programs::{judged_program, program_at, program_text, MOST_PROGRAM_BLOCKS};

use crate::block::{
    check_holds, form_holds, packed_names, Body, BLOCK, BODY, BODY_AT, DEVICE_CMYK, DEVICE_GRAY,
    DEVICE_RGB, MOST_BLOCKS, NAMES, NAME_AT,
};
use crate::numbers::{read_two, ONE, VALUES};

/// "Carried: DeviceGray, DeviceRGB, DeviceCMYK, CalGray, CalRGB, Lab, Indexed, Separation"; by document 02 DeviceN too.
#[derive(Clone, Copy, Debug, PartialEq, Eq)]
pub enum Family {
    /// The device code FF01.
    DeviceGray,
    /// The device code FF03.
    DeviceRgb,
    /// The device code FF04.
    DeviceCmyk,
    /// A block of kind 1.
    CalGray,
    /// A block of kind 2.
    CalRgb,
    /// A block of kind 3.
    Lab,
    /// A block of kind 4.
    Indexed,
    /// A block of kind 5.
    Separation,
    /// A block of kind 8, with its count of names.
    DeviceN(u8),
}

impl Family {
    /// "Component counts: Gray, CalGray, Indexed, Separation 1; RGB, CalRGB, Lab 3; CMYK 4." A DeviceN has a tint for each
    /// of its names.
    pub fn components(self) -> usize {
        match self {
            Family::DeviceGray | Family::CalGray | Family::Indexed | Family::Separation => 1,
            Family::DeviceRgb | Family::CalRgb | Family::Lab => 3,
            Family::DeviceCmyk => 4,
            Family::DeviceN(names) => usize::from(names),
        }
    }

    /// The family's name as the clause writes it.
    pub fn name(self) -> &'static str {
        match self {
            Family::DeviceGray => "DeviceGray",
            Family::DeviceRgb => "DeviceRGB",
            Family::DeviceCmyk => "DeviceCMYK",
            Family::CalGray => "CalGray",
            Family::CalRgb => "CalRGB",
            Family::Lab => "Lab",
            Family::Indexed => "Indexed",
            Family::Separation => "Separation",
            Family::DeviceN(_) => "DeviceN",
        }
    }

    /// The family of a block; none for free blocks, palettes, programs and unknown kinds.
    pub fn of_block(block: &[u8; BLOCK]) -> Option<Family> {
        match block[0] {
            1 => Some(Family::CalGray),
            2 => Some(Family::CalRgb),
            3 => Some(Family::Lab),
            4 => Some(Family::Indexed),
            5 => Some(Family::Separation),
            8 => Some(Family::DeviceN(block[6])),
            _ => None,
        }
    }
}

/// The blocks of a page, in order; bytes after the last whole block are left out.
fn blocks(page: &[u8]) -> &[[u8; BLOCK]] {
    page.as_chunks().0
}

/// The block of this number on a page; none past the page's end.
pub fn block_at(page: &[u8], number: usize) -> Option<&[u8; BLOCK]> {
    blocks(page).get(number)
}

/// What the block of this number records; none past the page's end, for device codes and for an unknown kind.
pub(crate) fn body_at(page: &[u8], number: u32) -> Option<Body> {
    block_at(page, number as usize).and_then(Body::of)
}

/// "A reference is a block number, or FF01, FF03, FF04 (hexadecimal) for DeviceGray, RGB, CMYK": the family of the
/// space that a number asks for. None where "the number asked for is neither a device code nor a block of kinds 1 to 5";
/// by document 02 that "now reads kinds 1 to 5 and 8".
pub fn family(page: &[u8], number: u32) -> Option<Family> {
    if number == u32::from(DEVICE_GRAY) {
        Some(Family::DeviceGray)
    } else if number == u32::from(DEVICE_RGB) {
        Some(Family::DeviceRgb)
    } else if number == u32::from(DEVICE_CMYK) {
        Some(Family::DeviceCmyk)
    } else {
        Family::of_block(block_at(page, number as usize)?)
    }
}

/// The bytes of a Separation's name, as many as its length says; none where the number asks for no Separation.
pub fn name_at(page: &[u8], number: u32) -> Option<&[u8]> {
    let Some(Body::Separation { name_length, .. }) = body_at(page, number) else {
        return None;
    };
    let block = block_at(page, number as usize)?;
    block[NAME_AT..].get(..usize::from(name_length))
}

/// Whether a space leaves no mark: a Separation "named exactly None", and a DeviceN "if all are None".
pub fn leaves_no_mark(page: &[u8], number: u32) -> bool {
    match body_at(page, number) {
        Some(Body::Separation { .. }) => name_at(page, number) == Some(b"None"),
        Some(Body::DeviceN { count, .. }) => {
            let block = block_at(page, number as usize);
            let bytes = block.map_or(&[][..], |block| &block[NAME_AT..NAME_AT + NAMES]);
            let names = packed_names(bytes, count).unwrap_or_default();
            !names.is_empty() && names.iter().all(|name| *name == b"None")
        }
        _ => false,
    }
}

/// How many components a colour has in the space that a number asks for; none where there is no such space.
pub fn components(page: &[u8], number: u32) -> Option<usize> {
    family(page, number).map(Family::components)
}

/// The spaces that a page holds, blocks upward: each one's number and family.
pub fn spaces(page: &[u8]) -> impl Iterator<Item = (u32, Family)> + '_ {
    (0..)
        .zip(blocks(page))
        .filter_map(|(number, block)| Some((number, Family::of_block(block)?)))
}

/// The ranges of a space's components in millionths, lowest and highest: "Lab L* 0..100, a* and b* by Range, ... all
/// others 0..1".
pub fn ranges(page: &[u8], number: u32) -> [(i32, i32); VALUES] {
    let mut ranges = [(0, ONE); VALUES];
    if let Some(Body::Lab { range, .. }) = body_at(page, number) {
        let [amin, amax, bmin, bmax] = range;
        ranges[..3].copy_from_slice(&[(0, 100 * ONE), (amin, amax), (bmin, bmax)]);
    }
    ranges
}

/// The byte at this place of the palette "laid in the blocks straight after the Indexed block"; 0 past the page's end.
pub fn palette_byte(page: &[u8], indexed: usize, place: usize) -> u8 {
    let block = block_at(page, indexed.saturating_add(1 + place / BODY));
    block.map_or(0, |block| block[BODY_AT + place % BODY])
}

/// "The palette has m x (hival + 1) bytes, m the base's count."
fn palette_length(page: &[u8], base: u16, hival: u16) -> usize {
    let m = components(page, u32::from(base)).unwrap_or(0);
    m * (usize::from(hival) + 1)
}

/// The palette is "laid in the blocks straight after the Indexed block, as few as hold them, all kind 6, spare bytes
/// zero".
fn palette_holds(page: &[u8], indexed: usize, length: usize) -> bool {
    let run = length.div_ceil(BODY);
    let is_palette = |number| block_at(page, number).is_some_and(|block| block[0] == 6);
    (indexed + 1..=indexed + run).all(is_palette)
        && (length..run * BODY).all(|place| palette_byte(page, indexed, place) == 0)
}

/// "A palette block outside such a run is refused": whether the run of an Indexed block before this one reaches it.
fn in_a_run(page: &[u8], number: usize) -> bool {
    let reaches = |indexed| match block_at(page, indexed).and_then(Body::of) {
        Some(Body::Indexed { base, hival }) => {
            number <= indexed + palette_length(page, base, hival).div_ceil(BODY)
        }
        _ => false,
    };
    (0..number).any(reaches)
}

/// What refusal 6 looks at: "An Indexed base is any carried space but Indexed. A Separation's alternate is a device
/// space, CalGray, CalRGB or Lab"; a DeviceN has "a device or CIE-based alternate" too, and "an Indexed base may be
/// DeviceN".
fn reference_holds(page: &[u8], body: &Body) -> bool {
    let family = |reference: u16| family(page, u32::from(reference));
    match body {
        Body::Indexed { base, .. } => family(*base).is_some_and(|base| base != Family::Indexed),
        Body::Separation { alternate, .. } | Body::DeviceN { alternate, .. } => matches!(
            family(*alternate),
            Some(
                Family::DeviceGray
                    | Family::DeviceRgb
                    | Family::DeviceCmyk
                    | Family::CalGray
                    | Family::CalRgb
                    | Family::Lab
            )
        ),
        _ => true,
    }
}

/// What refusal 7 looks at: "the palette run is short or its spare bytes not zero; a stray palette block; C0 or C1
/// entries past the alternate's count not zero". By document 02 of a program "C0 and C1 are then zero, else 7", and a
/// stray program block's fault is "its own".
fn run_or_entries_hold(page: &[u8], number: usize, body: &Body) -> bool {
    match body {
        Body::Indexed { base, hival } => {
            palette_holds(page, number, palette_length(page, *base, *hival))
        }
        Body::Palette => in_a_run(page, number),
        Body::Program => programs::in_a_program_run(page, number),
        Body::Separation {
            alternate,
            exponent,
            c0,
            c1,
            ..
        } => {
            let count = match exponent {
                0 => 0,
                _ => components(page, u32::from(*alternate)).unwrap_or(4),
            };
            c0[count..].iter().chain(&c1[count..]).all(|v| *v == 0)
        }
        _ => true,
    }
}

/// The first refusal of a block by its bytes: "2 before 3".
fn first_pass(number: usize, block: &[u8; BLOCK]) -> Result<(), u32> {
    if !check_holds(block) {
        return Err(2);
    }
    if usize::from(read_two(block, 2)) != number || !form_holds(block) {
        return Err(3);
    }
    Ok(())
}

/// The first refusal of a block by what it records: "4, 5, 6, 7"; by document 02 a program's 16 and 17 come "after 6 and
/// before 7", and its run's 7 before them.
fn second_pass(page: &[u8], number: usize, block: &[u8; BLOCK]) -> Result<(), u32> {
    let body = Body::of(block).ok_or(3u32)?;
    if let Some(refusal) = body.number_refusal(&block[NAME_AT..NAME_AT + NAMES]) {
        return Err(refusal);
    }
    if !reference_holds(page, &body) {
        return Err(6);
    }
    if let Some((tints, alternate)) = programs::program_of(&body) {
        judged_program(page, number as u32, tints, alternate)?;
    }
    if !run_or_entries_hold(page, number, &body) {
        return Err(7);
    }
    Ok(())
}

/// "Judging: 1; then blocks upward, 2 before 3; then blocks upward again, 4, 5, 6, 7. The first found is given with its
/// block number." An accepted page gives its count of blocks.
pub fn validate(page: &[u8]) -> Result<usize, (u32, u32)> {
    // 1 is given when "the page's length is not 512 x" 1..128: "refusals: 1, 6, 15 and the writer's 3 read with 128" (2026-09).
    let Some(count) = (1..=MOST_BLOCKS).find(|count| page.len() == BLOCK * count) else {
        return Err((1, 0));
    };
    for (number, block) in blocks(page).iter().enumerate() {
        first_pass(number, block).map_err(|refusal| (refusal, number as u32))?;
    }
    for (number, block) in blocks(page).iter().enumerate() {
        second_pass(page, number, block).map_err(|refusal| (refusal, number as u32))?;
    }
    Ok(count)
}
