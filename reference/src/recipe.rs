//! Writing a space's recipe: document 01's "The recipe", the words that answer its colours without the page.

use crate::block::Body;
use crate::numbers::palette_value;
use crate::page::{
    body_at, components, family, leaves_no_mark, name_at, palette_byte, program_at, ranges,
    validate, Family,
};
use crate::program::words_of;

/// "A recipe longer than 1,045 words is ill-formed"; by document 02 "the limit of 1,045 words .. becomes 1,084", and then
/// "the limit of 1,084 words becomes 2,877": the count, a step 2 of 256 rows of eight, a step 13 of 796 words and CalRGB's
/// own 25.
pub const MOST_WORDS: usize = 1 + (3 + 8 * 256) + (4 + 796) + 25;

/// The recipe of a space as its own run of words: "A recipe: judge, 8", and "its count, limits in component order, the
/// closing step. Indexed puts step 2 and Separation step 3 in place of their limits, before those of the inner space."
pub fn recipe_of(page: &[u8], number: u32) -> Result<Vec<i32>, (u32, u32)> {
    validate(page)?;
    let Some(count) = components(page, number) else {
        return Err((8, 0));
    };
    let mut words = vec![count as i32];
    words.extend(steps(page, number));
    Ok(words)
}

/// "A recipe: judge, 8, 10." "A refusal alters no lent ... word. A success alters ... the recipe's words and none
/// after; a written recipe's reply is its count of words."
pub fn write(page: &[u8], number: u32, words: &mut [i32]) -> Result<usize, (u32, u32)> {
    let recipe = recipe_of(page, number)?;
    let Some(room) = words.get_mut(..recipe.len()) else {
        return Err((10, 0));
    };
    room.copy_from_slice(&recipe);
    Ok(recipe.len())
}

/// A space's steps, closing step and all.
fn steps(page: &[u8], number: u32) -> Vec<i32> {
    // Document 02: "None is the words 1, 10; All is 1, the limit, 11"; of a DeviceN whose names are all None "the recipe
    // its count and 10".
    if leaves_no_mark(page, number) {
        return vec![10];
    }
    if name_at(page, number) == Some(b"All") {
        return [limits(page, number), vec![11]].concat();
    }
    match body_at(page, number) {
        Some(Body::Indexed { base, hival }) => {
            let base = u32::from(base);
            [rows(page, number, base, hival), steps(page, base)].concat()
        }
        Some(Body::Separation {
            alternate,
            exponent: 0,
            ..
        }) => {
            // "That step is 12, the count of numbers left (1..4), the count of words that follow, then those."
            let program = program(page, number, &[12], alternate);
            [program, steps(page, u32::from(alternate))].concat()
        }
        Some(Body::DeviceN { alternate, count }) => {
            // "A DeviceN's program is step 13, which is step 12 but says, next to its 13, how many values it takes".
            let program = program(page, number, &[13, i32::from(count)], alternate);
            [program, steps(page, u32::from(alternate))].concat()
        }
        Some(Body::Separation {
            alternate,
            exponent,
            c0,
            c1,
            ..
        }) => {
            let alternate = u32::from(alternate);
            let m = components(page, alternate).unwrap_or(0);
            // "3 e m, m C0s, m C1s: the tint step".
            let tint = [&[3, i32::from(exponent), m as i32], &c0[..m], &c1[..m]].concat();
            [tint, steps(page, alternate)].concat()
        }
        _ => [limits(page, number), closing(page, number)].concat(),
    }
}

/// A program's step, which begins with these words.
fn program(page: &[u8], record: u32, head: &[i32], alternate: u16) -> Vec<i32> {
    let m = components(page, u32::from(alternate)).unwrap_or(0);
    let words = program_at(page, record).map_or(Vec::new(), |program| words_of(&program));
    [head, &[m as i32, words.len() as i32], &words].concat()
}

/// "2 m h and m(h + 1) entries": each palette byte's value in the base's range, row by row.
fn rows(page: &[u8], indexed: u32, base: u32, hival: u16) -> Vec<i32> {
    let m = components(page, base).unwrap_or(0);
    let ranges = ranges(page, base);
    let mut words = vec![2, m as i32, i32::from(hival)];
    for row in 0..=usize::from(hival) {
        for (k, (lo, hi)) in ranges.iter().enumerate().take(m) {
            let byte = palette_byte(page, indexed as usize, row * m + k);
            words.push(palette_value(byte, *lo, *hi));
        }
    }
    words
}

/// "1 k lo hi: value k .. limited", for each component in order.
fn limits(page: &[u8], number: u32) -> Vec<i32> {
    let count = components(page, number).unwrap_or(0);
    let ranges = (0..).zip(ranges(page, number)).take(count);
    ranges.flat_map(|(k, (lo, hi))| [1, k, lo, hi]).collect()
}

/// "Closing: 4 Gray, 5 RGB, 6 CMYK; 7 XW ZW gamma; 8 three gammas, nine matrix numbers; 9 XW ZW (Lab)."
fn closing(page: &[u8], number: u32) -> Vec<i32> {
    match (family(page, number), body_at(page, number)) {
        (Some(Family::DeviceGray), _) => vec![4],
        (Some(Family::DeviceRgb), _) => vec![5],
        (Some(Family::DeviceCmyk), _) => vec![6],
        (_, Some(Body::CalGray { white, gamma, .. })) => vec![7, white[0], white[2], gamma],
        (_, Some(Body::CalRgb { gammas, matrix, .. })) => [&[8], &gammas[..], &matrix[..]].concat(),
        (_, Some(Body::Lab { white, .. })) => vec![9, white[0], white[2]],
        _ => Vec::new(),
    }
}
