//! Answering a colour on a page: document 01's "Colour steps", and document 02's None and All, programs, and what is
//! pulled in.

use crate::block::Body;
use crate::cie::{cal_gray, cal_rgb, lab, Answer};
use crate::gamma::tenths;
use crate::numbers::{
    float_of, index, index_moves, limit, moves, palette_value, tint_power, tint_value, ONE, VALUES,
};
use crate::page::{
    body_at, components, family, leaves_no_mark, name_at, palette_byte, program_at, ranges,
    validate, Family,
};
use crate::program::results;

/// A colour's answer, with document 02's "one yes or no: some limiting, at any level, moved something".
#[derive(Clone, Copy, Debug, PartialEq, Eq)]
pub struct Colour {
    /// The answer.
    pub answer: Answer,
    /// Whether some limiting moved something.
    pub moved: bool,
}

impl Colour {
    /// The same colour, where a limiting before it did or did not move something.
    fn after(self, moved: bool) -> Colour {
        Colour {
            moved: moved || self.moved,
            ..self
        }
    }
}

/// What comes back for a colour: its answer and whether something was moved, or a refusal's number in the paper's table
/// and its block (0 where none is meant), which say nothing of moving.
pub type Reply = Result<Colour, (u32, u32)>;

/// The values that a colour starts with, those not given being 0.
pub(crate) fn values_of(colour: &[i32]) -> [i32; VALUES] {
    std::array::from_fn(|k| colour.get(k).copied().unwrap_or(0))
}

/// "A colour: judge, 8, 9."
pub fn evaluate(page: &[u8], number: u32, colour: &[i32]) -> Reply {
    validate(page)?;
    let Some(count) = components(page, number) else {
        return Err((8, 0));
    };
    if colour.len() != count {
        return Err((9, 0));
    }
    answer(page, number, values_of(colour))
}

/// The colour steps in the space that a number asks for, on an accepted page that has it: `evaluate` sees to both. "So
/// nesting falls at each step": each call of itself is for the inner space, and the rank Indexed, Separation or DeviceN,
/// plain falls.
pub fn answer(page: &[u8], number: u32, values: [i32; VALUES]) -> Reply {
    // "A Separation named exactly None now answers "no mark"", and "limits nothing"; so does a DeviceN "if all are None".
    if leaves_no_mark(page, number) {
        return Ok(Colour {
            answer: Answer::NoMark,
            moved: false,
        });
    }
    let first = values[0];
    match (body_at(page, number), name_at(page, number)) {
        (Some(Body::Indexed { base, hival }), _) => {
            let (base, hival) = (u32::from(base), hival.min(255) as u8);
            let row = row_of(page, number, base, index(first, hival));
            let inner = answer(page, base, row)?;
            Ok(inner.after(index_moves(first, hival)))
        }
        // "One named All answers "every ink" with the limited tint's float."
        (_, Some(b"All")) => Ok(Colour {
            answer: Answer::EveryInk(float_of(limit(first, 0, ONE))),
            moved: moves(first, 0, ONE),
        }),
        (Some(body @ Body::Separation { alternate, .. }), _) => {
            let tint = limit(first, 0, ONE);
            let values = match body {
                Body::Separation { exponent: 0, .. } => calculated(page, number, &[tint]),
                _ => tinted(&body, tint),
            };
            let inner = answer(page, u32::from(alternate), values)?;
            Ok(inner.after(moves(first, 0, ONE)))
        }
        // "A calculator program taking all tints, the first deepest", each limited first.
        (Some(Body::DeviceN { alternate, count }), _) => {
            let tints = &values[..usize::from(count).min(VALUES)];
            let limited: Vec<i32> = tints.iter().map(|tint| limit(*tint, 0, ONE)).collect();
            let values = calculated(page, number, &limited);
            let inner = answer(page, u32::from(alternate), values)?;
            Ok(inner.after(limited != tints))
        }
        _ => plain(page, number, values),
    }
}

/// The colour steps in a space that has no inner one.
fn plain(page: &[u8], number: u32, values: [i32; VALUES]) -> Reply {
    let ([a, b, c, d, ..], moved) = limited(page, number, values);
    let answer = match (family(page, number), body_at(page, number)) {
        // "Device. The float of each component."
        (Some(Family::DeviceGray), _) => Answer::Gray(float_of(a)),
        (Some(Family::DeviceRgb), _) => Answer::Rgb([a, b, c].map(float_of)),
        (Some(Family::DeviceCmyk), _) => Answer::Cmyk([a, b, c, d].map(float_of)),
        (_, Some(Body::CalGray { white, gamma, .. })) => {
            let [xw, _, zw] = white;
            Answer::Xyz(cal_gray(xw, zw, carried(gamma), a))
        }
        (_, Some(Body::CalRgb { gammas, matrix, .. })) => {
            Answer::Xyz(cal_rgb(gammas.map(carried), matrix, [a, b, c]))
        }
        (_, Some(Body::Lab { white, .. })) => {
            let [xw, _, zw] = white;
            Answer::Xyz(lab(xw, zw, a, b, c))
        }
        _ => return Err((8, 0)),
    };
    Ok(Colour { answer, moved })
}

/// "Every component is first taken to the nearest number in range", and whether that moved one.
fn limited(page: &[u8], number: u32, values: [i32; VALUES]) -> ([i32; VALUES], bool) {
    let count = components(page, number).unwrap_or(0);
    let ranges = ranges(page, number);
    let limited = std::array::from_fn(|k| limit(values[k], ranges[k].0, ranges[k].1));
    let moved = (0..count).any(|k| moves(values[k], ranges[k].0, ranges[k].1));
    (limited, moved)
}

/// The count of tenths of a gamma, which an accepted page's gamma has.
fn carried(gamma: i32) -> u8 {
    tenths(gamma).unwrap_or(10)
}

/// The components that a row of an Indexed space's palette gives: "The result is a colour of the base."
fn row_of(page: &[u8], indexed: u32, base: u32, row: u8) -> [i32; VALUES] {
    let m = components(page, base).unwrap_or(0);
    let ranges = ranges(page, base);
    let mut colour = [0; VALUES];
    for k in 0..m {
        let byte = palette_byte(page, indexed as usize, usize::from(row) * m + k);
        colour[k] = palette_value(byte, ranges[k].0, ranges[k].1);
    }
    colour
}

/// The alternate components that a tint gives. Entries past the alternate's count are zero on an accepted page, and
/// so are their values.
fn tinted(separation: &Body, tint: i32) -> [i32; VALUES] {
    let Body::Separation {
        exponent, c0, c1, ..
    } = separation
    else {
        return [0; VALUES];
    };
    let q = tint_power(tint, *exponent);
    let made: [i32; 4] = std::array::from_fn(|k| tint_value(c0[k], c1[k], q));
    values_of(&made)
}

/// The alternate components that a program makes of limited tints: it "leaves the alternate's count of numbers, the first
/// deepest".
fn calculated(page: &[u8], record: u32, tints: &[i32]) -> [i32; VALUES] {
    let left = program_at(page, record).and_then(|program| results(&program, tints));
    values_of(&left.unwrap_or_default())
}
