//! Running a recipe in one pass over its words.

use super::{decode, values_of};
use reference::cie::Answer;
use reference::colour::{Colour, Reply};
use reference::numbers::{limit, ONE, VALUES};
use reference::recipe::MOST_WORDS;
use reference::runner::{close, closing, flat, step, Closing, Step};

/// Half-up rounding of n / d, for an n that 64 bits hold with room to spare.
fn half_up(n: i64, d: i64) -> i64 {
    let (floor, rest) = (n.div_euclid(d), n.rem_euclid(d));
    floor + i64::from(2 * rest >= d)
}

/// The row that a component picks of 0..h, and whether its whole number had to be moved there.
fn index(v: i32, h: u8) -> (usize, bool) {
    let whole = half_up(i64::from(v), 1_000_000);
    let row = whole.clamp(0, i64::from(h));
    (row as usize, row != whole)
}

/// A tint in 0..1000000 to its exponent.
fn tint_power(x: i64, e: u8) -> i64 {
    (1..e).fold(x, |q, _| half_up(q * x, 1_000_000))
}

/// One component of a tint's result, q in 0..1000000.
fn tint_value(c0: i32, c1: i32, q: i64) -> i32 {
    let (c0, c1) = (i64::from(c0), i64::from(c1));
    (c0 + half_up(q * (c1 - c0), 1_000_000)) as i32
}

/// Takes a step, and says whether its limiting moved something.
fn take(step: Step<'_>, values: &mut [i32; VALUES]) -> bool {
    match step {
        Step::Limit { k, lo, hi } => {
            let before = values[k];
            values[k] = limit(before, lo, hi);
            values[k] != before
        }
        Step::Rows { m, h, entries } => {
            let (row, moved) = index(values[0], h);
            for (value, entry) in values.iter_mut().zip(&entries[row * m..][..m]) {
                *value = *entry;
            }
            moved
        }
        Step::Tint { e, c0, c1 } => {
            let before = values[0];
            let tint = limit(before, 0, ONE);
            let q = tint_power(i64::from(tint), e);
            for (value, (c0, c1)) in values.iter_mut().zip(c0.iter().zip(c1)) {
                *value = tint_value(*c0, *c1, q);
            }
            tint != before
        }
        Step::Program { taken, m, words } => {
            let tints = values.map(|v| limit(v, 0, ONE));
            let moved = tints[..taken] != values[..taken];
            let left = flat::run(words, &tints[..taken]);
            for (value, left) in values.iter_mut().take(m).zip(left) {
                *value = left;
            }
            moved
        }
    }
}

/// The answer of a closing step.
fn closed(closing: &Closing, values: [i32; VALUES]) -> Answer {
    let [a, b, c, ..] = values;
    match *closing {
        Closing::CalGray { xw, zw, gamma } => Answer::Xyz(decode::cal_gray(xw, zw, gamma, a)),
        Closing::CalRgb { gammas, matrix } => {
            Answer::Xyz(decode::cal_rgb(gammas, matrix, [a, b, c]))
        }
        _ => close(closing, values),
    }
}

/// Runs a recipe on a colour. Each step is taken as soon as it is read: nothing comes of it should a later word be
/// ill-formed or the count of components wrong.
pub fn run(words: &[i32], colour: &[i32]) -> Reply {
    let [count @ 1..=8, steps @ ..] = words else {
        return Err((11, 0));
    };
    if words.len() > MOST_WORDS {
        return Err((11, 0));
    }
    let mut values = values_of(colour);
    let mut moved = false;
    let mut left = steps;
    while let Some((step, rest)) = step(left) {
        moved |= take(step, &mut values);
        left = rest;
    }
    let Some(closing) = closing(left) else {
        return Err((11, 0));
    };
    if colour.len() != *count as usize {
        return Err((9, 0));
    }
    let answer = closed(&closing, values);
    Ok(Colour { answer, moved })
}
