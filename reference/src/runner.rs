//! Running a recipe: no page and no other storage.

pub mod flat;

use crate::cie::{cal_gray, cal_rgb, lab, Answer};
use crate::colour::{values_of, Colour, Reply};
use crate::gamma::tenths;
use crate::numbers::{
    float_of, index, index_moves, limit, moves, tint_power, tint_value, ONE, VALUES,
};
use crate::recipe::MOST_WORDS;

/// A recipe that was read: "the input count 1..4, steps, one closing step, nothing more"; "input counts go to 8" (2026-08).
struct Recipe<'a> {
    count: usize,
    steps: Vec<Step<'a>>,
    closing: Closing,
}

/// A step that changes values.
#[derive(Clone, Copy, Debug)]
pub enum Step<'a> {
    /// "1 k lo hi: value k (0..3) limited; lo <= hi." Places of values go to 7.
    Limit {
        /// Which value.
        k: usize,
        /// The lowest.
        lo: i32,
        /// The highest.
        hi: i32,
    },
    /// "2 m h and m(h + 1) entries: value 0 rounded and limited to 0..h as above, the row replaces values 0..m-1.
    /// m 1..4, h 0..255." By 2026-08 "step 2's rows up to 8 wide".
    Rows {
        /// How many values a row replaces.
        m: usize,
        /// The last row's number.
        h: u8,
        /// The entries, row by row.
        entries: &'a [i32],
    },
    /// "3 e m, m C0s, m C1s: the tint step, value 0 first limited to 0..1; the results replace values 0..m-1.
    /// e and m 1..4."
    Tint {
        /// The exponent.
        e: u8,
        /// The results of tint 0.
        c0: &'a [i32],
        /// The results of tint 1.
        c1: &'a [i32],
    },
    /// Document 02's 12: "the count of numbers left (1..4), the count of words that follow, then those". "It limits its
    /// input to 0..1 first; results replace the values from 0." And its 13, "which is step 12 but says, next to its 13, how
    /// many values it takes, 1 to 8, each limited first". A value that it takes and does not replace stays as it was.
    Program {
        /// How many values are taken.
        taken: usize,
        /// How many numbers are left.
        m: usize,
        /// The flat form, which is well-formed.
        words: &'a [i32],
    },
}

/// A closing step: "They read the values as they stand."
#[derive(Clone, Copy, Debug)]
pub enum Closing {
    /// "4 Gray".
    Gray,
    /// "5 RGB".
    Rgb,
    /// "6 CMYK".
    Cmyk,
    /// "7 XW ZW gamma".
    CalGray {
        /// The white point's X.
        xw: i32,
        /// The white point's Z.
        zw: i32,
        /// The gamma in tenths.
        gamma: u8,
    },
    /// "8 three gammas, nine matrix numbers".
    CalRgb {
        /// The gammas in tenths.
        gammas: [u8; 3],
        /// The matrix in the record's order.
        matrix: [i32; 9],
    },
    /// "9 XW ZW (Lab)".
    Lab {
        /// The white point's X.
        xw: i32,
        /// The white point's Z.
        zw: i32,
    },
    /// Document 02's 10: no mark.
    NoMark,
    /// Document 02's 11: every ink.
    EveryInk,
}

/// A word that is to be 1..4; none for any other.
fn one_to_four(word: i32) -> Option<usize> {
    (1..=4).contains(&word).then_some(word as usize)
}

/// A word that is to be a count of values, 1..8; none for any other.
fn one_to_eight(word: i32) -> Option<usize> {
    (1..=VALUES as i32).contains(&word).then_some(word as usize)
}

/// The step that changes values at the head of the words, and the words after it; none where there is none.
pub fn step(words: &[i32]) -> Option<(Step<'_>, &[i32])> {
    match *words {
        [1, k, lo, hi, ref rest @ ..] if lo <= hi => {
            let k = usize::try_from(k).ok().filter(|k| *k < VALUES)?;
            Some((Step::Limit { k, lo, hi }, rest))
        }
        [2, m, h, ref rest @ ..] => {
            let (m, h) = (one_to_eight(m)?, u8::try_from(h).ok()?);
            let (entries, rest) = rest.split_at_checked(m * (usize::from(h) + 1))?;
            Some((Step::Rows { m, h, entries }, rest))
        }
        [3, e, m, ref rest @ ..] => {
            let (e, m) = (one_to_four(e)? as u8, one_to_four(m)?);
            let (c0, rest) = rest.split_at_checked(m)?;
            let (c1, rest) = rest.split_at_checked(m)?;
            Some((Step::Tint { e, c0, c1 }, rest))
        }
        [12, m, n, ref rest @ ..] => program(1, m, n, rest),
        [13, taken, m, n, ref rest @ ..] => program(one_to_eight(taken)?, m, n, rest),
        _ => None,
    }
}

/// A program's step that takes so many values, from behind the words that say what it leaves and how many words follow.
fn program(taken: usize, m: i32, n: i32, rest: &[i32]) -> Option<(Step<'_>, &[i32])> {
    let (m, n) = (one_to_four(m)?, usize::try_from(n).ok()?);
    let (words, rest) = rest.split_at_checked(n)?;
    flat::holds(words, taken, m).then_some((Step::Program { taken, m, words }, rest))
}

/// The closing step that these words are, all of them; none where they are not one. "Gammas as the house limit", by
/// document 02 in tenths: "the runner and the demands take the same gammas"; "words given no bound here may be any."
/// Document 02 too: "the runner gains 10 and 11", which are their own number and no word more.
pub fn closing(words: &[i32]) -> Option<Closing> {
    match *words {
        [4] => Some(Closing::Gray),
        [5] => Some(Closing::Rgb),
        [6] => Some(Closing::Cmyk),
        [7, xw, zw, gamma] => {
            let gamma = tenths(gamma)?;
            Some(Closing::CalGray { xw, zw, gamma })
        }
        [8, g1, g2, g3, ref matrix @ ..] => {
            let gammas = [tenths(g1)?, tenths(g2)?, tenths(g3)?];
            let matrix = matrix.try_into().ok()?;
            Some(Closing::CalRgb { gammas, matrix })
        }
        [9, xw, zw] => Some(Closing::Lab { xw, zw }),
        [10] => Some(Closing::NoMark),
        [11] => Some(Closing::EveryInk),
        _ => None,
    }
}

/// Reads a recipe; none where it is ill-formed. "A recipe longer than 1,045 words is ill-formed"; by document 02 that
/// limit becomes 2,877.
fn read(words: &[i32]) -> Option<Recipe<'_>> {
    if words.len() > MOST_WORDS {
        return None;
    }
    let (count, mut rest) = words.split_first()?;
    let count = one_to_eight(*count)?;
    let mut steps = Vec::new();
    while let Some((step, after)) = step(rest) {
        steps.push(step);
        rest = after;
    }
    let closing = closing(rest)?;
    Some(Recipe {
        count,
        steps,
        closing,
    })
}

/// "Running: 11, 9." Then the steps, on "four values, those not given being 0", by 2026-08 eight. By document 02 a run too
/// carries "one yes or no: some limiting, at any level, moved something".
pub fn run(words: &[i32], colour: &[i32]) -> Reply {
    let Some(recipe) = read(words) else {
        return Err((11, 0));
    };
    if colour.len() != recipe.count {
        return Err((9, 0));
    }
    let mut values = values_of(colour);
    let mut moved = false;
    for step in &recipe.steps {
        moved |= limiting_moves(step, &values);
        take(step, &mut values);
    }
    let answer = close(&recipe.closing, values);
    Ok(Colour { answer, moved })
}

/// Whether the limiting in a step moves something, for the values before it: the limited value of step 1, the rounded
/// index of step 2, the tints of steps 3, 12 and 13; not what "the nearer end in a gamma or in a program's arithmetic"
/// does.
fn limiting_moves(step: &Step<'_>, values: &[i32; VALUES]) -> bool {
    match *step {
        Step::Limit { k, lo, hi } => moves(values[k], lo, hi),
        Step::Rows { h, .. } => index_moves(values[0], h),
        Step::Tint { .. } => moves(values[0], 0, ONE),
        Step::Program { taken, .. } => values[..taken].iter().any(|v| moves(*v, 0, ONE)),
    }
}

/// Takes a step.
fn take(step: &Step<'_>, values: &mut [i32; VALUES]) {
    match *step {
        Step::Limit { k, lo, hi } => values[k] = limit(values[k], lo, hi),
        Step::Rows { m, h, entries } => {
            let row = usize::from(index(values[0], h));
            values[..m].copy_from_slice(&entries[row * m..(row + 1) * m]);
        }
        Step::Tint { e, c0, c1 } => {
            let q = tint_power(limit(values[0], 0, ONE), e);
            for (k, (c0, c1)) in c0.iter().zip(c1).enumerate() {
                values[k] = tint_value(*c0, *c1, q);
            }
        }
        Step::Program { taken, m, words } => {
            let tints: Vec<i32> = values[..taken].iter().map(|v| limit(*v, 0, ONE)).collect();
            let left = flat::run(words, &tints);
            for (value, left) in values.iter_mut().take(m).zip(left) {
                *value = left;
            }
        }
    }
}

/// The answer of a closing step for the values as they stand. Nothing here is a limiting that counts: "not the nearer end
/// in a gamma".
pub fn close(closing: &Closing, values: [i32; VALUES]) -> Answer {
    let [a, b, c, d, ..] = values;
    match *closing {
        Closing::Gray => Answer::Gray(float_of(a)),
        Closing::Rgb => Answer::Rgb([a, b, c].map(float_of)),
        Closing::Cmyk => Answer::Cmyk([a, b, c, d].map(float_of)),
        Closing::CalGray { xw, zw, gamma } => Answer::Xyz(cal_gray(xw, zw, gamma, a)),
        Closing::CalRgb { gammas, matrix } => Answer::Xyz(cal_rgb(gammas, matrix, [a, b, c])),
        Closing::Lab { xw, zw } => Answer::Xyz(lab(xw, zw, a, b, c)),
        Closing::NoMark => Answer::NoMark,
        Closing::EveryInk => Answer::EveryInk(float_of(a)),
    }
}
