//! The fast rival: what the second implementation does, written for speed where the benchmark spends its time.
//!
//! `reference/` is plain and says what document 01 says. A benchmark beside it alone would flatter the proved library,
//! so this one is measured too; nothing else uses it. The tests hold it to the plain one on random input.
//!
//! - `validate`: the check is summed in columns, zeros are sought without an early way out, and a palette or program
//!   block is known to be astray by the end of the last run. Programs are judged and run as the plain one does it.
//! - `run`: a recipe is read in place, with no list of its steps, and roundings keep to 64 bits.
//! - gammas in tenths: the power in floats, and the plain search only where a float does not decide.
//! - `evaluate`: the fast validation, CalGray and CalRGB as in `run`, then the plain colour steps.

mod decode;
mod run;
mod validate;

pub use decode::settled;
pub use run::run;
pub use validate::{sums, validate};

use reference::block::Body;
use reference::cie::Answer;
use reference::colour::{answer, Colour, Reply};
use reference::gamma::tenths;
use reference::numbers::{limit, ONE, VALUES};
use reference::page::{block_at, components};

/// The values that a colour starts with.
fn values_of(colour: &[i32]) -> [i32; VALUES] {
    let mut values = [0; VALUES];
    for (value, component) in values.iter_mut().zip(colour) {
        *value = *component;
    }
    values
}

/// Answers a colour on a page.
pub fn evaluate(page: &[u8], number: u32, colour: &[i32]) -> Reply {
    validate(page)?;
    match components(page, number) {
        None => Err((8, 0)),
        Some(count) if colour.len() != count => Err((9, 0)),
        Some(_) => answered(page, number, values_of(colour)),
    }
}

/// The answer on an accepted page that has the space.
fn answered(page: &[u8], number: u32, values: [i32; VALUES]) -> Reply {
    let p = |gamma| tenths(gamma).unwrap_or(10);
    let limited = values.map(|v| limit(v, 0, ONE));
    let [a, b, c, ..] = limited;
    let xyz = match block_at(page, number as usize).and_then(Body::of) {
        Some(Body::CalGray { white, gamma, .. }) => {
            decode::cal_gray(white[0], white[2], p(gamma), a)
        }
        Some(Body::CalRgb { gammas, matrix, .. }) => {
            decode::cal_rgb(gammas.map(p), matrix, [a, b, c])
        }
        _ => return answer(page, number, values),
    };
    // The values past the components are 0, which 0..1 keeps.
    Ok(Colour {
        answer: Answer::Xyz(xyz),
        moved: limited != values,
    })
}
