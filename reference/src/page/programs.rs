//! Programs on a page: "calculator text in one to four blocks of new kind 7 straight after the record, up to the first
//! zero or the run's end, then zeros only, no block all zeros".

use super::{block_at, body_at, components};
use crate::block::{Body, BODY, BODY_AT};
use crate::program::tokens::text_of;
use crate::program::{judge, Program};

/// The most blocks that a program's text takes.
pub const MOST_PROGRAM_BLOCKS: usize = 4;

/// The text in a block of kind 7; none for any other.
fn text_block(page: &[u8], number: usize) -> Option<&[u8]> {
    let block = block_at(page, number).filter(|block| block[0] == 7)?;
    block.get(BODY_AT..BODY_AT + BODY)
}

/// The blocks of kind 7 straight after a record, four of them at most: "a fifth is stray".
fn run_of(page: &[u8], record: usize) -> Vec<&[u8]> {
    (record + 1..=record + MOST_PROGRAM_BLOCKS)
        .map_while(|number| text_block(page, number))
        .collect()
}

/// The text of the run after a record; none where the run is missing or ill filled.
pub fn program_text(page: &[u8], record: u32) -> Option<Vec<u8>> {
    let run = run_of(page, record as usize);
    let bytes = run.concat();
    let text = text_of(&bytes);
    let zeros_only = bytes[text.len()..].iter().all(|byte| *byte == 0);
    let none_empty = run.iter().all(|block| block.iter().any(|byte| *byte != 0));
    (!run.is_empty() && zeros_only && none_empty).then(|| text.to_vec())
}

/// How many tints the program of a record takes, and the record's alternate; none for a record that has no program. A
/// Separation has one where its exponent is 0, a DeviceN always, "taking all tints".
pub fn program_of(body: &Body) -> Option<(usize, u16)> {
    match *body {
        Body::Separation {
            alternate,
            exponent: 0,
            ..
        } => Some((1, alternate)),
        Body::DeviceN { alternate, count } => Some((usize::from(count), alternate)),
        _ => None,
    }
}

/// The program after a record that has so many tints and this alternate. "16 .., 17 .., in this order after 6 and before
/// 7; program blocks .. ill filled or missing (no 16 or 17 then) are 7, a run's fault being its record's".
pub fn judged_program(
    page: &[u8],
    record: u32,
    tints: usize,
    alternate: u16,
) -> Result<Program, u32> {
    let text = program_text(page, record).ok_or(7u32)?;
    let left = components(page, u32::from(alternate)).unwrap_or(0);
    judge(&text, tints, left)
}

/// The program of the Separation or DeviceN that a number asks for; none where there is none, or none that is accepted.
pub fn program_at(page: &[u8], number: u32) -> Option<Program> {
    let (tints, alternate) = program_of(&body_at(page, number)?)?;
    judged_program(page, number, tints, alternate).ok()
}

/// Whether a block of kind 7 is in the run of a record before it that has a program; else it is stray.
pub(super) fn in_a_program_run(page: &[u8], number: usize) -> bool {
    let has_run = |record: usize| {
        let body = body_at(page, record as u32);
        body.is_some_and(|body| program_of(&body).is_some())
    };
    (0..number).any(|record| has_run(record) && number <= record + run_of(page, record).len())
}
