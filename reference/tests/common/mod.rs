//! Records, pages and replies that several tests use.
#![allow(dead_code, unused_imports)]

use reference::block::{write_block, Body, Record, BLOCK};
use reference::cie::Answer;
use reference::colour::{Colour, Reply};
pub use reference::records::{palette, record, separation, WHITE};

/// The paper's CalGray: white 0.9505 1 1.089, black 0, and this gamma in millionths.
pub fn cal_gray(gamma: i32) -> Body {
    Body::CalGray {
        white: WHITE,
        black: [0; 3],
        gamma,
    }
}

/// A CalRGB with these gammas and nine different matrix numbers.
pub fn cal_rgb(gammas: [i32; 3]) -> Body {
    Body::CalRgb {
        white: WHITE,
        black: [0; 3],
        gammas,
        matrix: [11, 12, 13, 21, 22, 23, 31, 32, 33],
    }
}

/// A Lab with this range.
pub fn lab(range: [i32; 4]) -> Body {
    Body::Lab {
        white: WHITE,
        black: [0; 3],
        range,
    }
}

/// A Lab with the clause's own range, -100..100.
pub fn usual_lab() -> Body {
    lab([-100_000_000, 100_000_000, -100_000_000, 100_000_000])
}

/// The reply with this answer, nothing moved.
pub fn kept(answer: Answer) -> Reply {
    let moved = false;
    Ok(Colour { answer, moved })
}

/// The reply with this answer, something moved.
pub fn moved(answer: Answer) -> Reply {
    let moved = true;
    Ok(Colour { answer, moved })
}

/// The block of a record that is accepted by itself.
pub fn block(record: &Record) -> [u8; BLOCK] {
    let mut block = [0xaa; BLOCK];
    write_block(record, &mut block).unwrap();
    block
}

/// A page of records that are accepted by themselves.
pub fn page(records: &[Record]) -> Vec<u8> {
    records.iter().flat_map(block).collect()
}

/// A page of blocks that are changed by hand and then get the right check again.
pub fn page_with(records: &[Record], number: usize, change: impl Fn(&mut [u8])) -> Vec<u8> {
    let mut page = page(records);
    change(&mut page[number * BLOCK..][..BLOCK]);
    reference::generate::repair(&mut page, number);
    page
}
