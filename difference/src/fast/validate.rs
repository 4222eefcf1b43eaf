//! Validation of a page, many bytes in one go.

use reference::block::{packed_names, Body, BLOCK, BODY, MOST_BLOCKS, NAME};
use reference::numbers::read_two;
use reference::page::{block_at, family, Family, MOST_PROGRAM_BLOCKS};
use reference::program::judge;

/// Where a block's check begins.
const CHECK_AT: usize = 508;
/// How many columns the check sums are taken in.
const COLUMNS: usize = 32;

/// The two check sums that a block's first 508 bytes call for, each modulo 65535: of b(i), and of (508 - i) x b(i).
pub fn sums(block: &[u8; BLOCK]) -> (u16, u16) {
    // The block is read as 16 rows of 32 bytes. Each column keeps its sum so far, and the total of
    // those sums before each row: with a byte of row r counted 15 - r times in it, at most 255 * 120.
    let mut column = [0u16; COLUMNS];
    let mut before = [0u16; COLUMNS];
    for row in block.chunks_exact(COLUMNS) {
        for ((byte, column), before) in row.iter().zip(&mut column).zip(&mut before) {
            *before += *column;
            *column += u16::from(*byte);
        }
    }
    // With i = 32 r + j, the weight 512 - i is 32 (15 - r) + (32 - j).
    let mut plain: u32 = 0;
    let mut weighted: u32 = 0;
    for (j, (column, before)) in (0u32..).zip(column.iter().zip(&before)) {
        plain += u32::from(*column);
        weighted += 32 * u32::from(*before) + (32 - j) * u32::from(*column);
    }
    // The check's own four bytes do not count, and every other weight is 508 - i, less by 4.
    for (weight, byte) in (1..=4).rev().zip(&block[CHECK_AT..]) {
        plain -= u32::from(*byte);
        weighted -= weight * u32::from(*byte);
    }
    weighted -= 4 * plain;
    ((plain % 65535) as u16, (weighted % 65535) as u16)
}

/// Whether all of these bytes are zero.
fn all_zero(bytes: &[u8]) -> bool {
    // No early way out, so that many bytes are looked at in one go.
    bytes.iter().fold(0, |seen, byte| seen | byte) == 0
}

/// Whether 128 name bytes hold a name of this length.
fn name_holds(name: &[u8], length: u8) -> bool {
    let length = usize::from(length);
    if length == 0 || length >= NAME {
        return false;
    }
    let (used, spare) = name.split_at(length);
    !used.contains(&0) && all_zero(spare)
}

/// Whether a block's form is right, its own number aside.
fn form_holds(block: &[u8; BLOCK]) -> bool {
    if block[1] != 0 {
        return false;
    }
    let named_to = match block[0] {
        0 => 4,
        1 => 32,
        2 => 76,
        3 => 44,
        4 => 8,
        5 if !name_holds(&block[8..8 + NAME], block[7]) => return false,
        5 => 168,
        6 | 7 => CHECK_AT,
        8 => return block[7] == 0 && packed_names(&block[8..CHECK_AT], block[6]).is_some(),
        _ => return false,
    };
    all_zero(&block[named_to..CHECK_AT])
}

/// How many blocks straight after an Indexed block hold its palette; none where the run is short or its spare bytes
/// are not zero.
fn palette_run(page: &[u8], indexed: usize, bytes: usize) -> Option<usize> {
    let run = bytes.div_ceil(BODY);
    let mut left = bytes;
    for step in 1..=run {
        let block = block_at(page, indexed + step)?;
        let used = left.min(BODY);
        if block[0] != 6 || !all_zero(&block[4 + used..CHECK_AT]) {
            return None;
        }
        left -= used;
    }
    Some(run)
}

/// How many blocks straight after a record hold its program, which takes and leaves so many numbers; 7 where there is none,
/// where one but the last has a zero, or where a byte but zero follows the first zero; then 16 and 17.
fn program_run(page: &[u8], record: usize, taken: usize, left: usize) -> Result<usize, u32> {
    let mut text = Vec::new();
    let mut run = 0;
    let mut ended = false;
    while run < MOST_PROGRAM_BLOCKS {
        let Some(block) = block_at(page, record + run + 1).filter(|block| block[0] == 7) else {
            break;
        };
        let body = &block[4..CHECK_AT];
        let used = body.iter().position(|byte| *byte == 0).unwrap_or(BODY);
        // No block is all zeros, so none may follow the one that ends the text.
        if ended || used == 0 || !all_zero(&body[used..]) {
            return Err(7);
        }
        ended = used < BODY;
        text.extend_from_slice(&body[..used]);
        run += 1;
    }
    if run == 0 {
        return Err(7);
    }
    judge(&text, taken, left).map(|_| run)
}

/// Refusals 4, 5, 6, 16, 17 and 7 of one block on its page. `run_end` is the first block past every run found so far, of
/// palette blocks or of program blocks, and moves on with each record that has one: the blocks of a run are all of its kind.
fn rules(page: &[u8], at: usize, block: &[u8; BLOCK], run_end: &mut usize) -> Result<(), u32> {
    let Some(body) = Body::of(block) else {
        return Err(3);
    };
    if let Some(number) = body.number_refusal(&block[8..CHECK_AT]) {
        return Err(number);
    }
    match body {
        Body::Indexed { base, hival } => {
            let base = match family(page, u32::from(base)) {
                None | Some(Family::Indexed) => return Err(6),
                Some(base) => base,
            };
            let bytes = base.components() * (usize::from(hival) + 1);
            match palette_run(page, at, bytes) {
                Some(run) => *run_end = at + 1 + run,
                None => return Err(7),
            }
        }
        Body::Separation {
            alternate,
            exponent,
            c0,
            c1,
            ..
        } => {
            let alternate = match family(page, u32::from(alternate)) {
                None | Some(Family::Indexed | Family::Separation | Family::DeviceN(_)) => {
                    return Err(6)
                }
                Some(alternate) => alternate,
            };
            let mut past = alternate.components();
            if exponent == 0 {
                *run_end = at + 1 + program_run(page, at, 1, past)?;
                past = 0;
            }
            if c0[past..].iter().chain(&c1[past..]).any(|v| *v != 0) {
                return Err(7);
            }
        }
        Body::DeviceN { alternate, count } => {
            let alternate = match family(page, u32::from(alternate)) {
                None | Some(Family::Indexed | Family::Separation | Family::DeviceN(_)) => {
                    return Err(6)
                }
                Some(alternate) => alternate,
            };
            let taken = usize::from(count);
            *run_end = at + 1 + program_run(page, at, taken, alternate.components())?;
        }
        Body::Palette | Body::Program if at >= *run_end => return Err(7),
        _ => {}
    }
    Ok(())
}

/// Judges a page: its count of blocks, or the first refusal found and its block.
pub fn validate(page: &[u8]) -> Result<usize, (u32, u32)> {
    let (blocks, rest) = page.as_chunks::<BLOCK>();
    if !rest.is_empty() || !(1..=MOST_BLOCKS).contains(&blocks.len()) {
        return Err((1, 0));
    }
    for (number, block) in (0u16..).zip(blocks) {
        if (read_two(block, CHECK_AT), read_two(block, CHECK_AT + 2)) != sums(block) {
            return Err((2, u32::from(number)));
        }
        if read_two(block, 2) != number || !form_holds(block) {
            return Err((3, u32::from(number)));
        }
    }
    let mut run_end = 0;
    for (at, block) in blocks.iter().enumerate() {
        if let Err(number) = rules(page, at, block, &mut run_end) {
            return Err((number, at as u32));
        }
    }
    Ok(blocks.len())
}
