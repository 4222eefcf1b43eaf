//! What a case must print: its operation, done by the second implementation, in words.

use super::format::{
    answer_text, dotted, float_text, hex_of, numbers_of, refusal_text, reply_text, Case,
};
use crate::block::{read_block, write_block, Body, Record, BLOCK, BODY, NAME, NAMES};
use crate::cie::{cal_gray, cal_rgb, lab, Answer};
use crate::colour::evaluate;
use crate::gamma::{decode, tenths};
use crate::inks::{find, found_text};
use crate::listing::list;
use crate::numbers::{
    float_of, index, limit, palette_value, read_four, read_two, tint_power, tint_value,
};
use crate::page::validate;
use crate::text::read;
use crate::{recipe, runner};

impl Case {
    /// The line that the program is expected to write for this case, without its newline.
    pub fn output_line(&self) -> String {
        let result = self.result().unwrap_or_else(|| "unknown".to_string());
        format!("{}: {result}", self.label)
    }

    /// The expected result in text; none where the operation does not exist or its arguments do not fit it.
    pub fn result(&self) -> Option<String> {
        let text = match (self.op, self.args.as_slice(), self.bytes.as_deref()) {
            (1, &[v, lo, hi], None) => limit(v, lo, hi).to_string(),
            (2, &[v, hival], None) => index(v, small(hival)?).to_string(),
            (3, &[byte, lo, hi], None) => palette_value(small(byte)?, lo, hi).to_string(),
            (4, &[x, exponent], None) => tint_power(x, small(exponent)?).to_string(),
            (5, &[c0, c1, q], None) => tint_value(c0, c1, q).to_string(),
            (6, &[v], None) => float_text(float_of(v)),
            (7, [], Some(bytes)) => read_two(bytes, 0).to_string(),
            (8, [], Some(bytes)) => read_four(bytes, 0).to_string(),
            (9, &[v], None) => hex_of(&v.to_be_bytes()),
            (10, &[v, gamma], None) => float_text(decode(v, tenths(gamma)?)),
            (11, &[xw, zw, gamma, v], None) => {
                answer_text(&Answer::Xyz(cal_gray(xw, zw, tenths(gamma)?, v)))
            }
            (12, &[g1, g2, g3, m1, m2, m3, m4, m5, m6, m7, m8, m9, a, b, c], None) => {
                let gammas = [tenths(g1)?, tenths(g2)?, tenths(g3)?];
                let matrix = [m1, m2, m3, m4, m5, m6, m7, m8, m9];
                answer_text(&Answer::Xyz(cal_rgb(gammas, matrix, [a, b, c])))
            }
            (13, &[xw, zw, l, a, b], None) => answer_text(&Answer::Xyz(lab(xw, zw, l, a, b))),
            (20, [], Some(block)) => read_text(block),
            (21, args, bytes) => write_text(&record_of(args, bytes.unwrap_or(&[]))?),
            (30, [], Some(page)) => match validate(page) {
                Ok(_) => "accepted".to_string(),
                Err(refusal) => refusal_text(refusal),
            },
            (31, &[number, count, ref components @ ..], Some(page)) => {
                let number = u32::try_from(number).ok()?;
                reply_text(&evaluate(page, number, counted(count, components)?))
            }
            (32, &[number, length], Some(page)) => {
                let number = u32::try_from(number).ok()?;
                recipe_text(page, number, usize::try_from(length).ok()?)
            }
            (33, &[count, ref components @ ..], Some(bytes)) => {
                let words = words_of(bytes)?;
                reply_text(&runner::run(&words, counted(count, components)?))
            }
            (34, [], Some(page)) => list(page).lines().collect::<Vec<_>>().join("; "),
            (35, &[job, house], Some(bytes)) => {
                let (job, rest) = bytes.split_at_checked(usize::try_from(job).ok()?)?;
                let (house, name) = rest.split_at_checked(usize::try_from(house).ok()?)?;
                ink_text(job, house, name)
            }
            (36, &[room, part], Some(text)) if part >= 0 => {
                page_text(text, usize::try_from(room).ok()?)
            }
            _ => return None,
        };
        Some(text)
    }
}

/// A whole number that counts units or picks a byte, where it is one.
fn small(v: i32) -> Option<u8> {
    u8::try_from(v).ok()
}

/// Components that are as many as their count says; none where they are not.
fn counted(count: i32, components: &[i32]) -> Option<&[i32]> {
    (usize::try_from(count) == Ok(components.len())).then_some(components)
}

/// The words that bytes are, four to a word; none where a word is not whole.
pub(super) fn words_of(bytes: &[u8]) -> Option<Vec<i32>> {
    let words = bytes.chunks_exact(4);
    if !words.remainder().is_empty() {
        return None;
    }
    Some(words.map(|word| read_four(word, 0)).collect())
}

/// The record of these numbers, own number and kind first, and bytes; none where they make none.
pub(super) fn record_of(args: &[i32], given: &[u8]) -> Option<Record> {
    let two = |v: i32| u16::try_from(v).ok();
    let &[number, kind, ref numbers @ ..] = args else {
        return None;
    };
    let body = match (kind, numbers) {
        (0, []) => Body::Free,
        (1, &[xw, yw, zw, xb, yb, zb, gamma]) => Body::CalGray {
            white: [xw, yw, zw],
            black: [xb, yb, zb],
            gamma,
        },
        (2, &[xw, yw, zw, xb, yb, zb, g1, g2, g3, ref matrix @ ..]) => Body::CalRgb {
            white: [xw, yw, zw],
            black: [xb, yb, zb],
            gammas: [g1, g2, g3],
            matrix: matrix.try_into().ok()?,
        },
        (3, &[xw, yw, zw, xb, yb, zb, ref range @ ..]) => Body::Lab {
            white: [xw, yw, zw],
            black: [xb, yb, zb],
            range: range.try_into().ok()?,
        },
        (4, &[base, hival]) => Body::Indexed {
            base: two(base)?,
            hival: two(hival)?,
        },
        (5, &[alternate, exponent, length, c00, c01, c02, c03, ref c1 @ ..]) => Body::Separation {
            alternate: two(alternate)?,
            exponent: small(exponent)?,
            name_length: small(length)?,
            c0: [c00, c01, c02, c03],
            c1: c1.try_into().ok()?,
        },
        (6, []) => Body::Palette,
        (7, []) => Body::Program,
        (8, &[alternate, count]) => Body::DeviceN {
            alternate: two(alternate)?,
            count: small(count)?,
        },
        _ => return None,
    };
    let mut bytes = [0; BODY];
    bytes.get_mut(..given.len())?.copy_from_slice(given);
    Some(Record {
        number: two(number)?,
        body,
        bytes,
    })
}

/// What reading a block gives, in words.
fn read_text(block: &[u8]) -> String {
    let record = match read_block(block) {
        Ok(record) => record,
        Err(number) => return format!("refused {number}"),
    };
    let mut text = format!("{} {}", record.number, record.body.kind());
    for v in numbers_of(&record.body) {
        text += &format!(" {v}");
    }
    match record.body {
        Body::Separation { .. } => text + " x" + &dotted(&record.bytes[..NAME]),
        Body::DeviceN { .. } => text + " x" + &dotted(&record.bytes[..NAMES]),
        Body::Palette | Body::Program => text + " x" + &dotted(&record.bytes),
        _ => text,
    }
}

/// What writing a record into 512 bytes AA gives, in words.
fn write_text(record: &Record) -> String {
    let mut lent = [0xaa; BLOCK];
    match write_block(record, &mut lent) {
        Ok(()) => format!("x{}", dotted(&lent)),
        Err(number) if lent == [0xaa; BLOCK] => format!("refused {number} kept"),
        Err(number) => format!("refused {number}"),
    }
}

/// What asking for an ink by its name gives, in words, with the name's own bytes where it is found.
fn ink_text(job: &[u8], house: &[u8], name: &[u8]) -> String {
    let reply = find(job, house, name);
    let text = found_text(job, house, &reply);
    match reply {
        Ok(ink) => format!("{text} x{}", dotted(ink.name)),
        Err(_) => text,
    }
}

/// What reading a text into this many bytes of room, each AA, gives, in words. Into how many parts it is cut changes
/// nothing, nor does asking for its end again.
fn page_text(text: &[u8], room: usize) -> String {
    match read(text, room / BLOCK) {
        Ok(page) => format!("page {} x{} kept", page.len() / BLOCK, dotted(&page)),
        Err((number, at)) => format!("refused {number} at {at} kept"),
    }
}

/// What writing a recipe into this many words, each 7, gives, in words.
fn recipe_text(page: &[u8], number: u32, length: usize) -> String {
    let mut lent = vec![7; length];
    let reply = recipe::write(page, number, &mut lent);
    let mut text = match reply {
        Ok(count) => format!("words {count}"),
        Err(refusal) => refusal_text(refusal),
    };
    let (written, rest) = lent.split_at(reply.unwrap_or(0));
    if rest.iter().all(|word| *word == 7) {
        text.push_str(" kept");
    }
    for word in written {
        text += &format!(" {word}");
    }
    text
}
