//! Single blocks, and pages of free ones.

use crate::args::Words;
use crate::files;
use crate::notes;
use crate::numbers;
use crate::pages::BLOCK;
use crate::records::{self, Passed};
use crate::refusals::{Place, Stop, Told};
use crate::streams::Desk;
use sktelbaan::{Body, Record, Refusal, MOST_BLOCKS};
use std::ffi::OsStr;

/// How many bytes of a record's text are read.
const MOST_BYTES: usize = 1 << 24;

/// A count or a number that is a word of the command line.
fn count_of(word: &OsStr) -> Result<u32, Stop> {
    let number = numbers::whole(word.as_encoded_bytes());
    number.and_then(|v| u32::try_from(v).ok()).ok_or_else(|| {
        let word = word.to_string_lossy();
        Stop::wrong(format!("{word}: not a whole number from 0 on"))
    })
}

/// `block PAGE NUMBER`: the record of a block as text. `block TEXT`: the block of such a text.
pub(crate) fn block(desk: &mut Desk<'_>, words: &Words, usage: &str) -> Result<u8, Stop> {
    match words.expect(1, 2, usage)? {
        [page, number] => show(desk, page, count_of(number)?),
        [text] => write(desk, text),
        _ => Ok(0),
    }
}

/// The record of one block, by itself: what else the page has is not looked at.
fn show(desk: &mut Desk<'_>, file: &OsStr, number: u32) -> Result<u8, Stop> {
    let from = (number as usize).saturating_mul(BLOCK);
    let most = from.saturating_add(BLOCK).min(MOST_BYTES);
    let contents = files::read_up_to(desk, file, most)?;
    let bytes = contents.bytes.get(from..).unwrap_or_default();
    let block = &bytes[..bytes.len().min(BLOCK)];
    let (numbers, bytes) = sktelbaan::read_numbers(block).map_err(|refusal| {
        let told = Told::refused(refusal.number, &contents.name);
        told.at_place(Place::Block(number))
            .with_notes(notes::of_one(block, refusal.number))
    })?;
    let record = Passed { numbers, bytes };
    if desk.json {
        desk.say(&records::object_of(&record).line())?;
    } else {
        desk.say(&records::text_of(&record))?;
    }
    Ok(0)
}

/// The blocks of a record's text.
fn write(desk: &mut Desk<'_>, file: &OsStr) -> Result<u8, Stop> {
    let contents = files::read_whole(desk, file, MOST_BYTES)?;
    let mut blocks = Vec::new();
    for Passed { numbers, bytes } in records::read(&contents)? {
        let block = sktelbaan::write_numbers(&numbers, &bytes)
            .map_err(|refusal| Told::refused(refusal.number, &contents.name))?;
        blocks.extend(block);
    }
    desk.put_binary(&blocks, "a block")?;
    desk.wrote(blocks.len() / BLOCK, "block", "blocks");
    Ok(0)
}

/// `new BLOCKS`: a page of free blocks, each written by the library.
pub(crate) fn new(desk: &mut Desk<'_>, words: &Words, usage: &str) -> Result<u8, Stop> {
    let word = &words.expect(1, 1, usage)?[0];
    let count = (count_of(word)? as usize).min(MOST_BLOCKS + 1);
    let file = format!("a page of {} blocks", word.to_string_lossy());
    // The length comes first, as on every page.
    let length = sktelbaan::validate(&vec![0; count * BLOCK]);
    if let Err(refusal @ Refusal { number: 1, .. }) = length {
        return Err(Told::refused(refusal.number, &file).into());
    }
    let mut page = Vec::new();
    for number in 0..count {
        let record = Record {
            number: number as u16,
            body: Body::Free,
            bytes: [0; 504],
        };
        let block = sktelbaan::write_block(&record)
            .map_err(|refusal| Told::refused(refusal.number, &file))?;
        page.extend(block);
    }
    desk.put_binary(&page, "a page")?;
    desk.wrote(count, "block", "blocks");
    Ok(0)
}
