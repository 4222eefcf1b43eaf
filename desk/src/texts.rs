//! A designer's text, read into a page by the library.

use crate::args::Words;
use crate::files::{self, Contents};
use crate::pages::BLOCK;
use crate::pasted;
use crate::refusals::{Stop, Told};
use crate::streams::Desk;
use sktelbaan::{TextReader, Unread, PAGE_BYTES};

/// How many bytes of a text are read: so many are kept, to show the line of a refusal.
const MOST_BYTES: usize = 1 << 26;

/// The page of a text.
pub(crate) fn page_of(text: &[u8]) -> Result<Vec<u8>, Unread> {
    let mut reader = TextReader::new(PAGE_BYTES);
    reader.read(text);
    reader.end()
}

/// A refusal of a text, with its line, and with what stands there.
pub(crate) fn refused(text: &Contents, unread: &Unread) -> Told {
    let at = unread.at as usize;
    let mut told = Told::refused(unread.number, &text.name).in_text(&text.bytes, at);
    told.at = Some(u64::from(unread.at));
    told.with_notes(pasted::notes(&text.bytes, at))
}

/// `read TEXT`: a designer's text, as a page.
pub(crate) fn read(desk: &mut Desk<'_>, words: &Words, usage: &str) -> Result<u8, Stop> {
    let arguments = words.expect(1, 1, usage)?;
    let text = files::read_whole(desk, &arguments[0], MOST_BYTES)?;
    let page = page_of(&text.bytes).map_err(|unread| refused(&text, &unread))?;
    desk.put_binary(&page, "a page")?;
    desk.wrote(page.len() / BLOCK, "block", "blocks");
    Ok(0)
}
