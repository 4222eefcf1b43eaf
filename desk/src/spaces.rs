//! A space as the command line asks for it: a number, a device space's name, or an ink's.

use crate::inks;
use crate::layout::{self, DEVICES};
use crate::names;
use crate::pages::Page;
use crate::refusals::Stop;
use crate::streams::Desk;
use std::ffi::OsStr;

/// A space that was asked for, and the page that has it.
pub(crate) struct Found {
    pub page: Page,
    pub number: u32,
}

impl Found {
    /// The space as it is named in what is told.
    pub fn shown(&self) -> String {
        format!("space {}", layout::reference(self.number))
    }
}

/// The number that a word asks for by itself.
fn number_of(word: &str) -> Option<u32> {
    let named = |device: &&(u32, &str, &str)| word == device.1 || word == device.2;
    match DEVICES.iter().find(named) {
        Some(device) => Some(device.0),
        None if word.bytes().all(|b| b.is_ascii_digit()) => word.parse().ok(),
        None => None,
    }
}

/// Finds a space on a page; an ink on the house page next, where there is one. The page is validated by what is asked of it next.
pub(crate) fn find(
    desk: &mut Desk<'_>,
    file: &OsStr,
    space: &OsStr,
    house: Option<&OsStr>,
) -> Result<Found, Stop> {
    if let Some(name) = space.as_encoded_bytes().strip_prefix(b"/") {
        let name = names::argument(name)?;
        return inks::find(desk, &name, file, house);
    }
    let word = space.to_string_lossy();
    let Some(number) = number_of(&word) else {
        let ways = "a block's number, gray, rgb, cmyk, or /NAME of an ink";
        return Err(Stop::wrong(format!("{word}: a space is {ways}")));
    };
    let page = Page::read(desk, file)?;
    Ok(Found { page, number })
}
