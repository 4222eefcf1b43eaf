//! Inks by their names, of the job's page and the house page.

use crate::args::Words;
use crate::json::Object;
use crate::names;
use crate::pages::{ink_name, Page};
use crate::refusals::{Stop, Told};
use crate::spaces::Found;
use crate::streams::Desk;
use sktelbaan::{InkPage, InkRefusal};
use std::ffi::{OsStr, OsString};

/// Where an ink was found.
struct Place {
    page: InkPage,
    block: u32,
    /// How many bytes of the page stand before its name.
    byte: usize,
}

/// The two pages that are asked: without a house page the job's alone, which is then lent as both.
struct Pages {
    job: Page,
    house: Option<Page>,
}

impl Pages {
    fn read(desk: &mut Desk<'_>, job: &OsStr, house: Option<&OsStr>) -> Result<Pages, Stop> {
        let job = Page::read(desk, job)?;
        let house = house.map(|file| Page::read(desk, file)).transpose()?;
        Ok(Pages { job, house })
    }

    /// Asks the library for an ink.
    fn ask(&self, name: &[u8]) -> Result<Place, Stop> {
        let house = self.house.as_ref().unwrap_or(&self.job);
        let ink = sktelbaan::find_ink(&self.job.bytes, &house.bytes, name)
            .map_err(|refused| self.refused(name, &refused))?;
        let on = match ink.page {
            InkPage::Job => &self.job,
            InkPage::House => house,
        };
        // The name is a part of the page that has it: where it begins is where it lies in memory.
        let byte = (ink.name.as_ptr() as usize).wrapping_sub(on.bytes.as_ptr() as usize);
        Ok(Place {
            page: ink.page,
            block: ink.block,
            byte,
        })
    }

    /// Why no ink was found.
    fn refused(&self, name: &[u8], refused: &InkRefusal) -> Stop {
        let house = self.house.as_ref();
        match (refused.page, house) {
            (Some(InkPage::Job), _) | (Some(InkPage::House), None) => {
                self.job.refused(&refused.refusal).into()
            }
            (Some(InkPage::House), Some(house)) => house.refused(&refused.refusal).into(),
            (None, _) => self.none(name, refused.refusal.number).into(),
        }
    }

    /// That no page has an ink of a name. One that differs in the case of its letters is a fact worth telling.
    fn none(&self, name: &[u8], number: u32) -> Told {
        let pages = std::iter::once(&self.job).chain(&self.house);
        let files: Vec<&str> = pages.clone().map(|page| page.name.as_str()).collect();
        let ink = names::written(name);
        let words = match files.len() {
            1 => format!("the page has no ink named {ink}"),
            _ => format!("no page has an ink named {ink}"),
        };
        let alike = pages.flat_map(|page| like(page, name)).collect();
        Told::refused(number, &files.join(", "))
            .in_words(words)
            .with_notes(alike)
    }
}

/// The inks of a page whose names differ from a name in the case of letters alone.
fn like(page: &Page, name: &[u8]) -> Vec<String> {
    let spaces = page.spaces().unwrap_or_default();
    let inks = spaces.iter().filter_map(|(block, record)| {
        let own = ink_name(record)?;
        let alike = own.eq_ignore_ascii_case(name);
        let ink = names::written(own);
        alike.then(|| format!("{} has an ink named {ink}, at block {block}", page.name))
    });
    inks.collect()
}

/// Finds the space of an ink, with the page that has it.
pub(crate) fn find(
    desk: &mut Desk<'_>,
    name: &[u8],
    job: &OsStr,
    house: Option<&OsStr>,
) -> Result<Found, Stop> {
    let pages = Pages::read(desk, job, house)?;
    let place = pages.ask(name)?;
    let page = match (place.page, pages.house) {
        (InkPage::House, Some(house)) => house,
        _ => pages.job,
    };
    let number = place.block;
    Ok(Found { page, number })
}

/// `ink NAME JOB [HOUSE]`: where an ink is.
pub(crate) fn ink(desk: &mut Desk<'_>, words: &Words, usage: &str) -> Result<u8, Stop> {
    let arguments = words.expect(2, 3, usage)?;
    let written = arguments[0].as_encoded_bytes();
    let written = written.strip_prefix(b"/").unwrap_or(written);
    let name = names::argument(written)?;
    let house = arguments.get(2).map(OsString::as_os_str);
    let pages = Pages::read(desk, &arguments[1], house)?;
    let Place { page, block, byte } = pages.ask(&name)?;
    let (which, file) = match (page, &pages.house) {
        (InkPage::House, Some(house)) => ("house", &house.name),
        _ => ("job", &pages.job.name),
    };
    if desk.json {
        let object = Object::new()
            .text("file", file)
            .text("page", which)
            .number("block", i64::from(block))
            .number("byte", byte as i64)
            .text("ink", &names::written(&name));
        desk.say(&object.line())?;
    } else {
        desk.say(&format!("{file} block {block} byte {byte}\n"))?;
    }
    Ok(0)
}
