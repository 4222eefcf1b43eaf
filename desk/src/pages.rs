//! Pages: read, validated by the library, and taken apart once they are accepted.

use crate::files;
use crate::layout::{self, Bytes};
use crate::notes;
use crate::refusals::{Place, Stop, Told};
use crate::streams::Desk;
use sktelbaan::{Body, Record, Refusal, PAGE_BYTES};
use std::ffi::OsStr;

/// The bytes of a block.
pub(crate) const BLOCK: usize = 512;

/// A file that is taken for a page.
pub(crate) struct Page {
    pub name: String,
    pub bytes: Vec<u8>,
}

/// The family of a space; none for a record that is no space.
pub(crate) fn family(body: &Body) -> Option<&'static str> {
    match body {
        Body::CalGray { .. } => Some("CalGray"),
        Body::CalRgb { .. } => Some("CalRGB"),
        Body::Lab { .. } => Some("Lab"),
        Body::Indexed { .. } => Some("Indexed"),
        Body::Separation { .. } => Some("Separation"),
        Body::DeviceN { .. } => Some("DeviceN"),
        Body::Free | Body::Palette | Body::Program => None,
    }
}

/// What a space is over: a block's number or a device code.
pub(crate) fn inside(body: &Body) -> Option<u32> {
    match *body {
        Body::Indexed { base, .. } => Some(u32::from(base)),
        Body::Separation { alternate, .. } | Body::DeviceN { alternate, .. } => {
            Some(u32::from(alternate))
        }
        Body::CalGray { .. } | Body::CalRgb { .. } | Body::Lab { .. } => None,
        Body::Free | Body::Palette | Body::Program => None,
    }
}

/// The name of a Separation.
pub(crate) fn ink_name(record: &Record) -> Option<&[u8]> {
    match record.body {
        Body::Separation { name_length, .. } => record.bytes.get(..usize::from(name_length)),
        _ => None,
    }
}

impl Page {
    /// Reads a file. One that is longer than any page is read no further than that shows.
    pub fn read(desk: &mut Desk<'_>, file: &OsStr) -> Result<Page, Stop> {
        let contents = files::read_up_to(desk, file, PAGE_BYTES)?;
        Ok(Page {
            name: contents.name,
            bytes: contents.bytes,
        })
    }

    /// Reads a file that the library accepts as a page.
    pub fn accepted(desk: &mut Desk<'_>, file: &OsStr) -> Result<Page, Stop> {
        let page = Page::read(desk, file)?;
        page.validate()?;
        Ok(page)
    }

    /// Asks the library whether the page is accepted.
    pub fn validate(&self) -> Result<(), Stop> {
        sktelbaan::validate(&self.bytes).map_err(|refusal| self.refused(&refusal).into())
    }

    /// A refusal of this page, with what can be read off it.
    pub fn refused(&self, refusal: &Refusal) -> Told {
        let told = Told::refused(refusal.number, &self.name);
        let place = match refusal.number {
            2..=7 | 16 | 17 => Place::Block(refusal.block),
            _ => Place::Nowhere,
        };
        told.at_place(place)
            .with_notes(notes::of(&self.bytes, refusal))
    }

    /// How many blocks the page has.
    pub fn blocks(&self) -> u32 {
        (self.bytes.len() / BLOCK) as u32
    }

    /// The bytes of a block; none past the end.
    pub fn block(&self, number: u32) -> &[u8] {
        let from = number as usize * BLOCK;
        let to = self.bytes.len().min(from + BLOCK);
        self.bytes.get(from..to).unwrap_or_default()
    }

    /// The record of a block.
    pub fn record(&self, number: u32) -> Result<Record, Stop> {
        sktelbaan::read_block(self.block(number)).map_err(|refusal| {
            let block = number;
            self.refused(&Refusal { block, ..refusal }).into()
        })
    }

    /// The spaces of the page, with the numbers of their blocks.
    pub fn spaces(&self) -> Result<Vec<(u32, Record)>, Stop> {
        let records = (0..self.blocks()).map(|number| Ok((number, self.record(number)?)));
        let is_space = |found: &Result<(u32, Record), Stop>| match found {
            Ok((_, record)) => family(&record.body).is_some(),
            Err(_) => true,
        };
        records.filter(is_space).collect()
    }

    /// The recipe of a space.
    pub fn recipe(&self, number: u32) -> Result<Vec<i32>, Stop> {
        sktelbaan::recipe(&self.bytes, number).map_err(|refusal| {
            let told = self.refused(&refusal);
            match refusal.number {
                8 => told
                    .in_words(format!(
                        "{number} is neither a device code nor a block with a space"
                    ))
                    .with_notes(vec![notes::no_space(&self.bytes, number)]),
                _ => told,
            }
            .into()
        })
    }

    /// How many components a space has: the first word of its recipe.
    pub fn components(&self, number: u32) -> Result<usize, Stop> {
        let recipe = self.recipe(number)?;
        Ok(recipe.first().map_or(0, |count| *count as usize))
    }

    /// The bytes of the palette blocks, or of the program blocks, straight after a block.
    pub fn run_after(&self, number: u32, bytes: Bytes) -> Vec<u8> {
        let kind = |block: &[u8]| layout::kind_of(i32::from(block[0]));
        let from = (number as usize + 1) * BLOCK;
        let after = self.bytes.get(from..).unwrap_or_default();
        after
            .chunks_exact(BLOCK)
            .take_while(|block| kind(block).is_some_and(|kind| kind.bytes == bytes))
            .flat_map(|block| block[4..508].to_vec())
            .collect()
    }

    /// The palette of an Indexed space: its rows, each with a byte for every component of the base.
    pub fn palette(&self, number: u32, base: u32, hival: u16) -> Result<Vec<Vec<u8>>, Stop> {
        let row = self.components(base)?.max(1);
        let bytes = self.run_after(number, Bytes::Palette);
        let rows = bytes.chunks(row).take(usize::from(hival) + 1);
        Ok(rows.map(<[u8]>::to_vec).collect())
    }

    /// The text of the program of a Separation with exponent 0.
    pub fn program(&self, number: u32) -> Vec<u8> {
        let mut text = self.run_after(number, Bytes::Program);
        let end = text.iter().position(|b| *b == 0);
        text.truncate(end.unwrap_or(text.len()));
        text
    }
}
