//! "House inks beside the job's": an ink that is asked for by its name, of the job's page and the house page.

use crate::block::{Body, BLOCK, NAME_AT};
use crate::page::validate;

/// Which of the two pages a reply is about.
#[derive(Clone, Copy, Debug, PartialEq, Eq)]
pub enum Which {
    /// The job's page.
    Job,
    /// The house page.
    House,
    /// Neither of them.
    Neither,
}

/// An ink that is found.
#[derive(Clone, Copy, Debug, PartialEq, Eq)]
pub struct Ink<'a> {
    /// The page that it stands on.
    pub page: Which,
    /// The block that it stands in.
    pub block: u32,
    /// "The name's own bytes, as they stand in" that page.
    pub name: &'a [u8],
}

/// Why none is found: the refusal's number, the page that it is of, "naming which", and the block.
#[derive(Clone, Copy, Debug, PartialEq, Eq)]
pub struct Refused {
    /// The refusal's number.
    pub number: u32,
    /// The page that is refused.
    pub page: Which,
    /// The block that the refusal is about, 0 where it is about none.
    pub block: u32,
}

/// The name of the Separation in a block; none for a block of another kind.
fn name_of(block: &[u8; BLOCK]) -> Option<&[u8]> {
    match Body::of(block) {
        Some(Body::Separation { name_length, .. }) => {
            block[NAME_AT..].get(..usize::from(name_length))
        }
        _ => None,
    }
}

/// "The lowest such block wins": the lowest Separation of a page that has this name.
fn lowest<'a>(page: &'a [u8], name: &[u8]) -> Option<(u32, &'a [u8])> {
    let (blocks, _) = page.as_chunks();
    (0..)
        .zip(blocks)
        .filter_map(|(number, block)| Some((number, name_of(block)?)))
        .find(|(_, own)| *own == name)
}

/// "Of the job's page and the house page, both judged, the desk asks an ink by name and gets the name's own bytes, as
/// they stand in the job's page if a Separation there has that name, else in the house page, with block number and page."
pub fn find<'a>(job: &'a [u8], house: &'a [u8], name: &[u8]) -> Result<Ink<'a>, Refused> {
    // "Refusals: judging the job's page, then the house's, naming which, then 8 where neither has the name."
    let pages = [(Which::Job, job), (Which::House, house)];
    for (which, page) in pages {
        validate(page).map_err(|(number, block)| Refused {
            number,
            page: which,
            block,
        })?;
    }
    for (which, page) in pages {
        if let Some((block, name)) = lowest(page, name) {
            return Ok(Ink {
                page: which,
                block,
                name,
            });
        }
    }
    Err(Refused {
        number: 8,
        page: Which::Neither,
        block: 0,
    })
}

/// A reply in words, as the programs print it: `found PAGE block B byte PLACE`, the place being that of the name's first
/// byte on its page, or `refused N PAGE block B`.
pub fn found_text(job: &[u8], house: &[u8], reply: &Result<Ink<'_>, Refused>) -> String {
    let (page, block) = match reply {
        Ok(ink) => (ink.page, ink.block),
        Err(refused) => (refused.page, refused.block),
    };
    let (page, on) = match page {
        Which::Job => ("job", job),
        Which::House => ("house", house),
        Which::Neither => ("neither", &[][..]),
    };
    match reply {
        Ok(ink) => {
            let place = ink.name.as_ptr() as usize - on.as_ptr() as usize;
            format!("found {page} block {block} byte {place}")
        }
        Err(refused) => format!("refused {} {page} block {block}", refused.number),
    }
}
