//! Compares the proved library with the second, independent implementation, floats by their bits.
//!
//! Both get the same random input, broken in many ways; the first difference ends the comparison.
#![forbid(unsafe_code)]

pub mod compare;
pub mod device_n;
pub mod fast;
pub mod inks;
pub mod inputs;
pub mod programs;

use reference::block as other;
use reference::cie::Answer as Expected;
use reference::inks::Which;
use sktelbaan::{Answer, Body, Colour, InkPage, InkRefusal, Record, Refusal};
use std::fmt;
use std::ops::Range;

/// What an operation replies.
pub type Reply<T> = Result<T, Refusal>;

/// Where an ink was found: its page, its block, and which bytes of the page are its name.
pub type Found = (InkPage, u32, Range<usize>);

/// What asking for an ink replies.
pub type InkReply = Result<Found, InkRefusal>;

/// The operations that are compared.
#[derive(Clone, Copy)]
pub struct Library {
    /// Validates a page.
    pub validate: fn(&[u8]) -> Reply<()>,
    /// Evaluates a colour of the space at a number of a page.
    pub evaluate: fn(&[u8], u32, &[i32]) -> Reply<Colour>,
    /// Writes the recipe of the space at a number of a page.
    pub write_recipe: fn(&[u8], u32, &mut [i32]) -> Reply<usize>,
    /// Runs a recipe on a colour.
    pub run: fn(&[i32], &[i32]) -> Reply<Colour>,
    /// Asks for an ink by its name, of the job's page and the house page.
    pub find_ink: fn(&[u8], &[u8], &[u8]) -> InkReply,
    /// Writes a record as a block.
    pub write_block: fn(&Record) -> Reply<[u8; 512]>,
    /// Reads the record of a block.
    pub read_block: fn(&[u8]) -> Reply<Record>,
    /// Writes a record of any 20 numbers and 504 bytes as a block.
    pub write_numbers: fn(&[i32; 20], &[u8; 504]) -> Reply<[u8; 512]>,
}

/// The proved library, through its Rust interface.
pub const PROVED: Library = Library {
    validate: sktelbaan::validate,
    evaluate: sktelbaan::evaluate,
    write_recipe: sktelbaan::write_recipe,
    run: sktelbaan::run,
    find_ink: |job, house, name| {
        let ink = sktelbaan::find_ink(job, house, name)?;
        let on = match ink.page {
            InkPage::Job => job,
            InkPage::House => house,
        };
        Ok((ink.page, ink.block, bytes_in(on, ink.name)))
    },
    write_block: sktelbaan::write_block,
    read_block: sktelbaan::read_block,
    write_numbers: sktelbaan::write_numbers,
};

/// The second implementation, in the same form.
pub const REFERENCE: Library = Library {
    validate: |page| {
        reference::page::validate(page)
            .map(|_| ())
            .map_err(refusal_of)
    },
    evaluate: |page, number, components| {
        colour_of(reference::colour::evaluate(page, number, components))
    },
    write_recipe: |page, number, words| {
        reference::recipe::write(page, number, words).map_err(refusal_of)
    },
    run: |words, components| colour_of(reference::runner::run(words, components)),
    find_ink: |job, house, name| {
        let page_of = |which| match which {
            Which::Job => Some((InkPage::Job, job)),
            Which::House => Some((InkPage::House, house)),
            Which::Neither => None,
        };
        let refused = |number, which, block| InkRefusal {
            refusal: Refusal { number, block },
            page: page_of(which).map(|(page, _)| page),
        };
        let ink = reference::inks::find(job, house, name)
            .map_err(|none| refused(none.number, none.page, none.block))?;
        match page_of(ink.page) {
            Some((page, on)) => Ok((page, ink.block, bytes_in(on, ink.name))),
            None => Err(refused(0, Which::Neither, ink.block)),
        }
    },
    write_block: |record| {
        let mut block = [0; 512];
        other::write_block(&theirs(record), &mut block)
            .map(|()| block)
            .map_err(lone)
    },
    read_block: |block| {
        other::read_block(block)
            .map(|record| ours(&record))
            .map_err(lone)
    },
    write_numbers: |numbers, bytes| {
        let mut block = [0; 512];
        reference::passed::write(numbers, bytes, &mut block)
            .map(|()| block)
            .map_err(lone)
    },
};

/// The fast rival, in the same form; blocks and the writing of recipes are the plain ones.
pub const FAST: Library = Library {
    validate: |page| fast::validate(page).map(|_| ()).map_err(refusal_of),
    evaluate: |page, number, components| colour_of(fast::evaluate(page, number, components)),
    run: |words, components| colour_of(fast::run(words, components)),
    ..REFERENCE
};

/// Which bytes of a page a part of it is, by where the two stand in memory.
fn bytes_in(page: &[u8], part: &[u8]) -> Range<usize> {
    let from = (part.as_ptr() as usize).wrapping_sub(page.as_ptr() as usize);
    from..from.wrapping_add(part.len())
}

/// A refusal of a block by itself, which names no block.
fn lone(number: u32) -> Refusal {
    Refusal { number, block: 0 }
}

/// A record in the form of the second implementation.
pub fn theirs(record: &Record) -> other::Record {
    let body = match record.body {
        Body::Free => other::Body::Free,
        Body::CalGray {
            white,
            black,
            gamma,
        } => other::Body::CalGray {
            white,
            black,
            gamma,
        },
        Body::CalRgb {
            white,
            black,
            gammas,
            matrix,
        } => other::Body::CalRgb {
            white,
            black,
            gammas,
            matrix,
        },
        Body::Lab {
            white,
            black,
            range,
        } => other::Body::Lab {
            white,
            black,
            range,
        },
        Body::Indexed { base, hival } => other::Body::Indexed { base, hival },
        Body::Separation {
            alternate,
            exponent,
            name_length,
            c0,
            c1,
        } => other::Body::Separation {
            alternate,
            exponent,
            name_length,
            c0,
            c1,
        },
        Body::Palette => other::Body::Palette,
        Body::Program => other::Body::Program,
        Body::DeviceN { alternate, count } => other::Body::DeviceN { alternate, count },
    };
    other::Record {
        number: record.number,
        body,
        bytes: record.bytes,
    }
}

/// A record of the second implementation in the library's form.
pub fn ours(record: &other::Record) -> Record {
    let body = match record.body {
        other::Body::Free => Body::Free,
        other::Body::CalGray {
            white,
            black,
            gamma,
        } => Body::CalGray {
            white,
            black,
            gamma,
        },
        other::Body::CalRgb {
            white,
            black,
            gammas,
            matrix,
        } => Body::CalRgb {
            white,
            black,
            gammas,
            matrix,
        },
        other::Body::Lab {
            white,
            black,
            range,
        } => Body::Lab {
            white,
            black,
            range,
        },
        other::Body::Indexed { base, hival } => Body::Indexed { base, hival },
        other::Body::Separation {
            alternate,
            exponent,
            name_length,
            c0,
            c1,
        } => Body::Separation {
            alternate,
            exponent,
            name_length,
            c0,
            c1,
        },
        other::Body::Palette => Body::Palette,
        other::Body::Program => Body::Program,
        other::Body::DeviceN { alternate, count } => Body::DeviceN { alternate, count },
    };
    Record {
        number: record.number,
        body,
        bytes: record.bytes,
    }
}

/// A refusal of the second implementation in the library's form.
fn refusal_of((number, block): (u32, u32)) -> Refusal {
    Refusal { number, block }
}

/// A colour of the second implementation in the library's form.
fn colour_of(reply: reference::colour::Reply) -> Reply<Colour> {
    let found = reply.map_err(refusal_of)?;
    let answer = match found.answer {
        Expected::Gray(v) => Answer::Gray(v),
        Expected::Rgb(v) => Answer::Rgb(v),
        Expected::Cmyk(v) => Answer::Cmyk(v),
        Expected::Xyz(v) => Answer::Xyz(v),
        Expected::NoMark => Answer::NoMark,
        Expected::EveryInk(v) => Answer::EveryInk(v),
    };
    let moved = found.moved;
    Ok(Colour { answer, moved })
}

/// One input that the two reply to differently.
#[derive(Clone, Debug, PartialEq, Eq)]
pub struct Difference {
    /// The operation, in a word or two.
    pub operation: &'static str,
    /// The input, its bytes and words in hexadecimal.
    pub input: String,
    /// What the library replied.
    pub library: String,
    /// What the second implementation replied.
    pub reference: String,
}

impl fmt::Display for Difference {
    fn fmt(&self, f: &mut fmt::Formatter<'_>) -> fmt::Result {
        writeln!(f, "a difference in {}", self.operation)?;
        writeln!(f, "input: {}", self.input)?;
        writeln!(f, "library: {}", self.library)?;
        write!(f, "reference: {}", self.reference)
    }
}

impl std::error::Error for Difference {}

/// How many inputs were compared, by what came back.
#[derive(Clone, Copy, Debug, Default, PartialEq, Eq)]
pub struct Tally {
    /// How many were accepted or answered.
    pub accepted: u64,
    /// How many of those answered say that the colour was pulled in.
    pub moved: u64,
    /// How many were refused, by the refusal's number; the first place stays 0.
    pub refused: [u64; 18],
}

impl Tally {
    /// Counts one reply.
    fn count<T>(&mut self, reply: &Reply<T>) {
        match reply {
            Ok(_) => self.accepted += 1,
            Err(refusal) => {
                if let Some(count) = self.refused.get_mut(refusal.number as usize) {
                    *count += 1;
                }
            }
        }
    }

    /// Counts one colour's reply.
    fn count_colour(&mut self, reply: &Reply<Colour>) {
        self.count(reply);
        self.moved += u64::from(reply.is_ok_and(|colour| colour.moved));
    }

    /// How many inputs there were.
    pub fn total(&self) -> u64 {
        self.accepted + self.refused.iter().sum::<u64>()
    }
}

impl fmt::Display for Tally {
    fn fmt(&self, f: &mut fmt::Formatter<'_>) -> fmt::Result {
        write!(f, "{}: accepted {}", self.total(), self.accepted)?;
        if self.moved > 0 {
            write!(f, " ({} moved)", self.moved)?;
        }
        let mut refusals = (0..).zip(&self.refused).filter(|(_, count)| **count > 0);
        refusals.try_for_each(|(number, count)| write!(f, ", refusal {number} {count}"))
    }
}
