//! Change request 2026-03, "Read the designer's own text": a whole text at once, read into the blocks of a page.
//!
//! "Read the five arrays in the syntax of 7.3: names, numbers, both string forms, arrays, dictionaries, comments. Inner
//! spaces stand inside the outer array, device spaces as bare names; spaces take blocks in order of closing brackets, a
//! palette run straight after its own."
//!
//! Clause 7.3 of ISO 32000-1 is in [`tokens`] and [`numbers`]. A refusal is a number with the byte that it is placed at.
//! [`readings`] has a text for each reading of the request, with its reply worked out by hand.

mod entries;
pub mod generate;
pub mod numbers;
pub mod readings;
#[cfg(test)]
mod tests;
pub mod tokens;

use crate::block::{
    lay, Body, Record, BLOCK, BODY, DEVICE_CMYK, DEVICE_GRAY, DEVICE_RGB, MOST_BLOCKS,
};
use crate::page::{validate, Family};
use entries::{entries_of, Dictionary};
use tokens::{Token, Tokens};

/// A refusal: its number, and the byte that it is placed at, "counted from 0".
pub type Refusal = (u32, u64);

/// "The first byte past 4,294,967,295 bytes is 12 at that byte, before anything else there."
pub const MOST_BYTES: u64 = 4_294_967_295;

/// The syntax, or "an entry of the wrong form or length".
const SYNTAX: u32 = 12;

/// A space that is read, as the space around it sees it: what refers to it, and its count of components.
#[derive(Clone, Copy, Debug)]
struct Inner {
    reference: u16,
    components: usize,
}

/// A space whose inner space is being read.
struct Open {
    /// Where its opening bracket stands.
    bracket: u64,
    /// A Separation's name; none for an Indexed space.
    ink: Option<Vec<u8>>,
}

/// What a family's name after an opening bracket leads to.
enum Begun {
    /// A space with no inner space, all of it read.
    Whole(Inner),
    /// A space whose inner space comes next.
    Around(Open),
}

/// A text being read.
struct Reader<'a> {
    tokens: Tokens<'a>,
    room_blocks: usize,
    page: Vec<u8>,
    /// For each block the opening bracket of its space.
    brackets: Vec<u64>,
}

/// The whole text: the bytes of its blocks, or the refusal with its byte. The room is counted in blocks of 512 bytes.
pub fn read(text: &[u8], room_blocks: usize) -> Result<Vec<u8>, Refusal> {
    read_at_most(text, room_blocks, MOST_BYTES)
}

/// The same with another bound on the bytes of a text, for tests.
pub fn read_at_most(text: &[u8], room_blocks: usize, most: u64) -> Result<Vec<u8>, Refusal> {
    let mut reader = Reader {
        tokens: Tokens::new(text, most),
        room_blocks,
        page: Vec::new(),
        brackets: Vec::new(),
    };
    loop {
        let (token, at) = reader.tokens.next()?;
        match token {
            Token::End => return reader.finished(at),
            Token::ArrayOpen => reader.space(at)?,
            _ => return Err((SYNTAX, at)),
        }
    }
}

impl Reader<'_> {
    /// "An unfinished text .. or one with no space, at its end"; "then judging's own, placed at the space's opening
    /// bracket". "Only a wholly accepted text writes the page's blocks."
    fn finished(self, end: u64) -> Result<Vec<u8>, Refusal> {
        if self.brackets.is_empty() {
            return Err((SYNTAX, end));
        }
        match validate(&self.page) {
            Ok(_) => Ok(self.page),
            Err((number, block)) => Err((number, self.brackets[block as usize])),
        }
    }

    /// A space with all that is inside it, from its opening bracket on. Nesting has no bound, so the spaces around the
    /// one being read are kept on a stack.
    fn space(&mut self, bracket: u64) -> Result<(), Refusal> {
        let mut around: Vec<Open> = Vec::new();
        let mut bracket = bracket;
        loop {
            let mut inner = match self.begun(bracket)? {
                Begun::Whole(inner) => inner,
                Begun::Around(open) => {
                    around.push(open);
                    match self.device_or_bracket()? {
                        Ok(device) => device,
                        Err(inside) => {
                            bracket = inside;
                            continue;
                        }
                    }
                }
            };
            loop {
                let Some(open) = around.pop() else {
                    return Ok(());
                };
                inner = match open.ink {
                    None => self.indexed(open.bracket, inner)?,
                    Some(ink) => self.separation(open.bracket, &ink, inner)?,
                };
            }
        }
    }

    /// The family's name: "CalGray", "CalRGB" and "Lab" are read to their closing bracket, an "Indexed" up to its base,
    /// a "Separation" with its name.
    fn begun(&mut self, bracket: u64) -> Result<Begun, Refusal> {
        let (token, at) = self.tokens.next()?;
        let Token::Name(name) = token else {
            return Err((SYNTAX, at));
        };
        let family = match name.as_slice() {
            b"CalGray" => Family::CalGray,
            b"CalRGB" => Family::CalRgb,
            b"Lab" => Family::Lab,
            b"Indexed" => return Ok(Begun::Around(Open { bracket, ink: None })),
            b"Separation" => {
                let ink = Some(self.ink()?);
                return Ok(Begun::Around(Open { bracket, ink }));
            }
            _ => return Err((SYNTAX, at)),
        };
        let values = Dictionary::read(&mut self.tokens, &entries_of(family, 1))?;
        let close = self.closing()?;
        let body = match family {
            Family::CalGray => Body::CalGray {
                white: values.row("WhitePoint"),
                black: values.row("BlackPoint"),
                gamma: values.row::<1>("Gamma")[0],
            },
            Family::CalRgb => Body::CalRgb {
                white: values.row("WhitePoint"),
                black: values.row("BlackPoint"),
                gammas: values.row("Gamma"),
                matrix: values.row("Matrix"),
            },
            _ => Body::Lab {
                white: values.row("WhitePoint"),
                black: values.row("BlackPoint"),
                range: values.row("Range"),
            },
        };
        let inner = Inner {
            reference: self.next_number(),
            components: family.components(),
        };
        self.take_blocks(bracket, close, body, &[], &[])?;
        Ok(Begun::Whole(inner))
    }

    /// "An ink's name not of 1 to 127 bytes" is 12.
    fn ink(&mut self) -> Result<Vec<u8>, Refusal> {
        match self.tokens.next()? {
            (Token::Name(ink), _) if (1..=127).contains(&ink.len()) => Ok(ink),
            (_, at) => Err((SYNTAX, at)),
        }
    }

    /// "Inner spaces stand inside the outer array, device spaces as bare names": a device space, or else the opening
    /// bracket of an inner one.
    fn device_or_bracket(&mut self) -> Result<Result<Inner, u64>, Refusal> {
        let (token, at) = self.tokens.next()?;
        let (reference, family) = match token {
            Token::ArrayOpen => return Ok(Err(at)),
            Token::Name(name) => match name.as_slice() {
                b"DeviceGray" => (DEVICE_GRAY, Family::DeviceGray),
                b"DeviceRGB" => (DEVICE_RGB, Family::DeviceRgb),
                b"DeviceCMYK" => (DEVICE_CMYK, Family::DeviceCmyk),
                _ => return Err((SYNTAX, at)),
            },
            _ => return Err((SYNTAX, at)),
        };
        Ok(Ok(Inner {
            reference,
            components: family.components(),
        }))
    }

    /// What follows an Indexed space's base: hival, "4 a hival not whole in 0..255", and the palette, "7 a palette of the
    /// wrong length".
    fn indexed(&mut self, bracket: u64, base: Inner) -> Result<Inner, Refusal> {
        let (token, at) = self.tokens.next()?;
        let Token::Number(number) = token else {
            return Err((SYNTAX, at));
        };
        let value = number.millionths().ok_or((13, at))?;
        let hival = numbers::whole(value, 0, 255).ok_or((4, at))? as u16;
        let (token, at) = self.tokens.next()?;
        let Token::Text(palette) = token else {
            return Err((SYNTAX, at));
        };
        if palette.len() != base.components * (usize::from(hival) + 1) {
            return Err((7, at));
        }
        let close = self.closing()?;
        let inner = Inner {
            reference: self.next_number(),
            components: 1,
        };
        let body = Body::Indexed {
            base: base.reference,
            hival,
        };
        self.take_blocks(bracket, close, body, &[], &palette)?;
        Ok(inner)
    }

    /// What follows a Separation's alternate: "a direct Type 2 dictionary, Domain [0 1], no Range, C0 and C1 of the
    /// alternate's count, left out only where that is 1".
    fn separation(&mut self, bracket: u64, ink: &[u8], alternate: Inner) -> Result<Inner, Refusal> {
        let entries = entries_of(Family::Separation, alternate.components);
        let values = Dictionary::read(&mut self.tokens, &entries)?;
        let close = self.closing()?;
        let inner = Inner {
            reference: self.next_number(),
            components: 1,
        };
        let body = Body::Separation {
            alternate: alternate.reference,
            exponent: (values.row::<1>("N")[0] / 1_000_000) as u8,
            name_length: ink.len() as u8,
            c0: values.row("C0"),
            c1: values.row("C1"),
        };
        self.take_blocks(bracket, close, body, ink, &[])?;
        Ok(inner)
    }

    /// A space's closing bracket, and where it stands.
    fn closing(&mut self) -> Result<u64, Refusal> {
        match self.tokens.next()? {
            (Token::ArrayClose, at) => Ok(at),
            (_, at) => Err((SYNTAX, at)),
        }
    }

    /// The number of the block that is taken next.
    fn next_number(&self) -> u16 {
        self.brackets.len() as u16
    }

    /// "15 more than" 128 "blocks, 10 more than the room lent" (2026-03, 2026-09): a space takes its block, "a palette run straight after its
    /// own", both "at the ]".
    fn take_blocks(
        &mut self,
        bracket: u64,
        close: u64,
        body: Body,
        ink: &[u8],
        palette: &[u8],
    ) -> Result<(), Refusal> {
        let after = self.brackets.len() + 1 + palette.len().div_ceil(BODY);
        if after > MOST_BLOCKS {
            return Err((15, close));
        }
        if after > self.room_blocks {
            return Err((10, close));
        }
        self.take_block(bracket, body, ink);
        for part in palette.chunks(BODY) {
            self.take_block(bracket, Body::Palette, part);
        }
        Ok(())
    }

    /// One block, with the bytes of its name or palette.
    fn take_block(&mut self, bracket: u64, body: Body, named: &[u8]) {
        let mut bytes = [0; BODY];
        bytes[..named.len()].copy_from_slice(named);
        let record = Record {
            number: self.next_number(),
            body,
            bytes,
        };
        let block: [u8; BLOCK] = lay(&record);
        self.page.extend_from_slice(&block);
        self.brackets.push(bracket);
    }
}
