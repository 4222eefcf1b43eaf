//! Reading a designer's text into a page, in parts of any length.

use std::fmt;

use crate::{meaning_of, raw, MOST_BLOCKS};

/// The bytes of the longest page: a room of so many is always enough.
pub const PAGE_BYTES: usize = MOST_BLOCKS * 512;

/// The lengths of what the library is lent: the words of its state, the numbers of a dictionary, the bytes
/// of a name or palette, the spaces that may be open and still be returned to, the bytes of their names.
const WORDS: usize = 25;
const VALUES: usize = 30;
const WORD_BYTES: usize = 1024;
const SPACES: usize = MOST_BLOCKS + 1;
const NAME_BYTES: usize = 128 * SPACES;

/// Why a text is no page: a refusal, and the byte of the text that it is about, counted from 0.
#[derive(Clone, Copy, Debug, PartialEq, Eq, Hash)]
pub struct Unread {
    /// The refusal's number, 1 to 15.
    pub number: u32,
    /// The byte that the refusal is about.
    pub at: u32,
}

impl fmt::Display for Unread {
    fn fmt(&self, f: &mut fmt::Formatter<'_>) -> fmt::Result {
        let Unread { number, at } = self;
        write!(f, "refused {number} at {at}: {}", meaning_of(*number))
    }
}

impl std::error::Error for Unread {}

/// The memory that the library is lent while it reads a text.
struct Memory {
    words: [u64; WORDS],
    values: [i32; VALUES],
    word: [u8; WORD_BYTES],
    marks: [u32; SPACES],
    names: [u8; NAME_BYTES],
    opens: [u32; MOST_BLOCKS],
    blocks: [u8; PAGE_BYTES],
}

/// A text that is being read, for a room of so many bytes.
///
/// ```
/// let mut reader = sktelbaan::TextReader::new(512);
/// reader.read(b"[/CalGray << /WhitePoint [0.95");
/// reader.read(b"05 1 1.089] >>]");
/// let page = reader.end()?;
/// assert_eq!(page, include_bytes!("../../samples/gray.page"));
/// # Ok::<(), sktelbaan::Unread>(())
/// ```
pub struct TextReader {
    memory: Box<Memory>,
    room: usize,
}

impl TextReader {
    /// Nothing is read yet.
    pub fn new(room: usize) -> Self {
        let mut memory = Box::new(Memory {
            words: [0; WORDS],
            values: [0; VALUES],
            word: [0; WORD_BYTES],
            marks: [0; SPACES],
            names: [0; NAME_BYTES],
            opens: [0; MOST_BLOCKS],
            blocks: [0; PAGE_BYTES],
        });
        let m = &mut *memory;
        // SAFETY: each array is as long as the library has it, and nothing else refers to it.
        unsafe {
            raw::sktelbaan_begin_text(
                m.words.as_mut_ptr(),
                m.values.as_mut_ptr(),
                m.word.as_ptr(),
                m.marks.as_ptr(),
                m.names.as_ptr(),
                m.opens.as_ptr(),
                m.blocks.as_ptr(),
            );
        }
        TextReader { memory, room }
    }

    /// Reads the next part of the text, of any length.
    pub fn read(&mut self, part: &[u8]) {
        let m = &mut *self.memory;
        // SAFETY: the part is good for reading as many bytes as are named; each array is as long as
        // the library has it, and nothing else refers to it.
        unsafe {
            raw::sktelbaan_read_text(
                part.as_ptr(),
                part.len(),
                self.room,
                m.words.as_mut_ptr(),
                m.values.as_mut_ptr(),
                m.word.as_mut_ptr(),
                m.marks.as_mut_ptr(),
                m.names.as_mut_ptr(),
                m.opens.as_mut_ptr(),
                m.blocks.as_mut_ptr(),
            );
        }
    }

    /// Ends the text: its page, or why it is none. Asked for again it replies the same.
    pub fn end(&mut self) -> Result<Vec<u8>, Unread> {
        let m = &mut *self.memory;
        let mut room = vec![0; self.room];
        // SAFETY: the room is good for writing as many bytes as are named; each array is as long as
        // the library has it, and nothing else refers to it.
        let reply = unsafe {
            raw::sktelbaan_end_text(
                room.as_mut_ptr(),
                room.len(),
                m.words.as_mut_ptr(),
                m.values.as_mut_ptr(),
                m.word.as_ptr(),
                m.marks.as_mut_ptr(),
                m.names.as_mut_ptr(),
                m.opens.as_mut_ptr(),
                m.blocks.as_mut_ptr(),
            )
        };
        let (number, value) = (reply as u32, (reply >> 32) as u32);
        if number != 0 {
            return Err(Unread { number, at: value });
        }
        room.truncate(512 * value as usize);
        Ok(room)
    }
}
