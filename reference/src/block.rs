//! One block of 512 bytes, document 01's "The page": its record, and how it is written and read by itself.
//!
//! "Byte 0 kind, byte 1 zero, bytes 2-3 the block's own number from 0, body 4-507, check 508-511."

mod check;
mod names;
mod rules;

pub use check::{check_holds, seal, sums};
pub use names::{packed_names, MOST_NAMES, MOST_NAME_BYTES};
pub use rules::form_holds;

use crate::numbers::{read_four, read_two, write_four, write_two};

/// The bytes of one block.
pub const BLOCK: usize = 512;
/// The bytes of a block's body, all of which a palette block or a program block fills.
pub const BODY: usize = 504;
/// The bytes set aside for a Separation's name, the last of them always zero.
pub const NAME: usize = 128;
/// The most blocks that a page has: "the limit becomes 128 blocks, 65,536 bytes" (2026-09).
pub const MOST_BLOCKS: usize = 128;

/// The reference that means DeviceGray.
pub const DEVICE_GRAY: u16 = 0xff01;
/// The reference that means DeviceRGB.
pub const DEVICE_RGB: u16 = 0xff03;
/// The reference that means DeviceCMYK.
pub const DEVICE_CMYK: u16 = 0xff04;

/// Where the body begins, after kind, zero byte and own number.
pub(crate) const BODY_AT: usize = 4;
/// Where the check begins.
const CHECK_AT: usize = 508;
/// Where a Separation's name begins, and the names of a DeviceN.
pub(crate) const NAME_AT: usize = 8;
/// The bytes in which the names of a DeviceN stand: those from byte 8 to the check.
pub const NAMES: usize = CHECK_AT - NAME_AT;

/// What a block records, by its kind.
#[derive(Clone, Copy, Debug, PartialEq, Eq)]
pub enum Body {
    /// Kind 0: a free block, which records nothing.
    Free,
    /// Kind 1: a CalGray space.
    CalGray {
        /// The white point X, Y, Z in millionths.
        white: [i32; 3],
        /// The black point X, Y, Z in millionths.
        black: [i32; 3],
        /// The gamma in millionths.
        gamma: i32,
    },
    /// Kind 2: a CalRGB space.
    CalRgb {
        /// The white point X, Y, Z in millionths.
        white: [i32; 3],
        /// The black point X, Y, Z in millionths.
        black: [i32; 3],
        /// The gammas of A, B and C in millionths.
        gammas: [i32; 3],
        /// The matrix in millionths: XA YA ZA XB YB ZB XC YC ZC.
        matrix: [i32; 9],
    },
    /// Kind 3: a Lab space.
    Lab {
        /// The white point X, Y, Z in millionths.
        white: [i32; 3],
        /// The black point X, Y, Z in millionths.
        black: [i32; 3],
        /// The ranges in millionths: amin amax bmin bmax.
        range: [i32; 4],
    },
    /// Kind 4: an Indexed space; its palette lies in the blocks straight after it.
    Indexed {
        /// The reference to the base space.
        base: u16,
        /// The greatest index.
        hival: u16,
    },
    /// Kind 5: a Separation space; its name is kept in the record's bytes.
    Separation {
        /// The reference to the alternate space.
        alternate: u16,
        /// The exponent in whole units; by document 02 0 means a program.
        exponent: u8,
        /// How many bytes the name has.
        name_length: u8,
        /// The alternate components of tint 0, in millionths.
        c0: [i32; 4],
        /// The alternate components of tint 1, in millionths.
        c1: [i32; 4],
    },
    /// Kind 6: a part of a palette, kept in the record's bytes.
    Palette,
    /// Document 02's kind 7: a part of a program's text, kept in the record's bytes.
    Program,
    /// Document 02's kind 8: a DeviceN space; its names are kept in the record's bytes, packed from the first place on, and
    /// its program lies in the blocks straight after it.
    DeviceN {
        /// The reference to the alternate space.
        alternate: u16,
        /// How many names there are.
        count: u8,
    },
}

/// One record: the block's own number, what it records, and the bytes of names, of a palette or of a program's text.
#[derive(Clone, Copy, Debug, PartialEq, Eq)]
pub struct Record {
    /// The block's own number, below [`MOST_BLOCKS`] in an accepted record.
    pub number: u16,
    /// What the block records.
    pub body: Body,
    /// A Separation's name in the first 128 places, the packed names of a DeviceN in the first 500, a palette's or a
    /// program's bytes in all 504; every other place is zero.
    pub bytes: [u8; BODY],
}

/// A run of N numbers of a record, four bytes each, from the given offset on.
fn read_row<const N: usize>(block: &[u8; BLOCK], at: usize) -> [i32; N] {
    std::array::from_fn(|i| read_four(block, at + 4 * i))
}

/// Lays a run of numbers into a record, four bytes each, from the given offset on.
fn write_row(block: &mut [u8; BLOCK], at: usize, row: &[i32]) {
    for (i, v) in row.iter().enumerate() {
        write_four(block, at + 4 * i, *v);
    }
}

impl Body {
    /// The number of this body's kind, 0 to 8.
    pub fn kind(&self) -> u8 {
        match self {
            Body::Free => 0,
            Body::CalGray { .. } => 1,
            Body::CalRgb { .. } => 2,
            Body::Lab { .. } => 3,
            Body::Indexed { .. } => 4,
            Body::Separation { .. } => 5,
            Body::Palette => 6,
            Body::Program => 7,
            Body::DeviceN { .. } => 8,
        }
    }

    /// What a block's bytes record, by the table of kinds and byte offsets; none for an unknown kind.
    pub fn of(block: &[u8; BLOCK]) -> Option<Body> {
        let body = match block[0] {
            0 => Body::Free,
            1 => Body::CalGray {
                white: read_row(block, 4),
                black: read_row(block, 16),
                gamma: read_four(block, 28),
            },
            2 => Body::CalRgb {
                white: read_row(block, 4),
                black: read_row(block, 16),
                gammas: read_row(block, 28),
                matrix: read_row(block, 40),
            },
            3 => Body::Lab {
                white: read_row(block, 4),
                black: read_row(block, 16),
                range: read_row(block, 28),
            },
            4 => Body::Indexed {
                base: read_two(block, 4),
                hival: read_two(block, 6),
            },
            5 => Body::Separation {
                alternate: read_two(block, 4),
                exponent: block[6],
                name_length: block[7],
                c0: read_row(block, 136),
                c1: read_row(block, 152),
            },
            6 => Body::Palette,
            7 => Body::Program,
            8 => Body::DeviceN {
                alternate: read_two(block, 4),
                count: block[6],
            },
            _ => return None,
        };
        Some(body)
    }

    /// The reference to another space, in the three kinds that have one.
    pub fn reference(&self) -> Option<u16> {
        match self {
            Body::Indexed { base, .. } => Some(*base),
            Body::Separation { alternate, .. } | Body::DeviceN { alternate, .. } => {
                Some(*alternate)
            }
            _ => None,
        }
    }
}

impl Record {
    /// The record of a block; none for an unknown kind.
    fn of(block: &[u8; BLOCK]) -> Option<Record> {
        let body = Body::of(block)?;
        let mut bytes = [0; BODY];
        match body {
            Body::Separation { .. } => {
                bytes[..NAME].copy_from_slice(&block[NAME_AT..NAME_AT + NAME]);
            }
            Body::DeviceN { .. } => bytes[..NAMES].copy_from_slice(&block[NAME_AT..CHECK_AT]),
            Body::Palette | Body::Program => bytes.copy_from_slice(&block[BODY_AT..CHECK_AT]),
            _ => {}
        }
        Some(Record {
            number: read_two(block, 2),
            body,
            bytes,
        })
    }
}

/// The block of a record by the same table, check and all, whether or not the record is one to be written.
/// The record's bytes are laid where a name, names, a palette or a program's text lies, and nowhere else.
pub fn lay(record: &Record) -> [u8; BLOCK] {
    let mut block = [0; BLOCK];
    block[0] = record.body.kind();
    write_two(&mut block, 2, record.number);
    match &record.body {
        Body::Free => {}
        Body::CalGray {
            white,
            black,
            gamma,
        } => {
            write_row(&mut block, 4, white);
            write_row(&mut block, 16, black);
            write_four(&mut block, 28, *gamma);
        }
        Body::CalRgb {
            white,
            black,
            gammas,
            matrix,
        } => {
            write_row(&mut block, 4, white);
            write_row(&mut block, 16, black);
            write_row(&mut block, 28, gammas);
            write_row(&mut block, 40, matrix);
        }
        Body::Lab {
            white,
            black,
            range,
        } => {
            write_row(&mut block, 4, white);
            write_row(&mut block, 16, black);
            write_row(&mut block, 28, range);
        }
        Body::Indexed { base, hival } => {
            write_two(&mut block, 4, *base);
            write_two(&mut block, 6, *hival);
        }
        Body::Separation {
            alternate,
            exponent,
            name_length,
            c0,
            c1,
        } => {
            write_two(&mut block, 4, *alternate);
            block[6] = *exponent;
            block[7] = *name_length;
            block[NAME_AT..NAME_AT + NAME].copy_from_slice(&record.bytes[..NAME]);
            write_row(&mut block, 136, c0);
            write_row(&mut block, 152, c1);
        }
        Body::Palette | Body::Program => {
            block[BODY_AT..CHECK_AT].copy_from_slice(&record.bytes);
        }
        Body::DeviceN { alternate, count } => {
            write_two(&mut block, 4, *alternate);
            block[6] = *count;
            block[NAME_AT..CHECK_AT].copy_from_slice(&record.bytes[..NAMES]);
        }
    }
    seal(&mut block);
    block
}

/// "Writing one block: 10, 3, 4, 5, then 6 for a reference that is neither a device code nor" a block's number: "a single
/// block's own number and reference go to 127" (2026-09).
/// "A refusal alters no lent byte"; "a success alters the block".
pub fn write_block(record: &Record, lent: &mut [u8]) -> Result<(), u32> {
    if lent.len() != BLOCK {
        return Err(10);
    }
    if let Some(number) = record.refusal() {
        return Err(number);
    }
    lent.copy_from_slice(&lay(record));
    Ok(())
}

/// "Reading one block by itself: 10, 2, then as writing."
pub fn read_block(lent: &[u8]) -> Result<Record, u32> {
    let block: &[u8; BLOCK] = lent.try_into().map_err(|_| 10u32)?;
    if !check_holds(block) {
        return Err(2);
    }
    if !form_holds(block) {
        return Err(3);
    }
    let record = Record::of(block).ok_or(3u32)?;
    match record.refusal() {
        Some(number) => Err(number),
        None => Ok(record),
    }
}
