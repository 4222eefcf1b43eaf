//! One record, and the block of 512 bytes that it is written as.

use crate::{given, raw, Refusal};

/// How many numbers a record is passed as.
const NUMBERS: usize = 20;

/// What a block records, by its kind. Numbers are in millionths.
#[derive(Clone, Copy, Debug, PartialEq, Eq, Hash)]
pub enum Body {
    /// Kind 0: a free block, which records nothing.
    Free,
    /// Kind 1: a CalGray space.
    CalGray {
        /// The white point X, Y, Z.
        white: [i32; 3],
        /// The black point X, Y, Z.
        black: [i32; 3],
        /// The gamma, 0.1 to 4.0 in whole tenths.
        gamma: i32,
    },
    /// Kind 2: a CalRGB space.
    CalRgb {
        /// The white point X, Y, Z.
        white: [i32; 3],
        /// The black point X, Y, Z.
        black: [i32; 3],
        /// The gammas of A, B and C, each 0.1 to 4.0 in whole tenths.
        gammas: [i32; 3],
        /// The matrix: XA YA ZA XB YB ZB XC YC ZC.
        matrix: [i32; 9],
    },
    /// Kind 3: a Lab space.
    Lab {
        /// The white point X, Y, Z.
        white: [i32; 3],
        /// The black point X, Y, Z.
        black: [i32; 3],
        /// The ranges: amin amax bmin bmax.
        range: [i32; 4],
    },
    /// Kind 4: an Indexed space; its palette lies in the blocks straight after it.
    Indexed {
        /// The reference to the base space.
        base: u16,
        /// The greatest index.
        hival: u16,
    },
    /// Kind 5: a Separation space; its name is kept in the record's bytes. With exponent 0 its program
    /// lies in the blocks straight after it.
    Separation {
        /// The reference to the alternate space.
        alternate: u16,
        /// The exponent in whole units, 1 to 4; 0 means a program.
        exponent: u8,
        /// How many bytes the name has.
        name_length: u8,
        /// The alternate components of tint 0; zeros beside a program.
        c0: [i32; 4],
        /// The alternate components of tint 1; zeros beside a program.
        c1: [i32; 4],
    },
    /// Kind 6: a part of a palette, kept in the record's bytes.
    Palette,
    /// Kind 7: a part of a program's text, kept in the record's bytes. By itself it may be any bytes.
    Program,
    /// Kind 8: a DeviceN space; its names are kept in the record's bytes, each after a byte with its length, and
    /// its program lies in the blocks straight after it.
    DeviceN {
        /// The reference to the alternate space.
        alternate: u16,
        /// How many names there are, 1 to 8.
        count: u8,
    },
}

/// One record: the block's own number, what it records, and the bytes of names, a palette or a program.
#[derive(Clone, Copy, Debug, PartialEq, Eq, Hash)]
pub struct Record {
    /// The block's own number, below [`MOST_BLOCKS`](crate::MOST_BLOCKS) in an accepted record.
    pub number: u16,
    /// What the block records.
    pub body: Body,
    /// A Separation's name in the first 128 places, a DeviceN's names in the first 500, a palette's or a
    /// program's bytes in all 504; every other place is zero.
    pub bytes: [u8; 504],
}

impl Record {
    /// The record as C has it: its own number, its kind, its body's numbers, zeros.
    pub fn numbers(&self) -> [i32; NUMBERS] {
        let mut numbers = [0; NUMBERS];
        let number = i32::from(self.number);
        let row: Vec<i32> = match &self.body {
            Body::Free => vec![number, 0],
            Body::CalGray {
                white,
                black,
                gamma,
            } => [&[number, 1], &white[..], black, &[*gamma]].concat(),
            Body::CalRgb {
                white,
                black,
                gammas,
                matrix,
            } => [&[number, 2], &white[..], black, gammas, matrix].concat(),
            Body::Lab {
                white,
                black,
                range,
            } => [&[number, 3], &white[..], black, range].concat(),
            Body::Indexed { base, hival } => {
                vec![number, 4, i32::from(*base), i32::from(*hival)]
            }
            Body::Separation {
                alternate,
                exponent,
                name_length,
                c0,
                c1,
            } => {
                let own = [
                    number,
                    5,
                    i32::from(*alternate),
                    i32::from(*exponent),
                    i32::from(*name_length),
                ];
                [&own[..], c0, c1].concat()
            }
            Body::Palette => vec![number, 6],
            Body::Program => vec![number, 7],
            Body::DeviceN { alternate, count } => {
                vec![number, 8, i32::from(*alternate), i32::from(*count)]
            }
        };
        for (place, v) in numbers.iter_mut().zip(row) {
            *place = v;
        }
        numbers
    }

    /// The names of a DeviceN in their order, or the name of a Separation; none for a record of another
    /// kind. Any record is answered: a name that the record's bytes end within is left out, with those
    /// after it.
    ///
    /// ```
    /// use sktelbaan::{Body, Record};
    /// let mut bytes = [0; 504];
    /// bytes[..10].copy_from_slice(b"\x04Blue\x04Buff");
    /// let body = Body::DeviceN { alternate: 0xff04, count: 2 };
    /// let map = Record { number: 0, body, bytes };
    /// assert_eq!(map.names(), [b"Blue", b"Buff"]);
    /// assert!(Record { body: Body::Palette, ..map }.names().is_empty());
    /// ```
    pub fn names(&self) -> Vec<&[u8]> {
        match self.body {
            Body::Separation { name_length, .. } => {
                vec![&self.bytes[..usize::from(name_length)]]
            }
            Body::DeviceN { count, .. } => {
                let mut rest = &self.bytes[..];
                let mut names = Vec::new();
                for _ in 0..count {
                    let Some((name, after)) = first_name(rest) else {
                        break;
                    };
                    names.push(name);
                    rest = after;
                }
                names
            }
            _ => Vec::new(),
        }
    }

    /// The record of numbers that a block was read as: each fits its field.
    fn of(numbers: &[i32; NUMBERS], bytes: [u8; 504]) -> Record {
        let [number, kind, v @ ..] = *numbers;
        let body = match kind {
            0 => Body::Free,
            1 => Body::CalGray {
                white: [v[0], v[1], v[2]],
                black: [v[3], v[4], v[5]],
                gamma: v[6],
            },
            2 => Body::CalRgb {
                white: [v[0], v[1], v[2]],
                black: [v[3], v[4], v[5]],
                gammas: [v[6], v[7], v[8]],
                matrix: std::array::from_fn(|k| v[9 + k]),
            },
            3 => Body::Lab {
                white: [v[0], v[1], v[2]],
                black: [v[3], v[4], v[5]],
                range: [v[6], v[7], v[8], v[9]],
            },
            4 => Body::Indexed {
                base: v[0] as u16,
                hival: v[1] as u16,
            },
            5 => Body::Separation {
                alternate: v[0] as u16,
                exponent: v[1] as u8,
                name_length: v[2] as u8,
                c0: [v[3], v[4], v[5], v[6]],
                c1: [v[7], v[8], v[9], v[10]],
            },
            6 => Body::Palette,
            7 => Body::Program,
            8 => Body::DeviceN {
                alternate: v[0] as u16,
                count: v[1] as u8,
            },
            other => unreachable!("a record is of one of nine kinds, not of {other}"),
        };
        Record {
            number: number as u16,
            body,
            bytes,
        }
    }
}

/// The name at the head of packed names, and the bytes after it; none where they end within it.
fn first_name(bytes: &[u8]) -> Option<(&[u8], &[u8])> {
    let (length, rest) = bytes.split_first()?;
    rest.split_at_checked(usize::from(*length))
}

/// Writes a record as a block, check and all. Refusals 3 to 6.
///
/// ```
/// use sktelbaan::{read_block, write_block, Body, Record};
/// let body = Body::Indexed { base: 0xff03, hival: 255 };
/// let record = Record { number: 1, body, bytes: [0; 504] };
/// let block = write_block(&record)?;
/// assert_eq!(block[..8], [4, 0, 0, 1, 0xff, 3, 0, 255]);
/// assert_eq!(read_block(&block)?, record);
///
/// let body = Body::Indexed { base: 0xff03, hival: 256 };
/// assert_eq!(write_block(&Record { body, ..record }).unwrap_err().number, 4);
/// # Ok::<(), sktelbaan::Refusal>(())
/// ```
///
/// A page of a Separation over DeviceGray, and of a block with its program, by which tint 0.5 is Gray 0.25:
///
/// ```
/// use sktelbaan::{evaluate, write_block, Answer, Body, Record};
/// let of = |text: &[u8]| std::array::from_fn(|k| text.get(k).copied().unwrap_or(0));
/// let body = Body::Separation { alternate: 0xff01, exponent: 0, name_length: 4, c0: [0; 4], c1: [0; 4] };
/// let ink = Record { number: 0, body, bytes: of(b"Gold") };
/// let program = Record { number: 1, body: Body::Program, bytes: of(b"{ dup mul }") };
/// let page = [write_block(&ink)?, write_block(&program)?].concat();
/// assert_eq!(evaluate(&page, 0, &[500_000])?.answer, Answer::Gray(0.25));
/// # Ok::<(), sktelbaan::Refusal>(())
/// ```
///
/// A page of a DeviceN of two inks over DeviceGray, whose program takes both tints, the first deepest:
///
/// ```
/// use sktelbaan::{evaluate, write_block, Answer, Body, Record};
/// let of = |text: &[u8]| std::array::from_fn(|k| text.get(k).copied().unwrap_or(0));
/// let body = Body::DeviceN { alternate: 0xff01, count: 2 };
/// let map = Record { number: 0, body, bytes: of(b"\x04Blue\x04Buff") };
/// let program = Record { number: 1, body: Body::Program, bytes: of(b"{ 0.5 mul sub }") };
/// let page = [write_block(&map)?, write_block(&program)?].concat();
/// assert_eq!(evaluate(&page, 0, &[750_000, 500_000])?.answer, Answer::Gray(0.5));
///
/// // Two names that are equal, and All among them, are refused.
/// let equal = Record { bytes: of(b"\x04Blue\x04Blue"), ..map };
/// assert_eq!(write_block(&equal).unwrap_err().number, 4);
/// # Ok::<(), sktelbaan::Refusal>(())
/// ```
pub fn write_block(record: &Record) -> Result<[u8; 512], Refusal> {
    write_numbers(&record.numbers(), &record.bytes)
}

/// Writes a record that is passed as C passes it: its own number, its kind, its body's numbers in the
/// order of [`Body`]'s fields, zeros; and its bytes. A number of any 32 bits gets its refusal: 3 for an
/// own number, a kind, a name's length, a count of names or a number that the kind does not name, 4 for
/// hival, 5 for an exponent, 6 for a reference.
///
/// ```
/// use sktelbaan::{read_numbers, write_numbers};
/// let mut numbers = [0; 20];
/// numbers[..4].copy_from_slice(&[1, 4, 0xff03, 255]);
/// let block = write_numbers(&numbers, &[0; 504])?;
/// assert_eq!(read_numbers(&block)?, (numbers, [0; 504]));
///
/// numbers[3] = 65536;
/// assert_eq!(write_numbers(&numbers, &[0; 504]).unwrap_err().number, 4);
/// # Ok::<(), sktelbaan::Refusal>(())
/// ```
pub fn write_numbers(numbers: &[i32; 20], bytes: &[u8; 504]) -> Result<[u8; 512], Refusal> {
    let mut block = [0; 512];
    // SAFETY: the 20 numbers and 504 bytes are good for reading, and the block, which nothing else
    // refers to, for writing as many bytes as are named.
    let reply = unsafe {
        raw::sktelbaan_write_block(
            numbers.as_ptr(),
            bytes.as_ptr(),
            block.as_mut_ptr(),
            block.len(),
        )
    };
    given(reply).map(|_| block)
}

/// Reads the record of a block by itself. Refusals 10 for bytes that are not 512, and 2 to 6.
///
/// ```
/// use sktelbaan::{read_block, Body};
/// // A block of zeros is free.
/// assert_eq!(read_block(&[0; 512])?.body, Body::Free);
/// assert_eq!(read_block(&[0; 511]).unwrap_err().number, 10);
/// # Ok::<(), sktelbaan::Refusal>(())
/// ```
pub fn read_block(block: &[u8]) -> Result<Record, Refusal> {
    read_numbers(block).map(|(numbers, bytes)| Record::of(&numbers, bytes))
}

/// Reads the record of a block by itself, as C has it: the numbers and bytes that [`write_numbers`]
/// writes that block of.
pub fn read_numbers(block: &[u8]) -> Result<([i32; 20], [u8; 504]), Refusal> {
    let mut numbers = [0; NUMBERS];
    let mut bytes = [0; 504];
    // SAFETY: the block is good for reading as many bytes as are named, and the 20 numbers and 504
    // bytes, which nothing else refers to, for writing.
    let reply = unsafe {
        raw::sktelbaan_read_block(
            block.as_ptr(),
            block.len(),
            numbers.as_mut_ptr(),
            bytes.as_mut_ptr(),
        )
    };
    given(reply).map(|_| (numbers, bytes))
}

#[cfg(test)]
mod tests {
    use super::*;

    /// The least number that no block has.
    const MOST: i32 = crate::MOST_BLOCKS as i32;

    fn write_into(numbers: &[i32; 20], bytes: &[u8; 504], room: usize) -> (u64, Vec<u8>) {
        let mut block = vec![0xaa; room];
        // SAFETY: as in `write_block`.
        let reply = unsafe {
            raw::sktelbaan_write_block(
                numbers.as_ptr(),
                bytes.as_ptr(),
                block.as_mut_ptr(),
                block.len(),
            )
        };
        (reply, block)
    }

    fn read_into(block: &[u8]) -> (u64, [i32; 20], [u8; 504]) {
        let (mut numbers, mut bytes) = ([-7; 20], [0xaa; 504]);
        // SAFETY: as in `read_block`.
        let reply = unsafe {
            raw::sktelbaan_read_block(
                block.as_ptr(),
                block.len(),
                numbers.as_mut_ptr(),
                bytes.as_mut_ptr(),
            )
        };
        (reply, numbers, bytes)
    }

    /// An accepted record of each kind, as numbers and bytes, and a Separation with a program.
    fn records() -> Vec<([i32; 20], [u8; 504])> {
        let one = 1_000_000;
        let zeros = [0; 504];
        let mut name = zeros;
        name[..3].copy_from_slice(b"Ink");
        let mut names = zeros;
        names[..15].copy_from_slice(b"\x04Blue\x04None\x04None");
        let rows: [(&[i32], [u8; 504]); 10] = [
            (&[MOST - 1, 0], zeros),
            (&[1, 1, 5, one, 7, 0, 1, 2, 2 * one], zeros),
            (
                &[
                    2, 2, 5, one, 7, 0, 1, 2, one, one, one, -1, 2, -3, 4, -5, 6, -7, 8, -9,
                ],
                zeros,
            ),
            (
                &[3, 3, 5, one, 7, 0, 1, 2, -4, 3, i32::MIN, i32::MAX],
                zeros,
            ),
            (&[4, 4, 0xff03, 255], zeros),
            (&[5, 5, 0xff04, 4, 3, -1, 2, -3, 4, 5, -6, 7, -8], name),
            (&[6, 6], std::array::from_fn(|k| k as u8)),
            (&[7, 7], std::array::from_fn(|k| k as u8)),
            (&[5, 5, 0xff04, 0, 3, -1, 2, -3, 4, 5, -6, 7, -8], name),
            (&[8, 8, 0xff04, 3], names),
        ];
        rows.map(|(row, bytes)| {
            let mut numbers = [0; 20];
            numbers[..row.len()].copy_from_slice(row);
            (numbers, bytes)
        })
        .to_vec()
    }

    #[test]
    fn each_kind_is_written_and_read_back() {
        for (numbers, bytes) in records() {
            let (reply, block) = write_into(&numbers, &bytes, 512);
            assert_eq!(reply, 0, "{numbers:?}");
            assert_eq!(read_into(&block), (0, numbers, bytes));
            let record = read_block(&block).unwrap();
            assert_eq!(record.numbers(), numbers);
            assert_eq!(write_block(&record).unwrap()[..], block);
        }
    }

    #[test]
    fn a_refusal_alters_nothing() {
        for (numbers, bytes) in records() {
            for room in [0, 511, 513] {
                let (reply, block) = write_into(&numbers, &bytes, room);
                assert_eq!((reply, block), (10, vec![0xaa; room]));
            }
            let (_, mut block) = write_into(&numbers, &bytes, 512);
            assert_eq!(read_into(&block[..511]), (10, [-7; 20], [0xaa; 504]));
            block[300] ^= 1;
            assert_eq!(read_into(&block), (2, [-7; 20], [0xaa; 504]));
        }
    }

    #[test]
    fn a_number_of_any_32_bits_has_its_refusal() {
        let refused = |number: u64, numbers: [i32; 20], bytes| {
            let (reply, block) = write_into(&numbers, &bytes, 512);
            assert_eq!((reply, block), (number, vec![0xaa; 512]), "{numbers:?}");
            assert_eq!(write_into(&numbers, &bytes, 0).0, 10);
        };
        // Each place that is no field of 32 bits, with the least number that is too large for its rule.
        for (numbers, bytes) in records() {
            let rules: &[(usize, u64, i32)] = match numbers[1] {
                4 => &[(0, 3, MOST), (1, 3, 9), (2, 6, MOST), (3, 4, 256)],
                8 => &[(0, 3, MOST), (1, 3, 9), (2, 6, MOST), (3, 3, 9)],
                5 => &[
                    (0, 3, MOST),
                    (1, 3, 9),
                    (2, 6, MOST),
                    (3, 5, 5),
                    (4, 3, 128),
                ],
                _ => &[(0, 3, MOST), (1, 3, 9)],
            };
            for (place, number, limit) in rules {
                for v in [*limit, 65536, 65536 + limit, -1, i32::MIN, i32::MAX] {
                    let mut other = numbers;
                    other[*place] = v;
                    refused(*number, other, bytes);
                }
            }
        }
    }

    #[test]
    fn names_are_looked_at_on_writing() {
        let of = |packed: &[u8], count: u8| {
            let bytes = std::array::from_fn(|k| packed.get(k).copied().unwrap_or(0));
            let (number, alternate) = (0, 0xff01);
            let body = Body::DeviceN { alternate, count };
            write_block(&Record {
                number,
                body,
                bytes,
            })
            .map_or_else(|refusal| refusal.number, |_| 0)
        };
        assert_eq!(of(b"\x04Blue\x04Buff", 2), 0);
        assert_eq!(of(b"\x04None\x04None", 2), 0);
        assert_eq!(of(b"\x04none\x04None\x04All ", 3), 0);
        assert_eq!(of(b"\x04Blue\x04Blue", 2), 4);
        assert_eq!(of(b"\x04Blue\x03All", 2), 4);
        assert_eq!(of(b"\x04Blue\x04Buff", 1), 3);
        assert_eq!(of(b"\x04Blue\x04Buff", 3), 3);
        assert_eq!(of(b"\x04Blue\x04Bu\0f", 2), 3);
        assert_eq!(of(b"\0", 1), 3);
        let long = |length: u8| [&[length], &vec![b'a'; usize::from(length)][..]].concat();
        assert_eq!((of(&long(48), 1), of(&long(49), 1)), (0, 3));
        let eight: Vec<u8> = (1..=8).flat_map(|byte| [1, byte]).collect();
        assert_eq!((of(&eight, 8), of(&eight, 9), of(&eight, 0)), (0, 3, 3));
    }

    #[test]
    fn any_record_has_names() {
        let bytes = [255; 504];
        for count in [0, 1, 2, 8, 255] {
            let body = Body::DeviceN {
                alternate: 0,
                count,
            };
            let names = Record {
                number: 0,
                body,
                bytes,
            };
            assert_eq!(names.names().len(), usize::from(count.min(1)));
            let none = Record {
                bytes: [0; 504],
                ..names
            };
            assert_eq!(none.names(), vec![b""; usize::from(count)]);
        }
        for (_, bytes) in records() {
            for name_length in [0, 3, 127, 255] {
                let (alternate, exponent, c0, c1) = (0, 1, [0; 4], [0; 4]);
                let body = Body::Separation {
                    alternate,
                    exponent,
                    name_length,
                    c0,
                    c1,
                };
                let number = 0;
                let ink = Record {
                    number,
                    body,
                    bytes,
                };
                assert_eq!(ink.names(), [&bytes[..usize::from(name_length)]]);
            }
        }
    }

    #[test]
    fn a_number_that_the_kind_does_not_name_is_zero() {
        for (numbers, bytes) in records() {
            let named = [2, 9, 20, 12, 4, 13, 2, 2, 4][numbers[1] as usize];
            for place in named..20 {
                for v in [1, -1, 65536, i32::MIN] {
                    let mut other = numbers;
                    other[place] = v;
                    let (reply, block) = write_into(&other, &bytes, 512);
                    assert_eq!((reply, block), (3, vec![0xaa; 512]), "{other:?}");
                }
            }
        }
    }
}
