//! A record as C passes it: 20 numbers of 32 bits and 504 bytes. Number 0 is the block's own number,
//! number 1 its kind, then come the numbers of its body in the order of the table, then zeros.

use crate::block::{
    write_block, Body, Record, BLOCK, BODY, DEVICE_CMYK, DEVICE_GRAY, DEVICE_RGB, MOST_BLOCKS,
};

/// How many numbers a record is passed as.
pub const NUMBERS: usize = 20;

/// How many of the numbers a kind names, own number and kind among them; none for an unknown kind.
fn named(kind: i32) -> Option<usize> {
    match kind {
        0 | 6 | 7 => Some(2),
        1 => Some(2 + 3 + 3 + 1),
        2 => Some(2 + 3 + 3 + 3 + 9),
        3 => Some(2 + 3 + 3 + 4),
        4 => Some(2 + 2),
        5 => Some(2 + 3 + 4 + 4),
        8 => Some(2 + 2),
        _ => None,
    }
}

/// Whether a number of any 32 bits is a device code or the number of a block.
fn refers(reference: i32) -> bool {
    let codes = [DEVICE_GRAY, DEVICE_RGB, DEVICE_CMYK].map(i32::from);
    (0..MOST_BLOCKS as i32).contains(&reference) || codes.contains(&reference)
}

/// The first refusal of numbers that may be of any 32 bits, in the order 3, 4, 5, 6: an own number that
/// no block has, an unknown kind, a number that the kind does not name and that is not 0, a name of no
/// such length, a count of names that is not 1 to 8; hival; the exponent; the reference.
fn number_refusal(numbers: &[i32; NUMBERS]) -> Option<u32> {
    let [own, kind, first, second, third, ..] = *numbers;
    let Some(used) = named(kind) else {
        return Some(3);
    };
    let rules = [
        (3, (0..MOST_BLOCKS as i32).contains(&own)),
        (3, numbers[used..].iter().all(|number| *number == 0)),
        (3, kind != 5 || (1..=127).contains(&third)),
        (3, kind != 8 || (1..=8).contains(&second)),
        (4, kind != 4 || (0..=255).contains(&second)),
        (5, kind != 5 || (0..=4).contains(&second)),
        (6, ![4, 5, 8].contains(&kind) || refers(first)),
    ];
    let broken = rules.iter().find(|(_, holds)| !holds);
    broken.map(|(number, _)| *number)
}

/// N numbers from a place on.
fn row<const N: usize>(numbers: &[i32; NUMBERS], at: usize) -> [i32; N] {
    std::array::from_fn(|k| numbers[at + k])
}

/// What numbers record of a kind. One that its field has no room for is refused by itself; here a number
/// that breaks no rule stands for it.
fn body(numbers: &[i32; NUMBERS]) -> Body {
    let reference = u16::try_from(numbers[2]).unwrap_or(0);
    match numbers[1] {
        1 => Body::CalGray {
            white: row(numbers, 2),
            black: row(numbers, 5),
            gamma: numbers[8],
        },
        2 => Body::CalRgb {
            white: row(numbers, 2),
            black: row(numbers, 5),
            gammas: row(numbers, 8),
            matrix: row(numbers, 11),
        },
        3 => Body::Lab {
            white: row(numbers, 2),
            black: row(numbers, 5),
            range: row(numbers, 8),
        },
        4 => Body::Indexed {
            base: reference,
            hival: u16::try_from(numbers[3]).unwrap_or(0),
        },
        5 => Body::Separation {
            alternate: reference,
            exponent: u8::try_from(numbers[3]).unwrap_or(1),
            name_length: u8::try_from(numbers[4]).unwrap_or(1),
            c0: row(numbers, 5),
            c1: row(numbers, 9),
        },
        6 => Body::Palette,
        7 => Body::Program,
        8 => Body::DeviceN {
            alternate: reference,
            count: u8::try_from(numbers[3]).unwrap_or(1),
        },
        _ => Body::Free,
    }
}

/// Writes a record that is passed so into a lent block.
/// Refused with 10, or the least of 3, 4, 5, 6 that applies; then no byte is altered.
pub fn write(numbers: &[i32; NUMBERS], bytes: &[u8; BODY], lent: &mut [u8]) -> Result<(), u32> {
    if lent.len() != BLOCK {
        return Err(10);
    }
    let record = Record {
        number: u16::try_from(numbers[0]).unwrap_or(0),
        body: body(numbers),
        bytes: *bytes,
    };
    let mut block = [0; BLOCK];
    let of_record = write_block(&record, &mut block).err();
    let refusals = number_refusal(numbers).into_iter().chain(of_record);
    match refusals.min() {
        Some(number) => Err(number),
        None => {
            lent.copy_from_slice(&block);
            Ok(())
        }
    }
}

#[cfg(test)]
mod tests {
    use super::*;

    /// What writing these numbers, with zeros after them, and a name of three bytes comes to.
    fn refusal(row: &[i32], name: bool) -> u32 {
        let mut numbers = [0; NUMBERS];
        numbers[..row.len()].copy_from_slice(row);
        let mut bytes = [0; BODY];
        if name {
            bytes[..3].copy_from_slice(b"Ink");
        }
        let mut block = [0xaa; BLOCK];
        let reply = write(&numbers, &bytes, &mut block);
        assert!(reply.is_ok() || block == [0xaa; BLOCK]);
        reply.err().unwrap_or(0)
    }

    /// What writing these numbers, with zeros after them, and these packed names comes to.
    fn with_names(row: &[i32], names: &[&[u8]]) -> u32 {
        let mut numbers = [0; NUMBERS];
        numbers[..row.len()].copy_from_slice(row);
        let bytes = crate::records::device_n(0, 0, names).bytes;
        let mut block = [0xaa; BLOCK];
        let reply = write(&numbers, &bytes, &mut block);
        assert!(reply.is_ok() || block == [0xaa; BLOCK]);
        reply.err().unwrap_or(0)
    }

    #[test]
    fn the_names_of_a_record_are_looked_at() {
        let of = |names: &[&[u8]]| with_names(&[0, 8, 0xff04, names.len() as i32], names);
        assert_eq!(of(&[b"Blue", b"Buff"]), 0);
        assert_eq!(of(&[b"None", b"None"]), 0);
        assert_eq!(of(&[b"Blue", b"Blue"]), 4);
        assert_eq!(of(&[b"Blue", b"All"]), 4);
        assert_eq!(of(&[b"Blue", b""]), 3);
        assert_eq!(of(&[b"Bl\0e"]), 3);
        assert_eq!(of(&[&[b'a'; 48]]), 0);
        assert_eq!(of(&[&[b'a'; 49]]), 3);
        assert_eq!(with_names(&[0, 8, 0xff04, 1], &[b"Blue", b"Buff"]), 3);
        assert_eq!(with_names(&[0, 8, 0xff04, 3], &[b"Blue", b"Buff"]), 3);
        for place in 4..NUMBERS {
            let mut row = vec![0, 8, 0xff04, 1];
            row.resize(place, 0);
            row.push(7);
            assert_eq!(with_names(&row, &[b"Ink"]), 3, "{row:?}");
        }
    }

    #[test]
    fn a_number_of_any_32_bits_has_its_refusal() {
        let any = [65536, 65537, -1, i32::MIN, i32::MAX];
        let most = MOST_BLOCKS as i32;
        for v in any.into_iter().chain([most, most + 1, 0xff02]) {
            assert_eq!(refusal(&[v, 0], false), 3, "own number {v}");
            assert_eq!(refusal(&[0, 4, v, 3], false), 6, "base {v}");
            assert_eq!(refusal(&[0, 5, v, 1, 3], true), 6, "alternate {v}");
        }
        for v in any.into_iter().chain([0, 9, 256 + 1, 65536 + 2]) {
            let row = [0, 8, 0xff01, v];
            assert_eq!(with_names(&row, &[b"Ink"]), 3, "count of names {v}");
        }
        for v in any.into_iter().chain([most, most + 1, 0xff02]) {
            let of = |names: &[&[u8]]| with_names(&[0, 8, v, names.len() as i32], names);
            assert_eq!(of(&[b"Ink"]), 6, "alternate {v}");
            assert_eq!(of(&[b"Ink", b"Ink"]), 4, "alternate {v} and equal names");
            assert_eq!(of(&[b"All"]), 4, "alternate {v} and All");
            assert_eq!(with_names(&[v, 8, 0, 1], &[b"All"]), 3, "own number {v}");
        }
        for v in any.into_iter().chain([256, 257]) {
            assert_eq!(refusal(&[0, v], false), 3, "kind {v}");
            assert_eq!(refusal(&[0, 4, 0xff01, v], false), 4, "hival {v}");
            assert_eq!(refusal(&[0, 4, v, v], false), 4, "hival and base {v}");
            assert_eq!(refusal(&[0, 5, 0xff01, v, 3], true), 5, "exponent {v}");
            assert_eq!(
                refusal(&[0, 5, v, v, 3], true),
                5,
                "exponent, alternate {v}"
            );
            assert_eq!(refusal(&[0, 5, 0xff01, 1, v], true), 3, "name length {v}");
            assert_eq!(refusal(&[0, 5, v, v, v], true), 3, "all three {v}");
        }
    }

    #[test]
    fn a_number_that_the_kind_does_not_name_is_zero() {
        for (row, name) in [
            (&[0, 0][..], false),
            (&[0, 4, 0xff01, 3], false),
            (&[0, 5, 0xff01, 1, 3, 0, 0, 0, 0, 0, 0, 0, 0], true),
            (&[0, 6], false),
            (&[0, 7], false),
        ] {
            assert_eq!(refusal(row, name), 0);
            for place in row.len()..NUMBERS {
                let mut more = row.to_vec();
                more.resize(place, 0);
                more.push(7);
                assert_eq!(refusal(&more, name), 3, "{more:?}");
            }
        }
    }
}
