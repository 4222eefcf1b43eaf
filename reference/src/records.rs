//! Records and pages in few words, for the worked cases and the samples. Nothing is judged here.

use crate::block::{lay, Body, Record, BLOCK, BODY};
use crate::generate::repair;
use crate::numbers::ONE;

/// The white point of the paper's examples: 0.9505 1 1.089.
pub const WHITE: [i32; 3] = [950_500, ONE, 1_089_000];

/// The matrix of the examples: nine different numbers, so that their order shows.
pub const NINE: [i32; 9] = [
    412_456, 212_673, 19_334, 357_576, 715_152, 119_192, 180_438, 72_175, 950_304,
];

/// The range of a* and b* that a Lab space has where none is given.
pub const USUAL: [i32; 4] = [-100 * ONE, 100 * ONE, -100 * ONE, 100 * ONE];

/// A record without name or palette bytes.
pub fn record(number: u16, body: Body) -> Record {
    Record {
        number,
        body,
        bytes: [0; BODY],
    }
}

/// A free block.
pub fn free(number: u16) -> Record {
    record(number, Body::Free)
}

/// A CalGray with the examples' white point, black 0 and this gamma in millionths.
pub fn cal_gray(number: u16, gamma: i32) -> Record {
    let (white, black) = (WHITE, [0; 3]);
    record(
        number,
        Body::CalGray {
            white,
            black,
            gamma,
        },
    )
}

/// A CalRGB with the examples' white point and matrix, black 0 and these gammas in millionths.
pub fn cal_rgb(number: u16, gammas: [i32; 3]) -> Record {
    let (white, black, matrix) = (WHITE, [0; 3], NINE);
    record(
        number,
        Body::CalRgb {
            white,
            black,
            gammas,
            matrix,
        },
    )
}

/// A Lab with the examples' white point, black 0 and this range.
pub fn lab(number: u16, range: [i32; 4]) -> Record {
    let (white, black) = (WHITE, [0; 3]);
    record(
        number,
        Body::Lab {
            white,
            black,
            range,
        },
    )
}

/// An Indexed space.
pub fn indexed(number: u16, base: u16, hival: u16) -> Record {
    record(number, Body::Indexed { base, hival })
}

/// A Separation named Gold.
pub fn separation(number: u16, alternate: u16, exponent: u8, c0: [i32; 4], c1: [i32; 4]) -> Record {
    let name_length = 4;
    let mut made = record(
        number,
        Body::Separation {
            alternate,
            exponent,
            name_length,
            c0,
            c1,
        },
    );
    made.bytes[..4].copy_from_slice(b"Gold");
    made
}

/// The same Separation under another name, of at most 504 bytes.
pub fn named(mut separation: Record, name: &[u8]) -> Record {
    separation.bytes = [0; BODY];
    separation.bytes[..name.len()].copy_from_slice(name);
    if let Body::Separation { name_length, .. } = &mut separation.body {
        *name_length = name.len() as u8;
    }
    separation
}

/// A palette block with these first bytes, as many of them as it holds.
pub fn palette(number: u16, bytes: &[u8]) -> Record {
    let mut made = record(number, Body::Palette);
    for (place, byte) in made.bytes.iter_mut().zip(bytes) {
        *place = *byte;
    }
    made
}

/// An Indexed space and the blocks that hold its palette.
pub fn indexed_run(number: u16, base: u16, hival: u16, palette_bytes: &[u8]) -> Vec<Record> {
    let mut run = vec![indexed(number, base, hival)];
    let parts = palette_bytes.chunks(BODY);
    run.extend(
        (number + 1..)
            .zip(parts)
            .map(|(at, part)| palette(at, part)),
    );
    run
}

/// A program block with these first bytes, as many of them as it holds.
pub fn program(number: u16, bytes: &[u8]) -> Record {
    Record {
        body: Body::Program,
        ..palette(number, bytes)
    }
}

/// A Separation named Gold with exponent 0, and the blocks that hold its program's text.
pub fn program_run(number: u16, alternate: u16, text: &[u8]) -> Vec<Record> {
    let mut run = vec![separation(number, alternate, 0, [0; 4], [0; 4])];
    let parts = text.chunks(BODY);
    run.extend(
        (number + 1..)
            .zip(parts)
            .map(|(at, part)| program(at, part)),
    );
    run
}

/// A DeviceN of these names, packed one after the other as far as they fit.
pub fn device_n(number: u16, alternate: u16, names: &[&[u8]]) -> Record {
    let count = names.len() as u8;
    let mut made = record(number, Body::DeviceN { alternate, count });
    let packed = names
        .iter()
        .flat_map(|name| [&[name.len() as u8], *name].concat());
    for (place, byte) in made.bytes.iter_mut().zip(packed) {
        *place = byte;
    }
    made
}

/// A DeviceN of these names, and the blocks that hold its program's text.
pub fn device_n_run(number: u16, alternate: u16, names: &[&[u8]], text: &[u8]) -> Vec<Record> {
    let mut run = program_run(number, alternate, text);
    run[0] = device_n(number, alternate, names);
    run
}

/// The page of these records.
pub fn page(records: &[Record]) -> Vec<u8> {
    records.iter().flat_map(lay).collect()
}

/// A page with one block changed by hand, its check then laid anew.
pub fn changed(mut page: Vec<u8>, number: usize, change: impl Fn(&mut [u8])) -> Vec<u8> {
    if let Some(block) = page.chunks_exact_mut(BLOCK).nth(number) {
        change(block);
    }
    repair(&mut page, number);
    page
}
