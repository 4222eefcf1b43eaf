//! Random input: pages, numbers to be asked for, colours, lists of words, records, blocks and texts.

use crate::ours;
use reference::block::{
    lay, seal, Body, Record, BLOCK, DEVICE_CMYK, DEVICE_GRAY, DEVICE_RGB, MOST_BLOCKS,
};
use reference::generate::device_n::{
    damage_device_n, random_device_n_page, random_device_n_page_of,
};
use reference::generate::programs::{
    damage_program_page, damage_program_recipe, long_program_recipe, random_lone_program_record,
    random_program_page, random_program_page_of, random_program_recipe,
};
use reference::generate::{
    damage, damage_recipe, long_recipe, random_component, random_lone_record, random_page,
    random_page_of, random_recipe, repair, Rng,
};
use reference::numbers::write_two;
use reference::page::{components, spaces};
use reference::recipe::{recipe_of, MOST_WORDS};
use reference::text::generate as texts;
use sktelbaan::PAGE_BYTES;

/// The least number that no block has.
const MOST: u16 = MOST_BLOCKS as u16;

/// A page: accepted, broken in one to three ways, or of random bytes.
pub fn page(rng: &mut Rng) -> Vec<u8> {
    match rng.below(12) {
        0 | 1 => accepted_page(rng),
        2..=5 => broken_page(rng),
        6 | 7 => broken_program_page(rng),
        8 | 9 => broken_device_n_page(rng),
        10 => random_bytes(rng),
        _ => random_blocks(rng),
    }
}

/// An accepted page, some with spaces over programs or with DeviceNs.
fn accepted_page(rng: &mut Rng) -> Vec<u8> {
    match rng.below(6) {
        0 => page_of_programs(rng),
        1 => page_of_device_n(rng),
        _ => random_page(rng),
    }
}

/// An accepted page with DeviceNs. Few are large.
pub fn page_of_device_n(rng: &mut Rng) -> Vec<u8> {
    if rng.once_in(64) {
        return random_device_n_page(rng);
    }
    let blocks = 2 + rng.below(14);
    random_device_n_page_of(rng, blocks)
}

/// A page with DeviceNs, broken in one or two ways that only such pages have, as any with programs, or in any way.
pub fn broken_device_n_page(rng: &mut Rng) -> Vec<u8> {
    let mut page = page_of_device_n(rng);
    for _ in 0..1 + rng.below(2) {
        match rng.below(6) {
            0 => damage(rng, &mut page),
            1 => damage_program_page(rng, &mut page),
            _ => damage_device_n(rng, &mut page),
        };
    }
    page
}

/// An accepted page with spaces over programs. Few are large, for judging many programs takes long.
fn page_of_programs(rng: &mut Rng) -> Vec<u8> {
    if rng.once_in(64) {
        return random_program_page(rng);
    }
    let blocks = 2 + rng.below(10);
    random_program_page_of(rng, blocks)
}

/// A page to ask for spaces: most are accepted.
pub fn page_to_ask(rng: &mut Rng) -> Vec<u8> {
    if rng.once_in(4) {
        page(rng)
    } else {
        accepted_page(rng)
    }
}

/// A page behind up to seven other bytes, and how many they are, so that it begins at any address.
pub fn placed(rng: &mut Rng, page: &[u8]) -> (Vec<u8>, usize) {
    let before = rng.below(8);
    let bytes = [&[0xa5; 7][..before], page].concat();
    (bytes, before)
}

/// A page that was accepted before it was broken in one to three ways.
pub fn broken_page(rng: &mut Rng) -> Vec<u8> {
    let mut page = random_page(rng);
    for _ in 0..1 + rng.below(3) {
        damage(rng, &mut page);
    }
    page
}

/// A page with spaces over programs, broken in one or two ways that only such pages have, or once in a while in any.
fn broken_program_page(rng: &mut Rng) -> Vec<u8> {
    let mut page = page_of_programs(rng);
    for _ in 0..1 + rng.below(2) {
        if rng.once_in(6) {
            damage(rng, &mut page);
        } else {
            damage_program_page(rng, &mut page);
        }
    }
    page
}

/// Random bytes, as many as some page or as none.
fn random_bytes(rng: &mut Rng) -> Vec<u8> {
    let length = match rng.below(3) {
        0 => rng.below(1100),
        1 => rng.below(6) * BLOCK,
        _ => rng.below((MOST_BLOCKS + 2) * BLOCK),
    };
    (0..length).map(|_| rng.next() as u8).collect()
}

/// Blocks of random bytes, most of them zero, whose own numbers and checks are right.
fn random_blocks(rng: &mut Rng) -> Vec<u8> {
    let count = 1 + rng.below(6);
    let mut page = vec![0; count * BLOCK];
    for number in 0..count {
        let start = number * BLOCK;
        page[start] = rng.below(10) as u8;
        write_two(&mut page, start + 2, number as u16);
        for _ in 0..rng.below(40) {
            let reach = rng.pick(&[44, 168, 504], 504);
            page[start + 4 + rng.below(reach)] = rng.next() as u8;
        }
        repair(&mut page, number);
    }
    page
}

/// A number to ask a page for: one of its spaces above all, any block, a device code, or neither.
pub fn number(rng: &mut Rng, page: &[u8]) -> u32 {
    let count = page.len() / BLOCK;
    match rng.below(10) {
        0 => u32::from(rng.pick(&[DEVICE_GRAY, DEVICE_RGB, DEVICE_CMYK], DEVICE_GRAY)),
        1 => match rng.below(5) {
            0 => count as u32,
            1 => 0xff00 + rng.below(8) as u32,
            2 => rng.below(MOST_BLOCKS + 6) as u32,
            // A device code or a block's number in the low half alone.
            3 => rng.next() as u32 & 0xffff_0000 | rng.pick(&[0, 1, 0xff01, 0xff03, 0xff04], 0),
            _ => {
                let most = u32::from(MOST);
                rng.pick(&[u32::MAX, 1 << 31, i32::MAX as u32, most, 1 << 23], most)
            }
        },
        2 => rng.below(count) as u32,
        _ => {
            let found: Vec<u32> = spaces(page).map(|(number, _)| number).collect();
            rng.pick(&found, 0)
        }
    }
}

/// A component: near an edge, or an extreme one.
fn component(rng: &mut Rng) -> i32 {
    if rng.once_in(8) {
        rng.pick(&[i32::MIN, i32::MAX, i32::MIN + 1, i32::MAX - 1, -1, 0], 0)
    } else {
        random_component(rng)
    }
}

/// A colour of just this many components.
pub fn colour_of(rng: &mut Rng, count: usize) -> Vec<i32> {
    (0..count).map(|_| component(rng)).collect()
}

/// A colour of this many components, and once in a while of another count.
pub fn colour(rng: &mut Rng, count: usize) -> Vec<i32> {
    let count = match rng.below(8) {
        0 => rng.below(11),
        1 if rng.once_in(16) => rng.below(300),
        _ => count,
    };
    colour_of(rng, count)
}

/// A colour for the space at a number of a page, its count right or wrong.
pub fn colour_at(rng: &mut Rng, page: &[u8], number: u32) -> Vec<i32> {
    let count = components(page, number).unwrap_or(1);
    colour(rng, count)
}

/// A page's recipe, as it would be written.
fn page_recipe(rng: &mut Rng) -> Vec<i32> {
    let blocks = 1 + rng.below(8);
    let page = match rng.below(6) {
        0 | 1 => random_program_page_of(rng, blocks),
        2 | 3 => random_device_n_page_of(rng, 2 * blocks),
        _ => random_page_of(rng, blocks),
    };
    let number = number(rng, &page);
    recipe_of(&page, number).unwrap_or_default()
}

/// A list of words to be run: a recipe, one broken in one to three ways, one about as long as may be,
/// or random words.
pub fn words(rng: &mut Rng) -> Vec<i32> {
    let mut words = match rng.below(10) {
        0..=3 => random_recipe(rng),
        4 | 5 => page_recipe(rng),
        6 | 7 => random_program_recipe(rng),
        8 => {
            let length = rng.pick(&LENGTHS, MOST_WORDS);
            if rng.once_in(2) {
                long_recipe(rng, length)
            } else {
                long_program_recipe(rng, length)
            }
        }
        _ => return random_words(rng),
    };
    if rng.once_in(2) {
        for _ in 0..1 + rng.below(3) {
            if rng.once_in(2) {
                damage_recipe(rng, &mut words);
            } else {
                damage_program_recipe(rng, &mut words);
            }
        }
    }
    words
}

/// The lengths of long lists of words: about the most of a recipe, and about what was the most before DeviceN.
const LENGTHS: [usize; 10] = [
    MOST_WORDS - 2,
    MOST_WORDS - 1,
    MOST_WORDS,
    MOST_WORDS,
    MOST_WORDS,
    MOST_WORDS + 1,
    MOST_WORDS + 1,
    MOST_WORDS + 2,
    1085,
    3000,
];

/// Random words, small ones above all.
fn random_words(rng: &mut Rng) -> Vec<i32> {
    let length = match rng.below(4) {
        0 => rng.below(4000),
        _ => rng.below(24),
    };
    let word = |rng: &mut Rng| match rng.below(3) {
        0 => rng.number(),
        _ => rng.between(0, 14),
    };
    (0..length).map(|_| word(rng)).collect()
}

/// A number in place of another: near it, or any.
fn moved(rng: &mut Rng, number: &mut i32) {
    *number = match rng.below(3) {
        0 => number.wrapping_add(rng.between(-2, 2)),
        _ => rng.number(),
    };
}

/// A gamma in place of another: a count of twentieths, carried or not, or as any number.
fn moved_gamma(rng: &mut Rng, gamma: &mut i32) {
    if rng.once_in(2) {
        *gamma = rng.near_gamma();
    } else {
        moved(rng, gamma);
    }
}

/// A reference in place of another: a device code, near one, a block's number, one past the last, any.
fn moved_reference(rng: &mut Rng, reference: &mut u16) {
    *reference = match rng.below(4) {
        0 => 0xff00 + rng.below(7) as u16,
        1 => MOST - 4 + rng.below(8) as u16,
        2 => rng.below(MOST_BLOCKS) as u16,
        _ => rng.next() as u16,
    };
}

/// Alters one number of a record.
fn alter_body(rng: &mut Rng, body: &mut Body) {
    let pick = rng.below(32);
    match body {
        Body::Free | Body::Palette | Body::Program => {}
        Body::CalGray {
            white,
            black,
            gamma,
        } => match pick % 7 {
            6 => moved_gamma(rng, gamma),
            k if k < 3 => moved(rng, &mut white[k]),
            k => moved(rng, &mut black[k - 3]),
        },
        Body::CalRgb {
            white,
            black,
            gammas,
            matrix,
        } => match pick % 18 {
            k if k < 3 => moved(rng, &mut white[k]),
            k if k < 6 => moved(rng, &mut black[k - 3]),
            k if k < 9 => moved_gamma(rng, &mut gammas[k - 6]),
            k => moved(rng, &mut matrix[k - 9]),
        },
        Body::Lab {
            white,
            black,
            range,
        } => match pick % 10 {
            k if k < 3 => moved(rng, &mut white[k]),
            k if k < 6 => moved(rng, &mut black[k - 3]),
            k => moved(rng, &mut range[k - 6]),
        },
        Body::Indexed { base, hival } => match pick % 2 {
            0 => moved_reference(rng, base),
            _ => *hival = rng.pick(&[0, 1, 254, 255, 256, 257, 511, 512, 65535], 255),
        },
        Body::Separation {
            alternate,
            exponent,
            name_length,
            c0,
            c1,
        } => match pick % 11 {
            0 => moved_reference(rng, alternate),
            1 => *exponent = rng.pick(&[0, 1, 4, 5, 255], 5),
            2 => *name_length = rng.pick(&[0, 1, 126, 127, 128, 255], 0),
            k if k < 7 => moved(rng, &mut c0[k - 3]),
            k => moved(rng, &mut c1[k - 7]),
        },
        Body::DeviceN { alternate, count } => match pick % 2 {
            0 => moved_reference(rng, alternate),
            _ => *count = rng.pick(&[0, 1, 2, 7, 8, 9, 255, count.wrapping_add(1)], 0),
        },
    }
}

/// A record that is accepted by itself; some are of programs.
fn accepted_record(rng: &mut Rng) -> Record {
    let number = rng.below(MOST_BLOCKS) as u16;
    if rng.once_in(5) {
        random_lone_program_record(rng, number)
    } else {
        random_lone_record(rng, number)
    }
}

/// A record: one that is accepted by itself, or one altered in one to three places.
pub fn record(rng: &mut Rng) -> Record {
    let mut record = accepted_record(rng);
    if rng.once_in(3) {
        return record;
    }
    for _ in 0..1 + rng.below(3) {
        match rng.below(8) {
            0 => {
                let numbers = [0, MOST - 2, MOST - 1, MOST, MOST + 1, 256, 65535];
                record.number = rng.pick(&numbers, MOST);
            }
            1 => {
                let reach = rng.pick(&[4, 16, 128, 130, 400, 504], 504);
                let byte = rng.next() as u8;
                record.bytes[rng.below(reach)] = rng.pick(&[byte, 0, 1, 48, 49], byte);
            }
            _ => alter_body(rng, &mut record.body),
        }
    }
    record
}

/// A record as C passes it: numbers and bytes of an accepted one, with up to three numbers of any 32 bits
/// in place of its own.
pub fn numbers(rng: &mut Rng) -> ([i32; 20], [u8; 504]) {
    let record = ours(&accepted_record(rng));
    let (mut numbers, mut bytes) = (record.numbers(), record.bytes);
    for _ in 0..rng.below(4) {
        let place = rng.pick(&[5, 13, 20], 20);
        numbers[rng.below(place)] = match rng.below(4) {
            0 => rng.next() as i32,
            1 => rng.pick(&[0xff01, 0xff03, 0xff04, 0xff02, 65535, 65536], 0),
            2 => rng.between(-2, 9),
            _ => {
                let most = i32::from(MOST);
                rng.pick(
                    &[-1, i32::MIN, i32::MAX, most - 1, most, 127, 128, 255, 256],
                    0,
                )
            }
        };
    }
    if rng.once_in(8) {
        bytes[rng.below(504)] = rng.next() as u8;
    }
    (numbers, bytes)
}

/// A block: a record's, accepted or not, one with bytes altered under a right or a wrong check, or
/// random bytes and not always 512.
pub fn block(rng: &mut Rng) -> Vec<u8> {
    let mut block = lay(&record(rng));
    match rng.below(8) {
        0..=2 => {}
        3 => block[rng.below(BLOCK)] ^= 1 << rng.below(8),
        4 | 5 => {
            for _ in 0..1 + rng.below(3) {
                let reach = rng.pick(&[4, 8, 44, 168, 508], 508);
                block[rng.below(reach)] = rng.next() as u8;
            }
            seal(&mut block);
        }
        6 => {
            block[0] = rng.below(10) as u8;
            seal(&mut block);
        }
        _ => {
            let length = rng.pick(&[0, 1, 511, 513, 1024, 512], 511);
            return (0..length).map(|_| rng.next() as u8).collect();
        }
    }
    block.to_vec()
}

/// A text, most often one that is accepted or nearly so, and the bytes of the room that it is read for.
pub fn text(rng: &mut Rng) -> (Vec<u8>, usize) {
    let mut text = match rng.below(40) {
        0 => {
            let count = MOST_BLOCKS - 4 + rng.below(7);
            texts::many_spaces(rng, count)
        }
        1 => {
            let depth = rng.below(MOST_BLOCKS + 26);
            texts::nested_text(rng, depth)
        }
        2 => Vec::new(),
        _ => texts::random_text(rng),
    };
    for _ in 0..rng.below(3) {
        texts::damage_text(rng, &mut text);
    }
    let room = if rng.once_in(4) {
        rng.below(10 * 512)
    } else {
        PAGE_BYTES + rng.below(512)
    };
    (text, room)
}
