//! Accepted records and pages of random spaces.

use super::device_n::{packed, random_names};
use super::programs::random_program;
use super::Rng;
use crate::block::{
    write_block, Body, Record, BLOCK, BODY, DEVICE_CMYK, DEVICE_GRAY, DEVICE_RGB, MOST_BLOCKS,
};
use crate::numbers::ONE;
use crate::page::Family;

/// What a block of the page to be is meant for.
#[derive(Clone)]
enum Plan {
    Free,
    CalGray,
    CalRgb,
    Lab,
    /// An Indexed space over a base of m components.
    Indexed {
        m: usize,
        hival: u16,
    },
    Separation,
    /// The part of a palette that uses this many of its bytes.
    Palette {
        used: usize,
    },
    /// A Separation over a program that leaves m numbers.
    Calculator {
        m: usize,
    },
    /// A part of a program's text.
    Text(Vec<u8>),
    /// A DeviceN of these names over a program that leaves m numbers.
    DeviceN {
        names: Vec<Vec<u8>>,
        m: usize,
    },
}

/// Which records with programs a page has.
#[derive(Clone, Copy, PartialEq, Eq)]
pub(super) enum Tints {
    /// None.
    Plain,
    /// Separations.
    Programs,
    /// Separations, and more of DeviceN.
    DeviceN,
}

/// A record with a program, and the parts of its text.
fn plan_program(rng: &mut Rng, tints: Tints) -> Vec<Plan> {
    let m = rng.pick(&[1, 1, 3, 4], 1);
    let (record, taken) = if tints == Tints::DeviceN && !rng.once_in(4) {
        let names = random_names(rng);
        let taken = names.len();
        (Plan::DeviceN { names, m }, taken)
    } else {
        (Plan::Calculator { m }, 1)
    };
    let text = random_program(rng, taken, m);
    let parts = text.chunks(BODY).map(|part| Plan::Text(part.to_vec()));
    [record].into_iter().chain(parts).collect()
}

/// How many components the base of an Indexed space has: 1, 3 or 4, or as many as a DeviceN that is there has names.
fn planned_base(rng: &mut Rng, plan: &[Plan]) -> usize {
    let mut counts = vec![1, 1, 3, 3, 4];
    for block in plan {
        if let Plan::DeviceN { names, .. } = block {
            counts.extend([names.len(); 3]);
        }
    }
    rng.pick(&counts, 1)
}

/// Lays out a page of this many blocks: which is meant for what, palettes and programs straight after their block.
fn plan_of(rng: &mut Rng, count: usize, tints: Tints) -> Vec<Plan> {
    let mut plan = Vec::new();
    while plan.len() < count {
        let left = count - plan.len() - 1;
        if tints != Tints::Plain && rng.once_in(3) {
            let run = plan_program(rng, tints);
            if run.len() <= left + 1 {
                plan.extend(run);
                continue;
            }
        }
        match rng.below(8) {
            0 => plan.push(Plan::Free),
            1 => plan.push(Plan::CalGray),
            2 => plan.push(Plan::CalRgb),
            3 => plan.push(Plan::Lab),
            4 | 5 => plan.push(Plan::Separation),
            _ => {
                let m = planned_base(rng, &plan);
                let wanted = match rng.below(4) {
                    0 => 255,
                    1 => rng.below(5),
                    2 => 504usize.div_ceil(m).saturating_sub(rng.below(3)),
                    _ => rng.below(256),
                };
                let room = (left * BODY / m).saturating_sub(1);
                if left == 0 {
                    continue;
                }
                let hival = wanted.min(255).min(room) as u16;
                plan.push(Plan::Indexed { m, hival });
                let mut bytes = m * (usize::from(hival) + 1);
                while bytes > 0 {
                    let used = bytes.min(BODY);
                    plan.push(Plan::Palette { used });
                    bytes -= used;
                }
            }
        }
    }
    plan
}

/// The references that an Indexed base, or the alternate of a Separation or DeviceN, may have on a page so laid out.
fn references(plan: &[Plan], m: Option<usize>, separations: bool) -> Vec<u16> {
    let mut found = Vec::new();
    let fits = |count: usize| m.is_none() || m == Some(count);
    for (code, family) in [
        (DEVICE_GRAY, Family::DeviceGray),
        (DEVICE_RGB, Family::DeviceRgb),
        (DEVICE_CMYK, Family::DeviceCmyk),
    ] {
        if fits(family.components()) {
            found.push(code);
        }
    }
    for (number, block) in (0u16..).zip(plan) {
        let count = match block {
            Plan::CalGray => 1,
            Plan::CalRgb | Plan::Lab => 3,
            Plan::Separation | Plan::Calculator { .. } if separations => 1,
            Plan::DeviceN { names, .. } if separations => names.len(),
            _ => continue,
        };
        if fits(count) {
            found.push(number);
            // More often than the device codes, so that spaces nest.
            found.push(number);
        }
    }
    found
}

/// A white point that meets the clause.
fn random_white(rng: &mut Rng) -> [i32; 3] {
    if rng.once_in(3) {
        [950_500, ONE, 1_089_000]
    } else {
        [rng.number_from(1), ONE, rng.number_from(1)]
    }
}

/// A black point that meets the clause.
fn random_black(rng: &mut Rng) -> [i32; 3] {
    if rng.once_in(2) {
        [0; 3]
    } else {
        [rng.number_from(0), rng.number_from(0), rng.number_from(0)]
    }
}

/// A range of numbers, the lowest first.
pub(super) fn random_range(rng: &mut Rng) -> [i32; 2] {
    match rng.below(5) {
        0 => [-100 * ONE, 100 * ONE],
        1 => {
            let v = rng.number();
            [v, v]
        }
        2 => [i32::MIN, i32::MAX],
        _ => {
            let (v, w) = (rng.number(), rng.number());
            [v.min(w), v.max(w)]
        }
    }
}

/// How many components the space of this reference has on a page so laid out.
fn planned_count(plan: &[Plan], reference: u16) -> usize {
    match (reference, plan.get(usize::from(reference))) {
        (DEVICE_RGB, _) | (_, Some(Plan::CalRgb | Plan::Lab)) => 3,
        (DEVICE_CMYK, _) => 4,
        _ => 1,
    }
}

/// Names that are near None and All, by a letter or by its case.
const NEAR_MISSES: [&[u8]; 12] = [
    b"none", b"Non", b"Nones", b"NONE", b"None ", b"one", b"all", b"Al", b"Alls", b"ALL", b"All ",
    b"ll",
];

/// A Separation's name: None, All, one near them, or any bytes.
fn random_name(rng: &mut Rng) -> Vec<u8> {
    match rng.below(6) {
        0 => b"None".to_vec(),
        1 => b"All".to_vec(),
        2 => rng.pick(&NEAR_MISSES, b"none").to_vec(),
        _ => {
            let length = rng.between(1, 127);
            let length = rng.pick(&[1, 3, 4, 127, length, length, length], 1);
            (0..length).map(|_| rng.byte().max(1)).collect()
        }
    }
}

/// A record for this place of the plan, with random numbers that keep every rule.
fn random_record(rng: &mut Rng, plan: &[Plan], number: u16) -> Record {
    let mut bytes = [0; BODY];
    let body = match plan.get(usize::from(number)).cloned() {
        None | Some(Plan::Free) => Body::Free,
        Some(Plan::CalGray) => Body::CalGray {
            white: random_white(rng),
            black: random_black(rng),
            gamma: rng.gamma(),
        },
        Some(Plan::CalRgb) => Body::CalRgb {
            white: random_white(rng),
            black: random_black(rng),
            gammas: [rng.gamma(), rng.gamma(), rng.gamma()],
            matrix: std::array::from_fn(|_| rng.number()),
        },
        Some(Plan::Lab) => {
            let [amin, amax] = random_range(rng);
            let [bmin, bmax] = random_range(rng);
            Body::Lab {
                white: random_white(rng),
                black: random_black(rng),
                range: [amin, amax, bmin, bmax],
            }
        }
        Some(Plan::Indexed { m, hival }) => {
            let bases = references(plan, Some(m), true);
            Body::Indexed {
                base: rng.pick(&bases, DEVICE_GRAY),
                hival,
            }
        }
        Some(Plan::Separation) => {
            let alternates = references(plan, None, false);
            let alternate = rng.pick(&alternates, DEVICE_GRAY);
            let m = planned_count(plan, alternate);
            let name = random_name(rng);
            let name_length = name.len() as u8;
            bytes[..name.len()].copy_from_slice(&name);
            let entry = |k: usize, rng: &mut Rng| if k < m { rng.number() } else { 0 };
            Body::Separation {
                alternate,
                exponent: rng.between(1, 4) as u8,
                name_length,
                c0: std::array::from_fn(|k| entry(k, rng)),
                c1: std::array::from_fn(|k| entry(k, rng)),
            }
        }
        Some(Plan::Calculator { m }) => {
            let alternates = references(plan, Some(m), false);
            let name = random_name(rng);
            bytes[..name.len()].copy_from_slice(&name);
            Body::Separation {
                alternate: rng.pick(&alternates, DEVICE_GRAY),
                exponent: 0,
                name_length: name.len() as u8,
                c0: [0; 4],
                c1: [0; 4],
            }
        }
        Some(Plan::DeviceN { names, m }) => {
            let alternates = references(plan, Some(m), false);
            let packed = packed(&names);
            bytes[..packed.len()].copy_from_slice(&packed);
            Body::DeviceN {
                alternate: rng.pick(&alternates, DEVICE_GRAY),
                count: names.len() as u8,
            }
        }
        Some(Plan::Text(text)) => {
            bytes[..text.len()].copy_from_slice(&text);
            Body::Program
        }
        Some(Plan::Palette { used }) => {
            for place in bytes.iter_mut().take(used) {
                *place = rng.byte();
            }
            Body::Palette
        }
    };
    Record {
        number,
        body,
        bytes,
    }
}

/// A record of this own number and of any kind that is accepted by itself.
/// It has no page: its references are device codes or the number of any block.
pub fn random_lone_record(rng: &mut Rng, number: u16) -> Record {
    let here = match rng.below(8) {
        0 => Plan::Free,
        1 => Plan::CalGray,
        2 => Plan::CalRgb,
        3 => Plan::Lab,
        4 => Plan::Indexed {
            m: 1,
            hival: rng.below(256) as u16,
        },
        5 => Plan::Separation,
        6 => Plan::DeviceN {
            names: random_names(rng),
            m: 1,
        },
        _ => Plan::Palette {
            used: rng.below(BODY + 1),
        },
    };
    let mut record = random_record(rng, &vec![here; usize::from(number) + 1], number);
    let anywhere = rng.below(MOST_BLOCKS) as u16;
    match &mut record.body {
        Body::Indexed { base, .. } if rng.once_in(2) => *base = anywhere,
        Body::DeviceN { alternate, .. } if rng.once_in(2) => *alternate = anywhere,
        Body::Separation {
            alternate, c0, c1, ..
        } if rng.once_in(2) => {
            *alternate = anywhere;
            *c0 = std::array::from_fn(|_| rng.number());
            *c1 = std::array::from_fn(|_| rng.number());
        }
        _ => {}
    }
    record
}

/// An accepted page of exactly this many blocks (taken into 1..`MOST_BLOCKS`), of random spaces.
pub fn random_page_of(rng: &mut Rng, count: usize) -> Vec<u8> {
    page_of(rng, count, Tints::Plain)
}

/// The same, with or without spaces over programs.
pub(super) fn page_of(rng: &mut Rng, count: usize, tints: Tints) -> Vec<u8> {
    let plan = plan_of(rng, count.clamp(1, MOST_BLOCKS), tints);
    let mut page = vec![0; BLOCK * plan.len()];
    for (number, block) in (0u16..).zip(page.chunks_exact_mut(BLOCK)) {
        let record = random_record(rng, &plan, number);
        // Every record made here keeps the rules of a block by itself, so none is refused.
        let _ = write_block(&record, block);
    }
    page
}

/// An accepted page of 1 to `MOST_BLOCKS` blocks, of random spaces that nest as far as they may.
pub fn random_page(rng: &mut Rng) -> Vec<u8> {
    let count = random_count(rng);
    random_page_of(rng, count)
}

/// How many blocks a page has: few, many, or the most.
pub(super) fn random_count(rng: &mut Rng) -> usize {
    match rng.below(4) {
        0 => rng.below(3) + 1,
        1 => rng.below(MOST_BLOCKS) + 1,
        2 => rng.below(16) + 1,
        _ => rng.pick(&[8, MOST_BLOCKS - 1, MOST_BLOCKS], MOST_BLOCKS),
    }
}
