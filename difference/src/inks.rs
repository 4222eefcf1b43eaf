//! Inks by their names: two pages and a name that nearly match, and the comparison.

use crate::{inputs, Difference, InkReply, Library, Tally, REFERENCE};
use reference::block::{lay, read_block, Body, Record, BLOCK, DEVICE_GRAY};
use reference::cases::hex_of;
use reference::generate::programs::random_program_page_of;
use reference::generate::{random_page_of, Rng};
use reference::records::{named, separation};
use sktelbaan::InkPage;
use std::fmt;

/// A name of 1 to 127 bytes, none of them zero, letters above all.
fn ink_name(rng: &mut Rng) -> Vec<u8> {
    let any = 1 + rng.below(127);
    let length = rng.pick(&[1, 2, 4, 4, 5, 126, 127, any], 4);
    let byte = |rng: &mut Rng| match rng.below(8) {
        0 => (rng.next() as u8).max(1),
        1 => rng.pick(&[0x7f, 0x80, 0xff, 1, b' '], 1),
        _ => b'A' + rng.below(26) as u8,
    };
    match rng.below(8) {
        0 => b"None".to_vec(),
        1 => b"All".to_vec(),
        _ => (0..length).map(|_| byte(rng)).collect(),
    }
}

/// A name like another, or near it: one byte more or less, another case, another byte, a zero byte.
fn near(rng: &mut Rng, name: &[u8]) -> Vec<u8> {
    let mut name = name.to_vec();
    let at = rng.below(name.len());
    match rng.below(26) {
        0 => name.push(b'x'),
        1 => name.extend(name.last().copied()),
        2 => drop(name.pop()),
        3 => drop(name.remove(0)),
        4 => name[at] ^= 0x20,
        5 => name[at] ^= 1 << rng.below(8),
        6 => name.push(0),
        7 => name[at] = 0,
        8 => name.insert(0, b' '),
        9 => name = ink_name(rng),
        10 if rng.once_in(4) => name = Vec::new(),
        11 if rng.once_in(4) => name.resize(rng.pick(&[128, 129, 255, 256, 512, 1000], 128), b'x'),
        _ => {}
    }
    name
}

/// A Separation that has this name, as near to it as a name on a page may be.
fn renamed(record: Record, name: &[u8]) -> Record {
    let mut bytes: Vec<u8> = name.iter().map(|byte| (*byte).max(1)).collect();
    bytes.truncate(127);
    if bytes.is_empty() {
        bytes.push(b'x');
    }
    named(record, &bytes)
}

/// A page whose inks have this name or one near it, and a palette now and then the bytes of such an ink.
fn page_of_inks(rng: &mut Rng, name: &[u8]) -> Vec<u8> {
    if rng.once_in(12) {
        return inputs::page(rng);
    }
    let blocks = 1 + rng.below(8);
    let mut page = if rng.once_in(8) {
        random_program_page_of(rng, blocks)
    } else {
        random_page_of(rng, blocks)
    };
    for block in page.chunks_exact_mut(BLOCK) {
        let Ok(record) = read_block(block) else {
            continue;
        };
        match record.body {
            Body::Separation { .. } => {
                let name = near(rng, name);
                block.copy_from_slice(&lay(&renamed(record, &name)));
            }
            Body::Palette if rng.once_in(4) => {
                let ink = renamed(separation(0, DEVICE_GRAY, 1, [0; 4], [0; 4]), name);
                let mut palette = record;
                palette.bytes.copy_from_slice(&lay(&ink)[4..508]);
                block.copy_from_slice(&lay(&palette));
            }
            _ => {}
        }
    }
    page
}

/// What was compared of inks.
#[derive(Clone, Copy, Debug, Default, PartialEq, Eq)]
pub struct Inks {
    /// The replies.
    pub replies: Tally,
    /// How many were found on the job's page, and on the house page.
    pub found: [u64; 2],
    /// How many refusals were of the job's page, of the house page and of neither.
    pub refused: [u64; 3],
}

impl Inks {
    /// Counts one reply.
    fn count(&mut self, reply: &InkReply) {
        self.replies
            .count(&reply.clone().map_err(|none| none.refusal));
        match reply {
            Ok((InkPage::Job, ..)) => self.found[0] += 1,
            Ok((InkPage::House, ..)) => self.found[1] += 1,
            Err(none) => match none.page {
                Some(InkPage::Job) => self.refused[0] += 1,
                Some(InkPage::House) => self.refused[1] += 1,
                None => self.refused[2] += 1,
            },
        }
    }
}

impl fmt::Display for Inks {
    fn fmt(&self, f: &mut fmt::Formatter<'_>) -> fmt::Result {
        let ([job, house], [no_job, no_house, neither]) = (self.found, self.refused);
        write!(f, "{}; found job {job} house {house}", self.replies)?;
        write!(
            f,
            "; refused job {no_job} house {no_house} neither {neither}"
        )
    }
}

/// Asks for this many inks by their names, a few on each pair of pages.
pub fn find_ink(library: &Library, rng: &mut Rng, inks: u64) -> Result<Inks, Difference> {
    let mut found = Inks::default();
    while found.replies.total() < inks {
        let name = ink_name(rng);
        let (made_job, made_house) = (page_of_inks(rng, &name), page_of_inks(rng, &name));
        let (job_bytes, job_start) = inputs::placed(rng, &made_job);
        let (house_bytes, house_start) = inputs::placed(rng, &made_house);
        let (job, mut house) = (&job_bytes[job_start..], &house_bytes[house_start..]);
        // The same page twice, lent from the same place.
        if rng.once_in(16) {
            house = job;
        }
        for _ in 0..4 {
            let asked = near(rng, &name);
            let expected = (REFERENCE.find_ink)(job, house, &asked);
            let reply = (library.find_ink)(job, house, &asked);
            crate::compare::same("find_ink", &reply, &expected, || {
                let (job, house) = (hex_of(job), hex_of(house));
                format!("name {} job {job} house {house}", hex_of(&asked))
            })?;
            found.count(&reply);
        }
    }
    Ok(found)
}
