//! Calculator programs: accepted ones and damaged ones on pages of their own, and flat forms as the one step of a recipe.

use crate::compare::{hex_of_words, same, write};
use crate::{inputs, Difference, Library, Tally, REFERENCE};
use reference::block::{DEVICE_CMYK, DEVICE_GRAY, DEVICE_RGB};
use reference::cases::hex_of;
use reference::generate::programs::{
    damage_flat, damage_program_page_by, damage_program_text, damaged_program_by, random_flat,
    random_program, PROGRAM_PAGE_WAYS, PROGRAM_WAYS,
};
use reference::generate::Rng;
use reference::numbers::ONE;
use reference::program::{parse, Item};
use reference::records::{
    cal_gray, cal_rgb, free, indexed_run, lab, named, page, program_run, USUAL,
};
use sktelbaan::LONGEST;
use std::fmt;

/// How many colours each accepted program is tried with.
const COLOURS: u64 = 2;

/// The block of the Separation whose program a page is made for.
const RECORD: u16 = 1;

/// A page of a Separation over a program, over an alternate of each kind and under each name, and a number to ask it for:
/// the Separation's, or that of an Indexed space over it. The text is made for the alternate's count of components.
fn page_over(rng: &mut Rng, text: impl FnOnce(&mut Rng, usize) -> Vec<u8>) -> (Vec<u8>, u32) {
    let (first, alternate, m) = match rng.below(6) {
        0 => (free(0), DEVICE_GRAY, 1),
        1 => (free(0), DEVICE_RGB, 3),
        2 => (free(0), DEVICE_CMYK, 4),
        3 => (cal_gray(0, 2_200_000), 0, 1),
        4 => (cal_rgb(0, [2 * ONE; 3]), 0, 3),
        _ => (lab(0, USUAL), 0, 3),
    };
    let text = text(rng, m);
    let mut records = vec![first];
    records.extend(program_run(RECORD, alternate, &text));
    let name = match rng.below(16) {
        0 => &b"None"[..],
        1 => b"All",
        _ => b"Varnish",
    };
    let ink = usize::from(RECORD);
    records[ink] = named(records[ink], name);
    let mut number = u32::from(RECORD);
    if rng.once_in(4) {
        let at = records.len() as u16;
        let palette: Vec<u8> = (0..1 + rng.below(8)).map(|_| rng.next() as u8).collect();
        let hival = palette.len() as u16 - 1;
        records.extend(indexed_run(at, RECORD, hival, &palette));
        number = u32::from(at);
    }
    (page(&records), number)
}

/// A tint: one within 0..1, near an end of it, a number of these words or one next to it, so that comparisons turn there;
/// and now and then a colour of another count.
fn tint(rng: &mut Rng, words: &[i32]) -> Vec<i32> {
    let any = rng.between(0, ONE);
    let tint = match rng.below(4) {
        0 => return inputs::colour(rng, 1),
        1 => rng.pick(&[0, ONE, ONE / 2, -1, ONE + 1, 2 * ONE], any),
        2 => {
            let within = |word: &&i32| (0..=ONE).contains(*word);
            let tints: Vec<i32> = words.iter().filter(within).copied().collect();
            rng.pick(&tints, any) + rng.pick(&[0, 0, 1, -1], 0)
        }
        _ => any,
    };
    vec![tint]
}

/// What was compared of accepted programs.
#[derive(Clone, Copy, Debug, Default, PartialEq, Eq)]
pub struct Accepted {
    /// The pages, by their replies.
    pub pages: Tally,
    /// How many programs have branches.
    pub branched: u64,
    /// The words of the longest recipe.
    pub longest: usize,
    /// The colours, by their replies.
    pub colours: Tally,
}

impl fmt::Display for Accepted {
    fn fmt(&self, f: &mut fmt::Formatter<'_>) -> fmt::Result {
        let Accepted {
            pages,
            branched,
            longest,
            colours,
        } = self;
        write!(f, "{pages}; with branches {branched}, ")?;
        write!(f, "the longest recipe {longest} words; colours {colours}")
    }
}

/// Whether a program has branches.
fn has_branches(text: &[u8]) -> bool {
    let is_branch = |item: &Item| matches!(item, Item::If(_) | Item::IfElse(..));
    parse(text).is_some_and(|program| program.iter().any(is_branch))
}

/// Puts this many accepted programs on pages: each is validated, and a few colours are evaluated there and by the recipe.
pub fn accepted(library: &Library, rng: &mut Rng, programs: u64) -> Result<Accepted, Difference> {
    let mut found = Accepted::default();
    for _ in 0..programs {
        let mut branched = false;
        let (page, number) = page_over(rng, |rng, m| {
            let text = random_program(rng, 1, m);
            branched = has_branches(&text);
            text
        });
        found.branched += u64::from(branched);
        let expected = (REFERENCE.validate)(&page);
        let reply = (library.validate)(&page);
        same("validate, a program", &reply, &expected, || hex_of(&page))?;
        found.pages.count(&reply);
        let Ok(count) = write(library, rng, &page, number, LONGEST)? else {
            continue;
        };
        found.longest = found.longest.max(count);
        let mut words = vec![0; count];
        let again = (library.write_recipe)(&page, number, &mut words);
        same("write_recipe, again", &again, &Ok(count), || hex_of(&page))?;
        for _ in 0..COLOURS {
            let colour = tint(rng, &words);
            let input = || {
                let (words, bytes) = (hex_of_words(&colour), hex_of(&page));
                format!("number {number:x} components {words} page {bytes}")
            };
            let expected = (REFERENCE.evaluate)(&page, number, &colour);
            let on_page = (library.evaluate)(&page, number, &colour);
            same("evaluate, a program", &on_page, &expected, input)?;
            let reply = (library.run)(&words, &colour);
            same("a program's run against evaluate", &reply, &on_page, input)?;
            found.colours.count_colour(&reply);
        }
    }
    Ok(found)
}

/// How many ways of damage are tried in turn: those of a program's text, one anywhere in it, and those of its page.
pub const WAYS: usize = PROGRAM_WAYS + 1 + PROGRAM_PAGE_WAYS;

/// A page whose program, or whose blocks, are damaged in the way of this number, and the damage in a few words.
fn damaged_page(rng: &mut Rng, way: usize) -> (Vec<u8>, u32, &'static str) {
    let mut name = "a text damaged anywhere";
    let (mut page, number) = page_over(rng, |rng, m| {
        if way < PROGRAM_WAYS {
            let (text, _, damage) = damaged_program_by(rng, 1, m, way);
            name = damage;
            return text;
        }
        let mut text = random_program(rng, 1, m);
        if way == PROGRAM_WAYS {
            for _ in 0..1 + rng.below(2) {
                damage_program_text(rng, &mut text);
            }
        }
        text
    });
    if way > PROGRAM_WAYS {
        name = damage_program_page_by(rng, &mut page, way - PROGRAM_WAYS - 1);
    }
    (page, number, name)
}

/// Validates this many pages with damaged programs, each way of damage in its turn; where nothing is refused a colour is
/// evaluated too.
pub fn damaged(library: &Library, rng: &mut Rng, programs: u64) -> Result<Tally, Difference> {
    let mut tally = Tally::default();
    for way in (0..WAYS).cycle().take(programs as usize) {
        let (page, number, name) = damaged_page(rng, way);
        let expected = (REFERENCE.validate)(&page);
        let reply = (library.validate)(&page);
        let input = || format!("{name}, page {}", hex_of(&page));
        same("validate, a damaged program", &reply, &expected, input)?;
        tally.count(&reply);
        if reply.is_ok() {
            let colour = tint(rng, &[]);
            let expected = (REFERENCE.evaluate)(&page, number, &colour);
            let reply = (library.evaluate)(&page, number, &colour);
            same("evaluate, a damaged program", &reply, &expected, || {
                let (words, bytes) = (hex_of_words(&colour), hex_of(&page));
                format!("{name}, number {number:x} components {words} page {bytes}")
            })?;
        }
    }
    Ok(tally)
}

/// Runs this many flat forms, each the one step of a recipe whose closing step shows all four values: right ones, and ones
/// with one word or two changed, taken out, put in or doubled.
pub fn flat_forms(library: &Library, rng: &mut Rng, forms: u64) -> Result<Tally, Difference> {
    let mut tally = Tally::default();
    for _ in 0..forms {
        let mut left = 1 + rng.below(4);
        let mut flat = random_flat(rng, 1, left);
        for _ in 0..rng.below(3) {
            damage_flat(rng, &mut flat);
        }
        if rng.once_in(16) {
            left = rng.below(6);
        }
        let step = [12, left as i32, flat.len() as i32];
        let words = [&[1], &step[..], &flat, &[6]].concat();
        let colour = tint(rng, &flat);
        let expected = (REFERENCE.run)(&words, &colour);
        let reply = (library.run)(&words, &colour);
        same("run, a flat form", &reply, &expected, || {
            let (colour, words) = (hex_of_words(&colour), hex_of_words(&words));
            format!("components {colour} words {words}")
        })?;
        tally.count_colour(&reply);
    }
    Ok(tally)
}

/// Numbers on either side of what operators tell apart: signs, halves that mul rounds, ends of 32 bits.
const EDGES: [i32; 17] = [
    i32::MIN,
    i32::MIN + 1,
    -ONE - 1,
    -ONE,
    -ONE / 2,
    -1500,
    -1,
    0,
    1,
    500,
    999,
    ONE / 2,
    ONE,
    ONE + 1,
    2 * ONE,
    i32::MAX - 1,
    i32::MAX,
];

/// The words that leave 1 for a truth value that is true and 0 for one that is false.
const SHOWN: [i32; 8] = [5, 4, 1, ONE, 6, 2, 1, 0];

/// Runs every operator on numbers and truth values on either side of each line, copy, index and roll with every count, each
/// as a flat form of its own.
pub fn operators(library: &Library) -> Result<Tally, Difference> {
    let mut forms: Vec<Vec<i32>> = Vec::new();
    for x in EDGES {
        for code in [18, 19] {
            forms.push(vec![1, x, code]);
        }
        for y in EDGES {
            for code in 7..=15 {
                let shown = if code >= 10 { &SHOWN[..] } else { &[] };
                forms.push([&[1, x, 1, y, code], shown].concat());
            }
        }
    }
    for x in [21, 22] {
        forms.push([&[x, 20], &SHOWN[..]].concat());
        for y in [21, 22] {
            for code in [16, 17] {
                forms.push([&[x, y, code], &SHOWN[..]].concat());
            }
        }
    }
    let three = [1, 10, 1, 20, 1, 30];
    for n in -1..=5 {
        forms.push(vec![2, n]);
        forms.push([&three[..4], &[2, n], &[23, 23]].concat());
        forms.push([&three[..4], &[3, n]].concat());
        for j in [
            i32::MIN,
            -101,
            -4,
            -3,
            -2,
            -1,
            0,
            1,
            2,
            3,
            4,
            5,
            101,
            i32::MAX,
        ] {
            forms.push([&three[..], &[4, n, j]].concat());
        }
    }
    for code in 0..=27 {
        forms.push([&three[..], &[code]].concat());
        forms.push([&three[..], &[21, code]].concat());
    }
    let mut tally = Tally::default();
    for flat in forms {
        for left in 1..=4 {
            let step = [12, left, flat.len() as i32];
            let words = [&[1], &step[..], &flat, &[6]].concat();
            let colour = [250_000];
            let expected = (REFERENCE.run)(&words, &colour);
            let reply = (library.run)(&words, &colour);
            same("run, an operator", &reply, &expected, || {
                format!("words {}", hex_of_words(&words))
            })?;
            tally.count_colour(&reply);
        }
    }
    Ok(tally)
}
