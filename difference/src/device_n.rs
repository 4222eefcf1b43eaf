//! DeviceN: pages with it, accepted ones with their colours and recipes and damaged ones, and step 13 as the one step of a
//! recipe.

use crate::compare::{hex_of_words, same, write};
use crate::{inputs, Difference, Library, Tally, REFERENCE};
use reference::cases::hex_of;
use reference::generate::device_n::{damage_device_n_by, DEVICE_N_WAYS};
use reference::generate::programs::{
    damage_flat, damage_program_page_by, random_flat, PROGRAM_PAGE_WAYS,
};
use reference::generate::{damage, Rng};
use reference::numbers::{ONE, VALUES};
use reference::page::{components, spaces, Family};
use sktelbaan::LONGEST;
use std::fmt;

/// How many spaces of an accepted page are asked for, and how many colours of each.
const EACH: u64 = 2;

/// What was compared of pages with DeviceNs.
#[derive(Clone, Copy, Debug, Default, PartialEq, Eq)]
pub struct Pages {
    /// The pages, by their replies.
    pub pages: Tally,
    /// How many colours were asked for, of how many components.
    pub counts: [u64; VALUES + 1],
    /// The words of the longest recipe.
    pub longest: usize,
    /// The widest row of a palette.
    pub widest: usize,
    /// The colours, by their replies.
    pub colours: Tally,
}

impl fmt::Display for Pages {
    fn fmt(&self, f: &mut fmt::Formatter<'_>) -> fmt::Result {
        let Pages {
            pages,
            counts,
            longest,
            widest,
            colours,
        } = self;
        write!(
            f,
            "{pages}; colours of 1 to 8 components {:?}, ",
            &counts[1..]
        )?;
        write!(
            f,
            "the longest recipe {longest} words, the widest row {widest}; "
        )?;
        write!(f, "colours {colours}")
    }
}

/// A page with DeviceNs: accepted, or damaged in one of the ways that only such pages have, that pages with programs have,
/// or that any page has, each in its turn.
fn page(rng: &mut Rng, turn: u64) -> (Vec<u8>, &'static str) {
    let mut page = inputs::page_of_device_n(rng);
    let ways = DEVICE_N_WAYS + PROGRAM_PAGE_WAYS + 4;
    let name = match (turn / 2) as usize % ways {
        _ if turn.is_multiple_of(2) => "accepted",
        way if way < DEVICE_N_WAYS => damage_device_n_by(rng, &mut page, way),
        way if way < DEVICE_N_WAYS + PROGRAM_PAGE_WAYS => {
            damage_program_page_by(rng, &mut page, way - DEVICE_N_WAYS)
        }
        _ => damage(rng, &mut page),
    };
    (page, name)
}

/// A number to ask a page for, above all that of a DeviceN or of an Indexed space.
fn number(rng: &mut Rng, page: &[u8]) -> u32 {
    let wanted = |family: &Family| matches!(family, Family::DeviceN(_) | Family::Indexed);
    let found: Vec<u32> = spaces(page)
        .filter(|(_, family)| wanted(family))
        .map(|(number, _)| number)
        .collect();
    if found.is_empty() || rng.once_in(8) {
        return inputs::number(rng, page);
    }
    rng.pick(&found, 0)
}

/// A colour of this count: all within 0..1, one outside, all outside, near edges, or of another count.
fn colour(rng: &mut Rng, count: usize) -> Vec<i32> {
    let within = |rng: &mut Rng| (0..count).map(|_| rng.between(0, ONE)).collect::<Vec<_>>();
    match rng.below(6) {
        0 => inputs::colour(rng, count),
        1 => {
            let mut one = within(rng);
            if let Some(place) = one.get_mut(rng.below(count)) {
                *place = rng.pick(&[-1, ONE + 1, i32::MIN, i32::MAX], -1);
            }
            one
        }
        2 => (0..count)
            .map(|_| rng.pick(&[-1, ONE + 1, i32::MIN, i32::MAX, -ONE, 3 * ONE], -1))
            .collect(),
        3 => (0..count)
            .map(|_| rng.pick(&[0, ONE, ONE / 2, 1], 0))
            .collect(),
        _ => within(rng),
    }
}

/// Validates this many pages with DeviceNs, every other one of them damaged; on those that are accepted a few spaces are
/// asked for: their recipe, and colours by the page and by the recipe.
pub fn pages(library: &Library, rng: &mut Rng, pages: u64) -> Result<Pages, Difference> {
    let mut found = Pages::default();
    for turn in 0..pages {
        let (page, name) = page(rng, turn);
        let (bytes, start) = inputs::placed(rng, &page);
        let page = &bytes[start..];
        let expected = (REFERENCE.validate)(page);
        let reply = (library.validate)(page);
        let input = || format!("{name}, page {}", hex_of(page));
        same("validate, a DeviceN", &reply, &expected, input)?;
        found.pages.count(&reply);
        let asked = if reply.is_ok() {
            EACH
        } else {
            u64::from(turn % 8 == 1)
        };
        for _ in 0..asked {
            space(library, rng, page, &mut found)?;
        }
    }
    Ok(found)
}

/// Asks for one space of a page: its recipe, and colours by the page and by the recipe.
fn space(
    library: &Library,
    rng: &mut Rng,
    page: &[u8],
    found: &mut Pages,
) -> Result<(), Difference> {
    let number = number(rng, page);
    let mut words = Vec::new();
    if let Ok(count) = write(library, rng, page, number, LONGEST)? {
        words.resize(count, 0);
        let again = (library.write_recipe)(page, number, &mut words);
        same("write_recipe, again", &again, &Ok(count), || hex_of(page))?;
        found.longest = found.longest.max(count);
        if words[1] == 2 {
            found.widest = found.widest.max(words[2] as usize);
        }
    }
    for _ in 0..EACH {
        let count = components(page, number).unwrap_or(1).min(VALUES);
        let colour = colour(rng, count);
        if let Some(count) = found.counts.get_mut(colour.len()) {
            *count += 1;
        }
        let input = || {
            let (words, bytes) = (hex_of_words(&colour), hex_of(page));
            format!("number {number:x} components {words} page {bytes}")
        };
        let expected = (REFERENCE.evaluate)(page, number, &colour);
        let on_page = (library.evaluate)(page, number, &colour);
        same("evaluate, a DeviceN", &on_page, &expected, input)?;
        if !words.is_empty() {
            let reply = (library.run)(&words, &colour);
            same("a DeviceN's run against evaluate", &reply, &on_page, input)?;
        }
        found.colours.count_colour(&on_page);
    }
    Ok(())
}

/// The steps of a recipe with one step 13 and, now and then, a limit or a row of up to eight entries before it.
fn recipe(rng: &mut Rng) -> Vec<i32> {
    let (mut taken, mut left) = (1 + rng.below(VALUES), 1 + rng.below(4));
    let mut flat = random_flat(rng, taken, left);
    for _ in 0..rng.below(3) {
        damage_flat(rng, &mut flat);
    }
    if rng.once_in(12) {
        taken = rng.below(VALUES + 3);
    }
    if rng.once_in(16) {
        left = rng.below(6);
    }
    let input = match rng.below(16) {
        0 => rng.between(-1, VALUES as i32 + 2),
        _ => rng.between(1, VALUES as i32),
    };
    let mut words = vec![input];
    if rng.once_in(4) {
        let past = i32::from(rng.once_in(8));
        let k = rng.between(0, VALUES as i32 - 1 + past);
        words.extend([1, k, -ONE, 2 * ONE]);
    }
    if rng.once_in(4) {
        let past = i32::from(rng.once_in(8));
        let m = rng.between(1, VALUES as i32 + past);
        words.extend([2, m, 1]);
        words.extend((0..2 * m).map(|_| rng.between(-ONE, 2 * ONE)));
    }
    words.extend([13, taken as i32, left as i32, flat.len() as i32]);
    words.extend(flat);
    words.push(rng.pick(&[6, 6, 6, 4, 5, 10, 11], 6));
    words
}

/// Runs this many recipes with a step 13, whose closing step most often shows four values as they stand: right ones, and
/// ones with words changed, taken out, put in or doubled.
pub fn steps(library: &Library, rng: &mut Rng, recipes: u64) -> Result<Tally, Difference> {
    let mut tally = Tally::default();
    for _ in 0..recipes {
        let words = recipe(rng);
        let count = words.first().map_or(1, |count| (*count).clamp(0, 9)) as usize;
        let colour = colour(rng, count);
        let expected = (REFERENCE.run)(&words, &colour);
        let reply = (library.run)(&words, &colour);
        same("run, a step 13", &reply, &expected, || {
            let (colour, words) = (hex_of_words(&colour), hex_of_words(&words));
            format!("components {colour} words {words}")
        })?;
        tally.count_colour(&reply);
    }
    Ok(tally)
}
