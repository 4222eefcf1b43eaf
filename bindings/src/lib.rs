//! A safe interface to Sktelbaan, a proved library of the colour-space records of PDF
//! (ISO 32000-1, clause 8.6).
//!
//! A page is 1 to [`MOST_BLOCKS`] blocks of 512 bytes. Its spaces are asked for by their block's number, and the
//! device spaces by [`DEVICE_GRAY`], [`DEVICE_RGB`] and [`DEVICE_CMYK`]. A block by itself is written
//! by [`write_block`] and read by [`read_block`]. An ink is asked for by its name with [`find_ink`], of
//! the job's page and the house page. Components are signed counts
//! of millionths: 1.0 is 1000000. Any input gets a reply: a page or a recipe may be broken in any way.
//!
//! ```
//! // A page with one space, the CalGray at block 0.
//! let page = include_bytes!("../../samples/gray.page");
//! sktelbaan::validate(page)?;
//!
//! let white = sktelbaan::evaluate(page, 0, &[1_000_000])?;
//! assert_eq!(white.answer, sktelbaan::Answer::Xyz([0.9505, 1.0, 1.089]));
//! assert!(!white.moved);
//!
//! // Its recipe answers the same colours, with no page.
//! let recipe = sktelbaan::recipe(page, 0)?;
//! assert_eq!(recipe.len(), 9);
//! assert_eq!(sktelbaan::run(&recipe, &[1_000_000])?, white);
//! # Ok::<(), sktelbaan::Refusal>(())
//! ```
#![deny(missing_docs)]
#![deny(unsafe_op_in_unsafe_fn)]

use std::fmt;

mod ink;
mod raw;
mod record;
mod text;

pub use ink::{find_ink, Ink, InkPage, InkRefusal};
pub use record::{read_block, read_numbers, write_block, write_numbers, Body, Record};
pub use text::{TextReader, Unread, PAGE_BYTES};

/// The most blocks of a page, as a literal, for the words of refusals.
macro_rules! most_blocks {
    () => {
        128
    };
}

/// The most blocks of a page.
pub const MOST_BLOCKS: usize = most_blocks!();

/// The number that asks for DeviceGray.
pub const DEVICE_GRAY: u32 = 0xff01;
/// The number that asks for DeviceRGB.
pub const DEVICE_RGB: u32 = 0xff03;
/// The number that asks for DeviceCMYK.
pub const DEVICE_CMYK: u32 = 0xff04;
/// How many words a recipe has at most: every recipe that is written fits so many, and more words are no recipe.
pub const LONGEST: usize = 2877;

/// The answer to a colour: what it is in, and its floats.
///
/// Two answers are equal where they are in the same space and every float has the same bits, so 0.0
/// and -0.0 differ.
///
/// ```
/// use sktelbaan::Answer;
/// assert_eq!(Answer::Gray(0.5), Answer::Gray(0.5));
/// assert_ne!(Answer::Gray(0.0), Answer::Gray(-0.0));
/// assert_ne!(Answer::Rgb([0.0; 3]), Answer::Xyz([0.0; 3]));
/// ```
///
/// A Separation named None marks nothing, nor does a DeviceN whose names are all None; a Separation named All is
/// every ink of the device at one tint:
///
/// ```
/// use sktelbaan::{evaluate, Answer};
/// let page = include_bytes!("../../samples/marks.page");
/// assert_eq!(evaluate(page, 0, &[250_000])?.answer, Answer::NoMark);
/// assert_eq!(evaluate(page, 1, &[250_000])?.answer, Answer::EveryInk(0.25));
/// # Ok::<(), sktelbaan::Refusal>(())
/// ```
#[derive(Clone, Copy, Debug)]
pub enum Answer {
    /// DeviceGray.
    Gray(f64),
    /// DeviceRGB: red, green, blue.
    Rgb([f64; 3]),
    /// DeviceCMYK: cyan, magenta, yellow, black.
    Cmyk([f64; 4]),
    /// CIE X, Y, Z.
    Xyz([f64; 3]),
    /// Nothing is to be marked: the answer of a Separation named None, and of a DeviceN whose names are
    /// all None. It has no float.
    NoMark,
    /// Every ink of the device, at this tint: the answer of a Separation named All.
    EveryInk(f64),
}

impl Answer {
    /// The floats, in order: one, three or four of them, or none.
    ///
    /// ```
    /// use sktelbaan::Answer;
    /// assert_eq!(Answer::Rgb([0.25, 1.0, 0.0]).floats(), [0.25, 1.0, 0.0]);
    /// assert_eq!(Answer::EveryInk(0.5).floats(), [0.5]);
    /// assert!(Answer::NoMark.floats().is_empty());
    /// ```
    pub fn floats(&self) -> &[f64] {
        match self {
            Answer::Gray(v) | Answer::EveryInk(v) => std::slice::from_ref(v),
            Answer::Rgb(v) | Answer::Xyz(v) => v,
            Answer::Cmyk(v) => v,
            Answer::NoMark => &[],
        }
    }
}

impl PartialEq for Answer {
    fn eq(&self, other: &Self) -> bool {
        std::mem::discriminant(self) == std::mem::discriminant(other)
            && self
                .floats()
                .iter()
                .zip(other.floats())
                .all(|(a, b)| a.to_bits() == b.to_bits())
    }
}

impl Eq for Answer {}

impl fmt::Display for Answer {
    /// What it is in and its floats, as `XYZ 0.9505 1 1.089` or `NoMark`.
    fn fmt(&self, f: &mut fmt::Formatter<'_>) -> fmt::Result {
        f.write_str(match self {
            Answer::Gray(_) => "Gray",
            Answer::Rgb(_) => "RGB",
            Answer::Cmyk(_) => "CMYK",
            Answer::Xyz(_) => "XYZ",
            Answer::NoMark => "NoMark",
            Answer::EveryInk(_) => "EveryInk",
        })?;
        self.floats().iter().try_for_each(|v| write!(f, " {v}"))
    }
}

/// What comes back for a colour: its answer, and whether the colour was pulled in.
///
/// ```
/// use sktelbaan::{evaluate, Answer, Colour};
/// // An Indexed space with hival 7. Index 7.4 is rounded to 7, which moves nothing; 7.5 is rounded to 8.
/// let page = include_bytes!("../../samples/indexed.page");
/// let white = Answer::Rgb([1.0; 3]);
/// assert_eq!(evaluate(page, 0, &[7_400_000])?, Colour { answer: white, moved: false });
/// assert_eq!(evaluate(page, 0, &[7_500_000])?, Colour { answer: white, moved: true });
/// # Ok::<(), sktelbaan::Refusal>(())
/// ```
#[derive(Clone, Copy, Debug, PartialEq, Eq)]
pub struct Colour {
    /// The answer.
    pub answer: Answer,
    /// Whether some component, tint or index lay outside its range and was taken to the nearest end,
    /// in the space asked for or in one inside it.
    pub moved: bool,
}

impl fmt::Display for Colour {
    /// The answer, then `moved` where the colour was pulled in, as `Gray 1 moved`.
    fn fmt(&self, f: &mut fmt::Formatter<'_>) -> fmt::Result {
        write!(
            f,
            "{}{}",
            self.answer,
            if self.moved { " moved" } else { "" }
        )
    }
}

/// Why there is no answer. A refusal leaves all that was lent as it was.
///
/// ```
/// let refusal = sktelbaan::validate(&[0; 100]).unwrap_err();
/// assert_eq!((refusal.number, refusal.block), (1, 0));
/// let words = format!("the page is not 1 to {} blocks of 512 bytes", sktelbaan::MOST_BLOCKS);
/// assert_eq!(refusal.to_string(), format!("refused 1 block 0: {words}"));
/// ```
#[derive(Clone, Copy, Debug, PartialEq, Eq, Hash)]
pub struct Refusal {
    /// The refusal's number, 1 to 11, 16 or 17: a text has its own, in [`Unread`].
    pub number: u32,
    /// The block that the refusal is about, 0 for a refusal that is about none.
    pub block: u32,
}

/// The refusals 1 to 17 in words, as C has them.
const MEANINGS: [&str; 17] = [
    concat!("the page is not 1 to ", most_blocks!(), " blocks of 512 bytes"),
    "a block's check is not that of its bytes",
    "a block of unknown kind, with a wrong own number, a byte that should be zero, a bad name, or not 1 to 8 names of a DeviceN",
    "a white point, black point, gamma, range or hival that PDF does not allow; or a DeviceN with equal names, or with All among them",
    "a gamma that is not 0.1 to 4.0 in whole tenths, or an exponent that is not 0 to 4",
    "a reference to no block of the page, or to a kind that may not be used there",
    "a palette too short, with spare bytes not zero, or of no Indexed space; a program missing, badly filled, or of no Separation or DeviceN; or C0 or C1 longer than the alternate's colours, or beside a program",
    "the number asked for is neither a device code nor a block with a space; or neither page has an ink of that name",
    "the wrong number of components",
    "too few words for the recipe, or not 512 bytes for a block",
    "the words are not a well-formed recipe",
    "the text has bad syntax, no space, or an entry of the wrong form or length, or is unfinished",
    "a number of the text is too large or too fine",
    "a key of the text is missing, doubled or unknown",
    concat!("the text has more than ", most_blocks!(), " blocks"),
    "a program has an unknown token, a number too large or too fine, too many tokens or bad nesting",
    "a program has a stack too low, too high or wrong at its end, a value of the wrong kind, or a count that is missing, not whole or beyond the stack",
];

/// When a refusal of this number is given.
fn meaning_of(number: u32) -> &'static str {
    let place = (number as usize).wrapping_sub(1);
    MEANINGS
        .get(place)
        .copied()
        .unwrap_or("not a refusal of this library")
}

impl Refusal {
    /// When a refusal of this number is given.
    pub fn meaning(&self) -> &'static str {
        meaning_of(self.number)
    }
}

impl fmt::Display for Refusal {
    fn fmt(&self, f: &mut fmt::Formatter<'_>) -> fmt::Result {
        let Refusal { number, block } = self;
        write!(f, "refused {number} block {block}: {}", self.meaning())
    }
}

impl std::error::Error for Refusal {}

/// What a reply gives, its high half, or the refusal that it is.
#[inline]
fn given(reply: u64) -> Result<u32, Refusal> {
    let high = (reply >> 32) as u32;
    match reply as u32 {
        0 => Ok(high),
        number => Err(Refusal {
            number,
            block: high,
        }),
    }
}

/// The bit of what an answer is in that says that the colour was pulled in: the reply's top bit.
const MOVED: u32 = 1 << 31;

/// The colour that a reply and its floats are, or the refusal.
#[inline]
fn colour(reply: u64, floats: [f64; 4]) -> Result<Colour, Refusal> {
    let [a, b, c, _] = floats;
    let given = given(reply)?;
    let answer = match given & !MOVED {
        1 => Answer::Gray(a),
        2 => Answer::Rgb([a, b, c]),
        3 => Answer::Cmyk(floats),
        4 => Answer::Xyz([a, b, c]),
        5 => Answer::NoMark,
        6 => Answer::EveryInk(a),
        other => unreachable!("an answer is one of six, not {other}"),
    };
    let moved = given & MOVED != 0;
    Ok(Colour { answer, moved })
}

/// Validates a page: 512 bytes for each of its 1 to [`MOST_BLOCKS`] blocks. Refusals 1 to 7, 16 and 17.
///
/// ```
/// // A block of zeros is a page with no spaces.
/// assert!(sktelbaan::validate(&[0; 512]).is_ok());
///
/// let mut damaged = [0; 512];
/// damaged[511] = 1;
/// assert_eq!(sktelbaan::validate(&damaged).unwrap_err().number, 2);
/// ```
#[inline]
pub fn validate(page: &[u8]) -> Result<(), Refusal> {
    // SAFETY: the pointer is good for reading as many bytes as are named.
    let reply = unsafe { raw::sktelbaan_validate(page.as_ptr(), page.len()) };
    given(reply).map(|_| ())
}

/// Evaluates a colour of the space at a number of a page, a block's number or a device code. A colour
/// of a DeviceN has a component for each of its names, 1 to 8.
/// Refusals of [`validate`], then 8, then 9. The page is validated each time.
///
/// ```
/// use sktelbaan::{evaluate, Answer, DEVICE_RGB};
/// // Components are limited to their range: 2.0 to 1.0 here.
/// let colour = evaluate(&[0; 512], DEVICE_RGB, &[250_000, 2_000_000, -1])?;
/// assert_eq!(colour.answer, Answer::Rgb([0.25, 1.0, 0.0]));
/// assert!(colour.moved);
/// // No space is at block 0 of this page, and RGB has three components.
/// assert_eq!(evaluate(&[0; 512], 0, &[0]).unwrap_err().number, 8);
/// assert_eq!(evaluate(&[0; 512], DEVICE_RGB, &[0]).unwrap_err().number, 9);
/// # Ok::<(), sktelbaan::Refusal>(())
/// ```
#[inline]
pub fn evaluate(page: &[u8], number: u32, components: &[i32]) -> Result<Colour, Refusal> {
    let mut floats = [0.0; 4];
    // SAFETY: page and components are good for reading as many bytes and numbers as are named, and
    // the four floats, which nothing else refers to, for writing.
    let reply = unsafe {
        raw::sktelbaan_evaluate(
            page.as_ptr(),
            page.len(),
            number,
            components.as_ptr(),
            components.len(),
            floats.as_mut_ptr(),
        )
    };
    colour(reply, floats)
}

/// Writes the recipe of the space at a number of a page into the first of the lent words, and gives
/// how many words it is; those past it stay as they were. Refusals of [`validate`], then 8, and 10 for too few
/// words: [`LONGEST`] are always enough.
///
/// ```
/// use sktelbaan::{write_recipe, DEVICE_GRAY};
/// let mut words = [7; 8];
/// assert_eq!(write_recipe(&[0; 512], DEVICE_GRAY, &mut words)?, 6);
/// assert_eq!(words, [1, 1, 0, 0, 1_000_000, 4, 7, 7]);
/// assert_eq!(write_recipe(&[0; 512], DEVICE_GRAY, &mut [0; 5]).unwrap_err().number, 10);
/// # Ok::<(), sktelbaan::Refusal>(())
/// ```
#[inline]
pub fn write_recipe(page: &[u8], number: u32, words: &mut [i32]) -> Result<usize, Refusal> {
    // SAFETY: the page is good for reading as many bytes as are named, and the words, which nothing
    // else refers to, for writing as many as are named.
    let reply = unsafe {
        raw::sktelbaan_write_recipe(
            page.as_ptr(),
            page.len(),
            number,
            words.as_mut_ptr(),
            words.len(),
        )
    };
    given(reply).map(|count| count as usize)
}

/// The recipe of the space at a number of a page, as a list of its own. Refusals of [`validate`], then 8.
///
/// ```
/// let words = sktelbaan::recipe(&[0; 512], sktelbaan::DEVICE_GRAY)?;
/// assert_eq!(words, [1, 1, 0, 0, 1_000_000, 4]);
/// # Ok::<(), sktelbaan::Refusal>(())
/// ```
pub fn recipe(page: &[u8], number: u32) -> Result<Vec<i32>, Refusal> {
    let mut words = [0; LONGEST];
    let count = write_recipe(page, number, &mut words)?;
    Ok(words[..count].to_vec())
}

/// Runs a recipe, just its words, on a colour's components. Refusals 11 and 9.
///
/// ```
/// use sktelbaan::{run, Answer, Colour};
/// // One component, which nothing limits, answered as DeviceGray.
/// let (answer, moved) = (Answer::Gray(1.5), false);
/// assert_eq!(run(&[1, 4], &[1_500_000])?, Colour { answer, moved });
/// // The same, limited to 0..1 first.
/// let (answer, moved) = (Answer::Gray(1.0), true);
/// assert_eq!(run(&[1, 1, 0, 0, 1_000_000, 4], &[1_500_000])?, Colour { answer, moved });
/// assert_eq!(run(&[1, 4], &[]).unwrap_err().number, 9);
/// assert_eq!(run(&[1], &[0]).unwrap_err().number, 11);
/// # Ok::<(), sktelbaan::Refusal>(())
/// ```
#[inline]
pub fn run(words: &[i32], components: &[i32]) -> Result<Colour, Refusal> {
    let mut floats = [0.0; 4];
    // SAFETY: words and components are good for reading as many as are named, and the four floats,
    // which nothing else refers to, for writing.
    let reply = unsafe {
        raw::sktelbaan_run(
            words.as_ptr(),
            words.len(),
            components.as_ptr(),
            components.len(),
            floats.as_mut_ptr(),
        )
    };
    colour(reply, floats)
}

#[cfg(test)]
mod tests {
    use super::*;

    /// Four floats to tell which are written.
    const MARKS: [f64; 4] = [-11.0, -12.0, -13.0, -14.0];

    fn run_into(words: &[i32], components: &[i32]) -> (u64, [f64; 4]) {
        let mut floats = MARKS;
        // SAFETY: as in `run`.
        let reply = unsafe {
            raw::sktelbaan_run(
                words.as_ptr(),
                words.len(),
                components.as_ptr(),
                components.len(),
                floats.as_mut_ptr(),
            )
        };
        (reply, floats)
    }

    fn evaluate_into(page: &[u8], number: u32, components: &[i32]) -> (u64, [f64; 4]) {
        let mut floats = MARKS;
        // SAFETY: as in `evaluate`.
        let reply = unsafe {
            raw::sktelbaan_evaluate(
                page.as_ptr(),
                page.len(),
                number,
                components.as_ptr(),
                components.len(),
                floats.as_mut_ptr(),
            )
        };
        (reply, floats)
    }

    #[test]
    fn run_leaves_the_floats_that_it_does_not_give() {
        let half = 500_000;
        let [_, b, c, d] = MARKS;
        assert_eq!(run_into(&[1, 4], &[half]), (1 << 32, [0.5, b, c, d]));
        let (reply, floats) = run_into(&[3, 5], &[half; 3]);
        assert_eq!((reply, floats), (2 << 32, [0.5, 0.5, 0.5, d]));
        assert_eq!(run_into(&[4, 6], &[half; 4]), (3 << 32, [0.5; 4]));
        let (reply, floats) = run_into(&[1, 7, 0, 0, 1_000_000], &[half]);
        assert_eq!((reply, floats), (4 << 32, [0.0, 0.5, 0.0, d]));
        assert_eq!(run_into(&[2, 10], &[half; 2]), (5 << 32, MARKS));
        assert_eq!(run_into(&[1, 11], &[half]), (6 << 32, [0.5, b, c, d]));
        // The top bit where something was moved.
        let (reply, floats) = run_into(&[1, 1, 0, 0, 0, 4], &[half]);
        assert_eq!((reply, floats), (1 << 63 | 1 << 32, [0.0, b, c, d]));
        let (reply, floats) = run_into(&[1, 1, 0, 0, 0, 10], &[half]);
        assert_eq!((reply, floats), (1 << 63 | 5 << 32, MARKS));
        assert_eq!(run_into(&[1, 4], &[]), (9, MARKS));
        assert_eq!(run_into(&[1, 4, 4], &[half]), (11, MARKS));
        assert_eq!(run_into(&[], &[]), (11, MARKS));
        // Eight components, of which step 13 takes all and leaves their sum; the others stay as they were.
        let eight = [&[8, 13, 8, 1, 7][..], &[7; 7], &[6]].concat();
        let colour = [half, 1_500_000, -half, 0, 0, 0, 0, half];
        let (reply, floats) = run_into(&eight, &colour);
        assert_eq!((reply, floats), (1 << 63 | 3 << 32, [2.0, 1.5, -0.5, 0.0]));
        assert_eq!(run_into(&eight, &colour[1..]), (9, MARKS));
        assert_eq!(run_into(&[9, 4], &[half; 9]), (11, MARKS));
    }

    #[test]
    fn evaluate_leaves_the_floats_that_it_does_not_give() {
        let page = [0; 512];
        let half = 500_000;
        let [_, b, c, d] = MARKS;
        for (number, count, expected) in [
            (DEVICE_GRAY, 1, (1 << 32, [0.5, b, c, d])),
            (DEVICE_RGB, 3, (2 << 32, [0.5, 0.5, 0.5, d])),
            (DEVICE_CMYK, 4, (3 << 32, [0.5; 4])),
            (DEVICE_GRAY, 0, (9, MARKS)),
            (0, 1, (8, MARKS)),
        ] {
            let components = vec![half; count];
            assert_eq!(evaluate_into(&page, number, &components), expected);
        }
        let moved = 1 << 63 | 1 << 32;
        let beyond = [1_000_001];
        assert_eq!(
            evaluate_into(&page, DEVICE_GRAY, &beyond),
            (moved, [1.0, b, c, d])
        );
        assert_eq!(evaluate_into(&[], DEVICE_GRAY, &beyond), (1, MARKS));
        assert_eq!(evaluate_into(&[], DEVICE_GRAY, &[half]), (1, MARKS));
        let mut second = [0; 1024];
        second[1023] = 1;
        let reply = 2 | (1 << 32);
        assert_eq!(evaluate_into(&second, DEVICE_GRAY, &[]), (reply, MARKS));
    }

    #[test]
    fn a_map_of_two_inks() {
        let page = include_bytes!("../../samples/map.page");
        assert_eq!(validate(page), Ok(()));
        let [c, m, y, k] = [0.235, 0.2125, 0.2125, 0.00625];
        let colour = evaluate(page, 0, &[250_000, 500_000]).unwrap();
        assert_eq!(colour.answer, Answer::Cmyk([c, m, y, k]));
        let words = recipe(page, 0).unwrap();
        assert_eq!((words.len(), &words[..4]), (67, &[2, 13, 2, 4][..]));
        assert_eq!(run(&words, &[250_000, 500_000]), Ok(colour));
        for count in [0, 1, 3, 8, 9] {
            let refusal = evaluate(page, 0, &vec![0; count]).unwrap_err();
            assert_eq!((refusal.number, refusal.block), (9, 0));
        }
        assert_eq!(evaluate(page, 9, &[7; 2]).unwrap().answer, Answer::NoMark);
        let record = read_block(&page[..512]).unwrap();
        assert_eq!(record.names(), [b"Blue", b"Buff"]);
    }

    #[test]
    fn a_recipe_takes_its_words_and_no_others() {
        let page = [0; 512];
        for room in 0..10 {
            let mut words = vec![7; room];
            match write_recipe(&page, DEVICE_GRAY, &mut words) {
                Ok(count) => {
                    assert!(count == 6 && room >= 6);
                    assert_eq!(words[..6], [1, 1, 0, 0, 1_000_000, 4]);
                    assert!(words[6..].iter().all(|word| *word == 7));
                }
                Err(refusal) => {
                    assert!(refusal.number == 10 && refusal.block == 0 && room < 6);
                    assert!(words.iter().all(|word| *word == 7));
                }
            }
        }
        assert_eq!(recipe(&page, 0).unwrap_err().number, 8);
    }

    #[test]
    fn answers_and_refusals_in_words() {
        let white = Answer::Xyz([0.9505, 1.0, 1.089]);
        assert_eq!(white.to_string(), "XYZ 0.9505 1 1.089");
        assert_eq!(Answer::Gray(-0.0).to_string(), "Gray -0");
        assert_eq!(Answer::NoMark.to_string(), "NoMark");
        let answer = Answer::Gray(1.0);
        for (moved, text) in [(false, "Gray 1"), (true, "Gray 1 moved")] {
            assert_eq!(Colour { answer, moved }.to_string(), text);
        }
        assert_eq!(Answer::EveryInk(0.25).to_string(), "EveryInk 0.25");
        assert_eq!(Answer::NoMark, Answer::NoMark);
        assert_ne!(Answer::EveryInk(0.5), Answer::Gray(0.5));
        assert_eq!(Answer::Gray(f64::NAN), Answer::Gray(f64::NAN));
        assert_ne!(Answer::Cmyk([0.0; 4]), Answer::Cmyk([0.0, 0.0, 0.0, -0.0]));
        let meanings: std::collections::HashSet<_> = (0..=17)
            .map(|number| Refusal { number, block: 0 }.meaning())
            .collect();
        assert_eq!(meanings.len(), 18);
    }

    /// The C headers, which have the same words and numbers.
    const HEADERS: &str = concat!(
        include_str!("../../include/sktelbaan_runner.h"),
        include_str!("../../include/sktelbaan.h")
    );

    #[test]
    fn refusals_have_the_words_of_the_header() {
        // The most blocks stand there by their name.
        let spelled = "\" SKTELBAAN_SPELLED(SKTELBAAN_MOST_BLOCKS) \"";
        let most = HEADERS
            .lines()
            .find_map(|line| line.strip_prefix("#define SKTELBAAN_MOST_BLOCKS "))
            .expect("the header has the most blocks");
        let texts: Vec<String> = HEADERS
            .lines()
            .filter_map(|line| line.trim().strip_prefix('"')?.strip_suffix("\","))
            .map(|text| text.replace(spelled, most))
            .collect();
        assert_eq!(texts, MEANINGS);
        let other = Refusal {
            number: 18,
            block: 0,
        }
        .meaning();
        assert!(HEADERS.contains(&format!(": \"{other}\";")));
    }

    #[test]
    fn numbers_are_those_of_the_header() {
        for (name, number) in [
            ("SKTELBAAN_DEVICE_GRAY", DEVICE_GRAY),
            ("SKTELBAAN_DEVICE_RGB", DEVICE_RGB),
            ("SKTELBAAN_DEVICE_CMYK", DEVICE_CMYK),
        ] {
            assert!(
                HEADERS.contains(&format!("{name} = 0x{number:X}")),
                "{name}"
            );
        }
        assert!(HEADERS.contains(&format!("SKTELBAAN_MOST_WORDS = {LONGEST} ")));
        assert!(HEADERS.contains(&format!("#define SKTELBAAN_MOST_BLOCKS {MOST_BLOCKS}\n")));
        for (name, number) in [
            ("SKTELBAAN_GRAY", 1),
            ("SKTELBAAN_RGB", 2),
            ("SKTELBAAN_CMYK", 3),
            ("SKTELBAAN_XYZ", 4),
            ("SKTELBAAN_NO_MARK", 5),
            ("SKTELBAAN_EVERY_INK", 6),
        ] {
            assert!(
                HEADERS.contains(&format!("    {name} = {number}")),
                "{name}"
            );
        }
        let version = concat!(
            "#define SKTELBAAN_VERSION \"",
            env!("CARGO_PKG_VERSION"),
            "\"\n"
        );
        assert!(HEADERS.contains(version));
    }
}
