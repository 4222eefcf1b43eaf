//! The comparisons. Each puts random input to the library and to the second implementation, and
//! stops at the first difference.

use crate::{inputs, ours, Difference, Library, Reply, Tally, REFERENCE};
use reference::cases::hex_of;
use reference::generate::Rng;
use sktelbaan::{Refusal, TextReader, Unread, LONGEST};
use std::fmt::Debug;

/// How many numbers are asked for on a page, and how many colours of a recipe are run.
const EACH: u64 = 8;

/// Words in hexadecimal, eight digits to a word.
pub(crate) fn hex_of_words(words: &[i32]) -> String {
    let bytes: Vec<u8> = words.iter().flat_map(|word| word.to_be_bytes()).collect();
    hex_of(&bytes)
}

/// The difference between two replies, where there is one.
pub(crate) fn same<T: PartialEq + Debug>(
    operation: &'static str,
    library: &T,
    reference: &T,
    input: impl FnOnce() -> String,
) -> Result<(), Difference> {
    if library == reference {
        Ok(())
    } else {
        Err(Difference {
            operation,
            input: input(),
            library: format!("{library:?}"),
            reference: format!("{reference:?}"),
        })
    }
}

/// Validates this many pages.
pub fn validate(library: &Library, rng: &mut Rng, pages: u64) -> Result<Tally, Difference> {
    let mut tally = Tally::default();
    for _ in 0..pages {
        let made = inputs::page(rng);
        let (bytes, start) = inputs::placed(rng, &made);
        let page = &bytes[start..];
        let expected = (REFERENCE.validate)(page);
        let reply = (library.validate)(page);
        same("validate", &reply, &expected, || {
            format!("page {}", hex_of(page))
        })?;
        tally.count(&reply);
    }
    Ok(tally)
}

/// Evaluates this many colours, a few on each page.
pub fn evaluate(library: &Library, rng: &mut Rng, colours: u64) -> Result<Tally, Difference> {
    let mut tally = Tally::default();
    while tally.total() < colours {
        let made = inputs::page_to_ask(rng);
        let (bytes, start) = inputs::placed(rng, &made);
        let page = &bytes[start..];
        for _ in 0..EACH.min(colours - tally.total()) {
            let number = inputs::number(rng, page);
            let colour = inputs::colour_at(rng, page, number);
            let expected = (REFERENCE.evaluate)(page, number, &colour);
            let reply = (library.evaluate)(page, number, &colour);
            same("evaluate", &reply, &expected, || {
                let (words, bytes) = (hex_of_words(&colour), hex_of(page));
                format!("number {number:x} components {words} page {bytes}")
            })?;
            tally.count_colour(&reply);
        }
    }
    Ok(tally)
}

/// Room of this many words that are all different, so that a moved one is noticed.
fn room(rng: &mut Rng, length: usize) -> Vec<i32> {
    let first = rng.next() as i32;
    (0..length as i32)
        .map(|k| first.wrapping_add(k.wrapping_mul(0x0101_0101)))
        .collect()
}

/// Writes a recipe into room of this length, and compares every word of it afterwards.
pub(crate) fn write(
    library: &Library,
    rng: &mut Rng,
    page: &[u8],
    number: u32,
    length: usize,
) -> Result<Reply<usize>, Difference> {
    let before = room(rng, length);
    let (mut ours, mut theirs) = (before.clone(), before.clone());
    let expected = (REFERENCE.write_recipe)(page, number, &mut theirs);
    let reply = (library.write_recipe)(page, number, &mut ours);
    let input = || format!("number {number:x} length {length} page {}", hex_of(page));
    same("write_recipe", &reply, &expected, input)?;
    same("write_recipe, the words", &ours, &theirs, input)?;
    // The second implementation is held to the same: words past the recipe, and all on a refusal, stay.
    let written = reply.unwrap_or(0);
    same(
        "write_recipe, the words past it",
        &ours.get(written..),
        &before.get(written..),
        input,
    )?;
    Ok(reply)
}

/// What writing recipes and running them came to.
#[derive(Clone, Copy, Debug, Default)]
pub struct Recipes {
    /// The writings, by their replies.
    pub written: Tally,
    /// The runs of written recipes, each held to the colour on its page.
    pub run: Tally,
    /// The words of the longest recipe.
    pub longest: usize,
}

/// Writes recipes into room of every length about theirs, then runs this many colours through them,
/// each held to the colour on the page by both implementations.
pub fn recipes(library: &Library, rng: &mut Rng, colours: u64) -> Result<Recipes, Difference> {
    let mut found = Recipes::default();
    while found.run.total() < colours {
        let made = inputs::page_to_ask(rng);
        let (bytes, start) = inputs::placed(rng, &made);
        let page = &bytes[start..];
        let number = inputs::number(rng, page);
        let reply = write(library, rng, page, number, LONGEST)?;
        found.written.count(&reply);
        let Ok(count) = reply else {
            for length in [0, 1, rng.below(LONGEST)] {
                let reply = write(library, rng, page, number, length)?;
                found.written.count(&reply);
            }
            continue;
        };
        found.longest = found.longest.max(count);
        let around = count.saturating_sub(2)..=count + 2;
        let below = rng.below(count);
        for length in around.chain([0, 1, below, LONGEST + 1, LONGEST + 500]) {
            let reply = write(library, rng, page, number, length)?;
            found.written.count(&reply);
        }
        // Just the recipe's words, as the library wrote them.
        let mut words = vec![0; count];
        let again = (library.write_recipe)(page, number, &mut words);
        same("write_recipe, again", &again, &reply, || hex_of(page))?;
        for _ in 0..EACH.min(colours - found.run.total()) {
            let colour = inputs::colour_at(rng, page, number);
            let expected = (REFERENCE.evaluate)(page, number, &colour);
            let input = || {
                let (words, bytes) = (hex_of_words(&colour), hex_of(page));
                format!("number {number:x} components {words} page {bytes}")
            };
            let on_page = (library.evaluate)(page, number, &colour);
            same("evaluate", &on_page, &expected, input)?;
            let reply = (library.run)(&words, &colour);
            same("a recipe's run against evaluate", &reply, &on_page, input)?;
            found.run.count_colour(&reply);
        }
    }
    Ok(found)
}

/// Runs this many lists of words, each also cut short once in a while.
pub fn run(library: &Library, rng: &mut Rng, lists: u64) -> Result<Tally, Difference> {
    let mut tally = Tally::default();
    while tally.total() < lists {
        let words = inputs::words(rng);
        let count = words.first().map_or(1, |count| (*count).clamp(0, 4));
        let colour = inputs::colour(rng, count as usize);
        let mut one = |words: &[i32]| {
            let expected = (REFERENCE.run)(words, &colour);
            let reply = (library.run)(words, &colour);
            same("run", &reply, &expected, || {
                format!(
                    "components {} words {}",
                    hex_of_words(&colour),
                    hex_of_words(words)
                )
            })?;
            tally.count_colour(&reply);
            Ok(())
        };
        one(&words)?;
        if rng.once_in(400) {
            for length in 0..words.len().min(40) {
                one(&words[..length])?;
            }
        }
    }
    Ok(tally)
}

/// Writes this many records, each as a block of its own; one that is accepted is read back.
pub fn write_block(library: &Library, rng: &mut Rng, records: u64) -> Result<Tally, Difference> {
    let mut tally = Tally::default();
    for _ in 0..records {
        let record = ours(&inputs::record(rng));
        let expected = (REFERENCE.write_block)(&record);
        let reply = (library.write_block)(&record);
        same("write_block", &reply, &expected, || format!("{record:?}"))?;
        tally.count(&reply);
        if let Ok(block) = reply {
            let again = (library.read_block)(&block);
            same("read_block, again", &again, &Ok(record), || hex_of(&block))?;
        }
    }
    Ok(tally)
}

/// Writes this many records of any numbers; one that is accepted reads back as the same numbers and bytes.
pub fn write_numbers(library: &Library, rng: &mut Rng, records: u64) -> Result<Tally, Difference> {
    let mut tally = Tally::default();
    for _ in 0..records {
        let (numbers, bytes) = inputs::numbers(rng);
        let expected = (REFERENCE.write_numbers)(&numbers, &bytes);
        let reply = (library.write_numbers)(&numbers, &bytes);
        let input = || format!("numbers {numbers:?} bytes {}", hex_of(&bytes));
        same("write_block, any numbers", &reply, &expected, input)?;
        tally.count(&reply);
        if let Ok(block) = reply {
            let again = sktelbaan::read_numbers(&block);
            same(
                "read_block, the numbers",
                &again,
                &Ok((numbers, bytes)),
                input,
            )?;
        }
    }
    Ok(tally)
}

/// Reads this many blocks; what is read is written back.
pub fn read_block(library: &Library, rng: &mut Rng, blocks: u64) -> Result<Tally, Difference> {
    let mut tally = Tally::default();
    for _ in 0..blocks {
        let made = inputs::block(rng);
        let (bytes, start) = inputs::placed(rng, &made);
        let block = &bytes[start..];
        let expected = (REFERENCE.read_block)(block);
        let reply = (library.read_block)(block);
        same("read_block", &reply, &expected, || hex_of(block))?;
        tally.count(&reply);
        if let Ok(record) = reply {
            let again = (library.write_block)(&record).map(|written| written.to_vec());
            same("write_block, again", &again, &Ok(made), || {
                format!("{record:?}")
            })?;
        }
    }
    Ok(tally)
}

/// A text as the library reads it, in parts that are cut at random; asked for twice, its end replies the same.
fn in_parts(rng: &mut Rng, text: &[u8], room: usize) -> Result<Vec<u8>, Unread> {
    let mut reader = TextReader::new(room);
    let mut rest = text;
    for _ in 0..rng.below(8) {
        let (part, others) = rest.split_at(rng.below(rest.len() + 1));
        reader.read(part);
        rest = others;
    }
    if rng.once_in(20) {
        rest.iter()
            .for_each(|byte| reader.read(std::slice::from_ref(byte)));
    } else {
        reader.read(rest);
    }
    let reply = reader.end();
    assert_eq!(
        reply,
        reader.end(),
        "the end of a text replies the same again"
    );
    reply
}

/// Reads this many texts: the page, or the refusal with its byte in place of a block.
pub fn texts(rng: &mut Rng, count: u64) -> Result<Tally, Difference> {
    let mut tally = Tally::default();
    for _ in 0..count {
        let (text, room) = inputs::text(rng);
        let expected = reference::text::read(&text, room / 512).map_err(|(number, at)| Refusal {
            number,
            block: at as u32,
        });
        let reply = in_parts(rng, &text, room).map_err(|unread| Refusal {
            number: unread.number,
            block: unread.at,
        });
        same("text", &reply, &expected, || {
            format!("room {room} text {}", hex_of(&text))
        })?;
        tally.count(&reply);
    }
    Ok(tally)
}
