//! The refusals, as FORMAT.md has them, and what usually helps.

use crate::args::Words;
use crate::help::wrapped;
use crate::json::Object;
use crate::refusals::{name_of, words_of, Stop, COUNT};
use crate::streams::Desk;

/// What usually helps, by the refusal's number, from 1 on.
const HELPS: [&str; COUNT as usize] = [
    "See that the file is a page, and that it was copied whole and as bytes, with no change of line ends.",
    "The block was damaged, or changed without writing its check anew. Copy the page again; or write the block anew: `sktelbaan block` prints a record and writes one, check and all.",
    "The note has the kind, the block's own number and the byte that is not zero. A block that was moved along the page has its old number: write it anew with `sktelbaan block`.",
    "The note has the record's numbers. White has X and Z above 0 and Y 1; black is not below 0; a CalGray gamma is above 0; a range has its low end first; hival is at most 255. The names of a DeviceN differ, but for None, and none is All.",
    "Gammas are 0.1 to 4.0 in whole tenths: write 1.8 for 1.85. Exponents are 1 to 4, and 0 stands for a program.",
    "The note has what is referred to. An Indexed space is over a device space or another space but Indexed; a Separation or a DeviceN over a device space, CalGray, CalRGB or Lab.",
    "A palette stands straight after its Indexed space, in as few blocks as hold it, zeros after it; a program straight after its Separation or DeviceN. C0 and C1 are zeros past the alternate's components, and beside a program.",
    "`sktelbaan list` has the numbers of a page's spaces and the names of its inks. Letter case counts in a name; `--house PAGE` has the house page asked next.",
    "`sktelbaan list` has how many components a space takes, in the column `in`; the first word of a recipe is how many it takes.",
    "One block is 512 bytes. This program always lends enough words for a recipe.",
    "Was the file cut, or changed by hand? Ask for the recipe again with `sktelbaan recipe`, and send it as it is. In text a recipe has decimal words and comments after %.",
    "Look at the caret. Most often it is a comma for a point, a missing bracket, a reference as `12 0 R`, which stands for an object of the document that the array was pasted from, or a space or function that is not carried.",
    "Numbers are -2147.483648 to 2147.483647, with at most six digits after the point: round by hand, and look at what is lost.",
    "A space has just the keys of its family, each once. WhitePoint must stand; a function has FunctionType, Domain and N, and C0 and C1 where the alternate has more than one component.",
    "Cut the text into two pages.",
    "The note has the program. Operators are in small letters, numbers have at most six digits after the point, braces stand in pairs with if or ifelse after them.",
    "The note has the program. It begins with the tint on the stack and ends with as many numbers as the alternate has components, on every branch.",
];

/// When a refusal is given, as FORMAT.md has it, in the words of the library.
fn told(number: u32) -> String {
    let (name, words) = (name_of(number), words_of(number));
    let help = wrapped(HELPS[number as usize - 1], "");
    format!("{number} ({name}): {words}\n{help}")
}

/// `explain [NUMBER]`: a refusal, and what usually helps; without a number, all of them.
pub(crate) fn explain(desk: &mut Desk<'_>, words: &Words, usage: &str) -> Result<u8, Stop> {
    let asked = words.expect(0, 1, usage)?;
    let Some(word) = asked.first() else {
        for number in 1..=COUNT {
            one(desk, number, false)?;
        }
        return Ok(0);
    };
    let text = word.to_string_lossy();
    let number = text.parse().ok().filter(|n| (1..=COUNT).contains(n));
    let Some(number) = number else {
        let words = format!("{text}: refusals have the numbers 1 to {COUNT}");
        return Err(Stop::wrong(words));
    };
    one(desk, number, true)?;
    Ok(0)
}

/// One refusal, with what helps or without.
fn one(desk: &mut Desk<'_>, number: u32, whole: bool) -> Result<(), Stop> {
    let (name, words) = (name_of(number), words_of(number));
    if desk.json {
        let object = Object::new()
            .number("number", i64::from(number))
            .text("name", name)
            .text("words", words)
            .text("helps", HELPS[number as usize - 1]);
        desk.say(&object.line())
    } else if whole {
        desk.say(&told(number))
    } else {
        desk.say(&format!("{number:>2} ({name}): {words}\n"))
    }
}
