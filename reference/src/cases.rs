//! The worked cases: numbers to be put to the other program, and what it is expected to reply.
//!
//! A case is one line, `LABEL: OP ARGS`; its reply is one line, `LABEL: RESULT`. The last argument may be
//! bytes: an `x`, then two hexadecimal digits for each, or a full stop for one that is zero.
//!
//! | no. | arguments | reply |
//! |---|---|---|
//! | 1 to 13 | numbers, or bytes | a number, bytes or floats |
//! | 20 | xBLOCK | one block read: `refused N`, or the record |
//! | 21 | the record | one block written into 512 bytes AA: `refused N`, with ` kept` where all are AA still, or `x` and the bytes |
//! | 30 | xPAGE | validated: `accepted`, or `refused N block B` |
//! | 31 | number count COMPONENTS xPAGE | the colour's answer |
//! | 32 | number length xPAGE | the recipe written into as many words, each 7: `words N` or `refused N block B`, ` kept` where the words past the recipe (all on a refusal) are 7 still, then the recipe |
//! | 33 | count COMPONENTS xWORDS | the answer of a recipe, whose words have four bytes each |
//! | 34 | xPAGE | the listing, its lines joined by `; ` |
//! | 35 | length length xPAGEPAGENAME | an ink by its name, of the job's page and the house page, whose lengths stand first: `found PAGE block B byte P` and `x` with the name's own bytes, or `refused N PAGE block B` |
//! | 36 | room part xTEXT | a designer's text, read in parts of so many bytes (0: in one part) with so many bytes of room, each AA, and ended twice: `page N` and ` x` with the N blocks, or `refused N at B`; then ` kept` where the room past the blocks (all on a refusal) is AA still |
//!
//! An answer is what it is in, `Gray`, `RGB`, `CMYK`, `XYZ`, `NoMark` or `EveryInk`, and its floats, 16 hexadecimal
//! digits each; after operations 31 and 33 then ` moved` where a limiting moved something. Or it is `refused N block B`.
//!
//! A record is its own number, its kind and the body's numbers in the paper's order (base hival; alternate
//! exponent name-length C0 C1; alternate count-of-names), then bytes: read, a Separation's 128 name places, the 500 places
//! of a DeviceN's packed names or a palette's or program's 504; to be written, the first of the record's 504 places, those
//! missing being zero.
//!
//! How a case is written stands in `format`, what it must print in `interpreter`; `maker` gathers cases, and the
//! other parts are the cases themselves.

mod blocks;
mod colours;
mod devicen;
mod flat;
mod format;
mod forms;
mod inks;
mod interpreter;
mod maker;
mod marks;
mod moved;
mod numbers;
mod pages;
mod paper;
mod program_pages;
mod program_texts;
mod programs;
mod recipes;
mod runs;
mod taking;
#[cfg(test)]
mod tests;
mod texts;

pub use format::{answer_text, dotted, float_text, hex_of, reply_text, Case};

/// All the worked cases, in the order in which they are put to the program: the paper's own, numbers and steps,
/// one block by itself, pages, colours with their recipes, the Separations None and All, colours that are pulled in, inks by
/// name, designers' texts, calculator programs (their texts, their blocks, and step 12 of a recipe), DeviceN, and step 13.
pub fn all() -> Vec<Case> {
    let groups = [
        paper::cases,
        numbers::cases,
        blocks::cases,
        forms::cases,
        pages::cases,
        colours::cases,
        recipes::cases,
        runs::cases,
        marks::cases,
        moved::cases,
        inks::cases,
        texts::cases,
        program_texts::cases,
        programs::cases,
        program_pages::cases,
        flat::cases,
        devicen::cases,
        taking::cases,
    ];
    groups.iter().flat_map(|make| make()).collect()
}

/// The text that puts cases to the program: one case to a line.
pub fn input_text(cases: &[Case]) -> String {
    cases.iter().map(|case| case.input_line() + "\n").collect()
}

/// The text that the program is expected to write: one result to a line.
pub fn output_text(cases: &[Case]) -> String {
    cases.iter().map(|case| case.output_line() + "\n").collect()
}
