//! Programs as texts, in odd layouts.

use super::{MOST_TEXT, OUTER};
use crate::block::BODY;
use crate::generate::Rng;
use crate::program::{Item, Op, Program, OPERATORS};

/// A token to be written: a word or a brace as it stands, or a number of millionths in one of its spellings.
#[derive(Clone, Debug, PartialEq, Eq)]
pub(super) enum Word {
    /// Written as it stands.
    Plain(Vec<u8>),
    /// A number of millionths.
    Number(i32),
}

/// The tokens of a text, in order.
pub(super) type Words = Vec<Word>;

/// A word that is written as it stands.
pub(super) fn plain(word: &[u8]) -> Word {
    Word::Plain(word.to_vec())
}

/// The tokens of a program, its outer pair among them.
pub(super) fn words_of_tree(program: &Program) -> Words {
    let mut words = Vec::with_capacity(OUTER);
    pair(program, &mut words);
    words
}

/// A program or a branch in its braces.
fn pair(program: &Program, words: &mut Words) {
    words.push(plain(b"{"));
    for item in program {
        match item {
            Item::Number(v) => words.push(Word::Number(*v)),
            Item::Op(op) => words.push(plain(word_of(*op))),
            Item::Copy(count) => counted(&[*count], b"copy", words),
            Item::Index(count) => counted(&[*count], b"index", words),
            Item::Roll(count, by) => counted(&[*count, *by], b"roll", words),
            Item::If(branch) => {
                pair(branch, words);
                words.push(plain(b"if"));
            }
            Item::IfElse(first, second) => {
                pair(first, words);
                pair(second, words);
                words.push(plain(b"ifelse"));
            }
        }
    }
    words.push(plain(b"}"));
}

/// A word with its literal counts before it, those that there are.
fn counted(counts: &[Option<i32>], word: &[u8], words: &mut Words) {
    words.extend(counts.iter().flatten().map(|count| Word::Number(*count)));
    words.push(plain(word));
}

/// The word that an operator is written as.
fn word_of(op: Op) -> &'static [u8] {
    let known = OPERATORS.iter().find(|(_, other)| *other == op);
    known.map_or(b"", |(word, _)| *word)
}

/// Tokens as a text: loose, or tight where it would not fit in four blocks; never of no bytes.
pub(super) fn spelled(rng: &mut Rng, words: &Words) -> Vec<u8> {
    let mut text = laid(rng, words, true);
    if text.len() > MOST_TEXT {
        text = laid(rng, words, false);
    }
    if text.is_empty() {
        text.push(b' ');
    }
    // Now and then up to the end of a block, so that no zero ends the text.
    let full = text.len().next_multiple_of(BODY);
    if rng.once_in(8) && full <= MOST_TEXT {
        text.resize(full, b'\n');
    }
    text
}

/// Tokens one after the other, with gaps where they have to be and, in a loose layout, where they may be.
fn laid(rng: &mut Rng, words: &Words, loose: bool) -> Vec<u8> {
    let mut text = Vec::new();
    let mut regular = false;
    for word in words {
        let written = match word {
            Word::Plain(word) => word.clone(),
            Word::Number(v) => number(rng, *v, loose),
        };
        let first = written.first().copied().unwrap_or(b' ');
        let delimits = b"{}()<>[]/%".contains(&first);
        gap(rng, &mut text, regular && !delimits, loose);
        text.extend_from_slice(&written);
        regular = !delimits;
    }
    gap(rng, &mut text, false, loose);
    text
}

/// White space and comments: at least one byte of it where two tokens would else run together.
fn gap(rng: &mut Rng, text: &mut Vec<u8>, needed: bool, loose: bool) {
    let before = text.len();
    let parts = if loose { rng.below(3) } else { 0 };
    for _ in 0..parts {
        if rng.once_in(9) {
            comment(rng, text);
        } else {
            text.push(rng.pick(b"\t\n\x0c\r    ", b' '));
        }
    }
    if needed && text.len() == before {
        text.push(rng.pick(b" \n", b' '));
    }
}

/// A comment with its end: any bytes may stand in it but zero, CR and LF.
fn comment(rng: &mut Rng, text: &mut Vec<u8>) {
    text.push(b'%');
    for _ in 0..rng.below(6) {
        let any = (rng.next() as u8).max(14);
        text.push(rng.pick(&[b'{', b'}', b'%', b'(', b' ', b'a', any, any], b'a'));
    }
    text.push(rng.pick(b"\r\n", b'\n'));
}

/// A number of millionths in one of its spellings, the shortest where it is not loose.
fn number(rng: &mut Rng, v: i32, loose: bool) -> Vec<u8> {
    let mut odd = |n: usize| loose && rng.once_in(n);
    let sign = match v {
        ..0 => "-",
        0 if odd(6) => "-",
        _ if odd(10) => "+",
        _ => "",
    };
    let (whole, rest) = (v.unsigned_abs() / 1_000_000, v.unsigned_abs() % 1_000_000);
    let mut digits = format!("{rest:06}");
    if !odd(6) {
        digits = digits.trim_end_matches('0').to_string();
    }
    let zeros = if odd(10) { "00" } else { "" };
    let whole = match whole {
        0 if !digits.is_empty() && !odd(2) => String::new(),
        _ => whole.to_string(),
    };
    let point = if digits.is_empty() && !odd(8) {
        ""
    } else {
        "."
    };
    format!("{sign}{zeros}{whole}{point}{digits}").into_bytes()
}
