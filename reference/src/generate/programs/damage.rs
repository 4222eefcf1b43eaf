//! Programs damaged in each way that a refusal is due for, and texts damaged anywhere.

use super::spelling::{plain, spelled, Word, Words};
use super::{random_words, MOST_TEXT, OUTER};
use crate::generate::Rng;
use crate::program::{MOST_NESTING, MOST_TOKENS};

/// How many ways `damaged_program` knows.
pub const PROGRAM_WAYS: usize = 22;

/// A way to damage the tokens of an accepted program.
type Way = fn(&mut Rng, &mut Words);

/// Every way, with its name in a few words and the refusal that it leads to.
const TABLE: [(&str, u32, Way); PROGRAM_WAYS] = [
    ("an unknown token", 16, unknown),
    ("a number finer than millionths", 16, too_fine),
    ("a number past 32 bits", 16, too_large),
    ("too many tokens", 16, too_many),
    ("a brace too few", 16, brace_lost),
    ("a brace too many", 16, brace_more),
    ("nesting 9", 16, too_deep),
    ("if without its pair", 16, lone_if),
    ("ifelse without its pairs", 16, lone_ifelse),
    ("a pair without if or ifelse", 16, lone_pair),
    ("a token between a pair and its if", 16, between),
    ("if and ifelse exchanged", 16, exchanged),
    ("a token outside the outer pair", 16, outside),
    ("no program at all", 16, nothing),
    ("a stack below 0", 17, below),
    ("a stack past 100", 17, past),
    ("a wrong kind", 17, wrong_kind),
    ("branches that end unlike", 17, unlike),
    ("a count missing", 17, missing),
    ("a count not whole", 17, not_whole),
    ("a count below 0 or past the stack", 17, beyond),
    ("another count of numbers left", 17, left_over),
];

/// A text of so many tints over an alternate of so many components that is refused, its refusal, and the damage in a few
/// words.
pub fn damaged_program(rng: &mut Rng, taken: usize, left: usize) -> (Vec<u8>, u32, &'static str) {
    let way = rng.below(PROGRAM_WAYS);
    damaged_program_by(rng, taken, left, way)
}

/// The same in the way of this number, 0 up to but not including `PROGRAM_WAYS`.
pub fn damaged_program_by(
    rng: &mut Rng,
    taken: usize,
    left: usize,
    way: usize,
) -> (Vec<u8>, u32, &'static str) {
    let (name, refusal, way) = TABLE[way % PROGRAM_WAYS];
    // These count on a stack of one tint, so the others are taken off before them.
    let alone = name == "a stack below 0" || name == "a count below 0 or past the stack";
    loop {
        let mut words = random_words(rng, if alone { 1 } else { taken }, left, 200);
        way(rng, &mut words);
        if alone {
            put(&mut words, 1, vec![plain(b"pop"); taken - 1]);
        }
        let text = spelled(rng, &words);
        if text.len() <= MOST_TEXT {
            return (text, refusal, name);
        }
    }
}

/// Damages a text anywhere: a byte or a run of bytes goes, changes, comes or is doubled, or the end is cut off. It may
/// still be accepted; it has at least one byte and no zero.
pub fn damage_program_text(rng: &mut Rng, text: &mut Vec<u8>) {
    let at = rng.below(text.len() + 1);
    let end = (at + 1 + rng.below(9)).min(text.len());
    match rng.below(6) {
        0 => text.truncate(at),
        1 => drop(text.drain(at..end)),
        2 => {
            let part = text[at..end].to_vec();
            text.splice(at..at, part);
        }
        3 => text.insert(
            at,
            rng.pick(b"{}%()<>[]/ \n.-+0123456789\x0b\x7f\x80\xff", b' '),
        ),
        4 => {
            let word = rng.pick(&ANY, b"dup");
            text.splice(at..at, [b" ", word, b" "].concat());
        }
        _ => {
            let word = rng.pick(&ANY, b"dup");
            text.splice(at..end, [b" ", word, b" "].concat());
        }
    }
    text.truncate(MOST_TEXT);
    if text.is_empty() {
        text.push(b'{');
    }
}

/// Words and groups of words that a program may have somewhere.
const ANY: [&[u8]; 44] = [
    b"add",
    b"sub",
    b"mul",
    b"neg",
    b"abs",
    b"eq",
    b"ne",
    b"gt",
    b"ge",
    b"lt",
    b"le",
    b"and",
    b"or",
    b"not",
    b"true",
    b"false",
    b"pop",
    b"exch",
    b"dup",
    b"copy",
    b"index",
    b"roll",
    b"if",
    b"ifelse",
    b"0",
    b"1",
    b"2",
    b"0.5",
    b"-1",
    b"100",
    b"2147",
    b"2148",
    b"0.0000001",
    b"1 copy",
    b"0 index",
    b"2 1 roll",
    b"{ }",
    b"{",
    b"}",
    b"{ } if",
    b"{ } { } ifelse",
    b"true { } if",
    b"div",
    b"dup pop",
];

/// Words that are no token of a program.
const UNKNOWN: [&[u8]; 33] = [
    b"(",
    b")",
    b"<",
    b">",
    b"[",
    b"]",
    b"/",
    b"<<",
    b">>",
    b"/dup",
    b"div",
    b"idiv",
    b"mod",
    b"sqrt",
    b"sin",
    b"cvi",
    b"cvr",
    b"floor",
    b"round",
    b"xor",
    b"bitshift",
    b"truncate",
    b"Dup",
    b"IF",
    b"1e5",
    b"--1",
    b"1.2.3",
    b".",
    b"+",
    b"-",
    b"dup\x0b",
    b"\x7f",
    b"\x80\xff",
];

/// Tokens written in words.
fn tokens(words: &[u8]) -> Words {
    words.split(|b| *b == b' ').map(plain).collect()
}

/// Puts tokens in at this place.
fn put(words: &mut Words, at: usize, more: Words) {
    words.splice(at..at, more);
}

/// Puts tokens in at any place, before and behind all others too.
fn put_anywhere(rng: &mut Rng, words: &mut Words, more: Words) {
    let at = rng.below(words.len() + 1);
    put(words, at, more);
}

/// Puts one of a few groups of tokens in behind the first brace, where the stack holds the tints.
fn put_first(rng: &mut Rng, words: &mut Words, groups: &[&[u8]]) {
    let group = rng.pick(groups, b"");
    put(words, 1, tokens(group));
}

/// The places of a token that is one of these.
fn places(words: &Words, wanted: &[&[u8]]) -> Vec<usize> {
    let is = |word: &Word| matches!(word, Word::Plain(plain) if wanted.contains(&&plain[..]));
    (0..words.len()).filter(|at| is(&words[*at])).collect()
}

fn unknown(rng: &mut Rng, words: &mut Words) {
    let word = rng.pick(&UNKNOWN, b"div");
    put_anywhere(rng, words, vec![plain(word)]);
}

fn too_fine(rng: &mut Rng, words: &mut Words) {
    let few: [&[u8]; 5] = [
        b"0.0000001",
        b"1.0000000",
        b"-.0000000",
        b"+2.1234567",
        b"0.00000000",
    ];
    let word = rng.pick(&few, b"0.0000001");
    put_anywhere(rng, words, vec![plain(word)]);
}

fn too_large(rng: &mut Rng, words: &mut Words) {
    let few: [&[u8]; 5] = [
        b"2147.483648",
        b"-2147.483649",
        b"2148",
        b"-99999",
        b"18446744073709551617",
    ];
    let word = rng.pick(&few, b"2148");
    put_anywhere(rng, words, vec![plain(word)]);
}

fn too_many(rng: &mut Rng, words: &mut Words) {
    let wanted = MOST_TOKENS + 1 + rng.pick(&[0, 0, 1, 9], 0);
    let more = wanted.saturating_sub(words.len());
    put(words, 1, vec![plain(b"neg"); more]);
}

fn brace_lost(rng: &mut Rng, words: &mut Words) {
    let at = rng.pick(&places(words, &[b"{", b"}"]), 0);
    words.remove(at);
}

fn brace_more(rng: &mut Rng, words: &mut Words) {
    let brace: &[u8] = rng.pick(&[b"{", b"}"], b"{");
    put_anywhere(rng, words, vec![plain(brace)]);
}

fn too_deep(rng: &mut Rng, words: &mut Words) {
    let more = MOST_NESTING + rng.below(3);
    put(words, 1, vec![tokens(b"} if"); more].concat());
    put(words, 1, vec![tokens(b"true {"); more].concat());
}

fn lone_if(rng: &mut Rng, words: &mut Words) {
    put_anywhere(rng, words, tokens(b"if"));
}

fn lone_ifelse(rng: &mut Rng, words: &mut Words) {
    put_anywhere(rng, words, tokens(b"ifelse"));
}

fn lone_pair(rng: &mut Rng, words: &mut Words) {
    put_anywhere(rng, words, tokens(b"{ }"));
}

/// Sees to a branch, and picks the place of its `if` or `ifelse`.
fn a_branch(rng: &mut Rng, words: &mut Words) -> usize {
    if places(words, &[b"if", b"ifelse"]).is_empty() {
        put_first(rng, words, &[b"true { } if", b"false { } { } ifelse"]);
    }
    rng.pick(&places(words, &[b"if", b"ifelse"]), OUTER)
}

fn between(rng: &mut Rng, words: &mut Words) {
    let at = a_branch(rng, words);
    let word = rng.pick(&[&b"dup"[..], b"0", b"true", b"copy"], b"dup");
    put(words, at, vec![plain(word)]);
}

fn exchanged(rng: &mut Rng, words: &mut Words) {
    let at = a_branch(rng, words);
    let other: &[u8] = match words[at] == plain(b"if") {
        true => b"ifelse",
        false => b"if",
    };
    words[at] = plain(other);
}

fn outside(rng: &mut Rng, words: &mut Words) {
    let end = words.len();
    let at = rng.pick(&[0, end], 0);
    let word = rng.pick(&[&b"0"[..], b"dup", b"pop", b"true"], b"0");
    put(words, at, vec![plain(word)]);
}

fn nothing(_: &mut Rng, words: &mut Words) {
    words.clear();
}

fn below(rng: &mut Rng, words: &mut Words) {
    let few: [&[u8]; 8] = [
        b"pop pop",
        b"exch",
        b"add",
        b"mul",
        b"le",
        b"pop dup",
        b"pop abs",
        b"pop { } if",
    ];
    put_first(rng, words, &few);
}

fn past(rng: &mut Rng, words: &mut Words) {
    let up = b"1 copy 2 copy 4 copy 8 copy 16 copy 32 copy ";
    let few: [&[u8]; 6] = [
        b"36 copy dup",
        b"37 copy",
        b"64 copy",
        b"36 copy 0",
        b"36 copy true",
        b"36 copy 99 index",
    ];
    let last = rng.pick(&few, b"64 copy");
    put(words, 1, tokens(&[&up[..], last].concat()));
}

fn wrong_kind(rng: &mut Rng, words: &mut Words) {
    let few: [&[u8]; 12] = [
        b"true add",
        b"not",
        b"dup and",
        b"dup or",
        b"true neg",
        b"true abs",
        b"true eq",
        b"true false lt",
        b"{ } if",
        b"dup { } { } ifelse",
        b"true exch mul",
        b"true 1 index and",
    ];
    put_first(rng, words, &few);
}

fn unlike(rng: &mut Rng, words: &mut Words) {
    let few: [&[u8]; 8] = [
        b"true { 0 } if",
        b"false { pop } if",
        b"true { pop true } if",
        b"true { 0 } { } ifelse",
        b"true { } { 0 } ifelse",
        b"true { 0 } { true } ifelse",
        b"0 true dup { exch } if",
        b"true dup { dup } { 1 index } ifelse",
    ];
    put_first(rng, words, &few);
}

fn missing(rng: &mut Rng, words: &mut Words) {
    let few: [&[u8]; 9] = [
        b"copy",
        b"index",
        b"roll",
        b"1 roll",
        b"dup copy",
        b"1 dup roll",
        b"1 copy 1 roll",
        b"1 true { } if copy",
        b"1 true { } if 1 roll",
    ];
    put_first(rng, words, &few);
}

fn not_whole(rng: &mut Rng, words: &mut Words) {
    let few: [&[u8]; 7] = [
        b"0.5 copy",
        b"0.000001 copy",
        b"0.5 index",
        b"0.5 1 roll",
        b"1 0.5 roll",
        b"0 0.5 roll",
        b"1 -0.000001 roll",
    ];
    put_first(rng, words, &few);
}

fn beyond(rng: &mut Rng, words: &mut Words) {
    let few: [&[u8]; 10] = [
        b"-1 copy",
        b"-1 index",
        b"-1 1 roll",
        b"2 copy",
        b"1 index",
        b"2 1 roll",
        b"101 copy",
        b"2147 copy",
        b"2147 0 roll",
        b"-2147 index",
    ];
    put_first(rng, words, &few);
}

fn left_over(rng: &mut Rng, words: &mut Words) {
    let few: [&[u8]; 6] = [b"dup", b"pop", b"0", b"true", b"pop true", b"0 copy pop"];
    let group = rng.pick(&few, b"dup");
    let end = words.len().saturating_sub(1);
    put(words, end, tokens(group));
}
