//! Cases of the texts of document 02's calculator functions: accepted, 16 or 17.

use super::format::Case;
use super::maker::Maker;
use super::programs::over;
use crate::block::DEVICE_GRAY;
use crate::numbers::ONE;

const HALF: i32 = ONE / 2;

/// The cases of this group.
pub(super) fn cases() -> Vec<Case> {
    let mut maker = Maker::default();
    texts(&mut maker);
    odd_bytes(&mut maker);
    limits(&mut maker);
    maker.cases
}

/// Texts over DeviceGray: accepted, 16 or 17.
fn texts(maker: &mut Maker) {
    for text in [
        // One outer pair, with only white space and comments around it.
        "{ }",
        "{}",
        "{ } ",
        " { }",
        "{",
        "}",
        "{ } }",
        "{ { }",
        "{ } { }",
        "{ } 0",
        "0 { }",
        "neg",
        "{ } if",
        "% { }",
        "{ } % }",
        "{ neg } neg",
        // Unknown tokens.
        "{ div }",
        "{ sqrt }",
        "{ cvi }",
        "{ xor }",
        "{ mod pop }",
        "{ Neg }",
        "{ NEG }",
        "{ ne }",
        "{ negneg }",
        "{ (neg) }",
        "{ neg) }",
        "{ <00> pop }",
        "{ > }",
        "{ [ ] }",
        "{ ] }",
        "{ /neg }",
        "{ / }",
        "{ 1e5 pop }",
        "{ --5 pop }",
        "{ 1.2.3 pop }",
        "{ . pop }",
        "{ - pop }",
        "{ null pop }",
        // Numbers as in a designer's text.
        "{ pop +.5 }",
        "{ pop -0. }",
        "{ pop 007 }",
        "{ pop 0.000001 }",
        "{ pop 0.0000001 }",
        "{ pop 1.0000000 }",
        "{ pop 1.000000 }",
        "{ pop 2147.483647 }",
        "{ pop 2147.483648 }",
        "{ pop -2147.483648 }",
        "{ pop -2147.483649 }",
        "{ pop 2148 }",
        "{ pop 99999999999999999999 }",
        // Pairs, if and ifelse.
        "{ true { } if }",
        "{ true { } { } ifelse }",
        "{ true { } { } if }",
        "{ true { } ifelse }",
        "{ true { } { } { } ifelse }",
        "{ true { } dup if }",
        "{ true { } 0 { } ifelse }",
        "{ true { } }",
        "{ true { } { } }",
        "{ true if }",
        "{ true ifelse }",
        "{ if { } true }",
        "{ true { if } if }",
        // 16 of the whole text comes before any 17.
        "{ pop pop div }",
        "{ add } }",
        "{ copy 0.0000001 }",
        "{ true add }",
        // Stack, kinds, and what is left.
        "{ pop }",
        "{ dup }",
        "{ pop true }",
        "{ pop pop 0 }",
        "{ exch }",
        "{ add }",
        "{ pop abs }",
        "{ true neg }",
        "{ true abs pop }",
        "{ not pop 0 }",
        "{ true 1 add }",
        "{ 1 true sub }",
        "{ true false eq pop }",
        "{ true 1 ne pop }",
        "{ 1 and }",
        "{ true or pop }",
        "{ true true and pop }",
        "{ { } if }",
        "{ 1 { } { } ifelse }",
        "{ true pop }",
        "{ true exch pop 1 { } if }",
        // Both branches ending alike, taken or not.
        "{ true { 0 } if }",
        "{ false { 0 } if }",
        "{ true { pop } if }",
        "{ true { pop true } if }",
        "{ true { pop 5 } if }",
        "{ true { 0 } { } ifelse }",
        "{ true { } { 0 } ifelse }",
        "{ true { 0 } { 1 } ifelse pop }",
        "{ true { 0 } { true } ifelse pop }",
        "{ false { true } { false } ifelse pop }",
        "{ false { add } if }",
        "{ true { } { pop pop 0 } ifelse }",
        // Counts.
        "{ copy }",
        "{ dup copy pop }",
        "{ index }",
        "{ roll }",
        "{ 1 roll }",
        "{ 1 dup roll }",
        "{ 1 2 add copy }",
        "{ 1 1 copy 1 roll }",
        "{ 1 true { } if copy }",
        // A count stands in the same braces.
        "{ true 1 { copy pop } if }",
        "{ true 1 { 1 roll } if }",
        "{ 1 true { copy pop } if pop }",
        "{ true { 1 copy pop } if }",
        "{ 0 copy }",
        "{ 1 copy pop }",
        "{ 2 copy pop }",
        "{ 2.0 copy }",
        "{ dup 2.0 copy pop pop pop }",
        "{ 0.5 copy }",
        "{ 1.000001 copy }",
        "{ -1 copy }",
        "{ -0 copy }",
        "{ 2147 copy }",
        "{ 2148 copy }",
        "{ 0 index pop }",
        "{ 1 index pop }",
        "{ -1 index pop }",
        "{ 0.5 index pop }",
        "{ 2148 index pop }",
        "{ 0 0 roll }",
        "{ 1 1 roll }",
        "{ 0 -7 roll }",
        "{ 2 1 roll }",
        "{ -1 1 roll }",
        "{ 1 -1 roll }",
        "{ 1 0.5 roll }",
        "{ 0 0.5 roll }",
        "{ 0.5 1 roll }",
        "{ 1 2147 roll }",
        "{ 1 -2147 roll }",
        "{ 1 2148 roll }",
        // Tokens that run together only by a delimiter.
        "{neg}",
        "{true{neg}if}",
        "{pop 1%2\r}",
        "{ne%g\n}",
        "{1copy}",
        "{1 copy}",
    ] {
        let shown = text.replace('\r', " CR ").replace('\n', " LF ");
        maker.validate(
            &format!("program {shown}"),
            &over(DEVICE_GRAY, text.as_bytes()),
        );
    }
}

/// Bytes that end a token, are none, or are unknown.
fn odd_bytes(maker: &mut Maker) {
    for byte in [
        1, 8, 9, 10, 11, 12, 13, 14, 31, 32, 35, 37, 127, 128, 160, 255,
    ] {
        let text = [b"{ neg", &[byte][..], b"neg }"].concat();
        maker.validate(
            &format!("byte {byte} between two tokens"),
            &over(DEVICE_GRAY, &text),
        );
        let text = [b"{ % ", &[byte][..], b"\n neg }"].concat();
        maker.validate(
            &format!("byte {byte} in a comment"),
            &over(DEVICE_GRAY, &text),
        );
    }
    maker.validate(
        "a zero byte ends the program's text",
        &over(DEVICE_GRAY, b"{ }\0"),
    );
    maker.validate(
        "a zero byte ends an unfinished program",
        &over(DEVICE_GRAY, b"{ neg\0"),
    );
    maker.validate(
        "a comment that the end ends",
        &over(DEVICE_GRAY, b"{ } % and so on"),
    );
    maker.validate(
        "a comment that hides the last brace",
        &over(DEVICE_GRAY, b"{ % }"),
    );
    maker.validate("a comment that CR ends", &over(DEVICE_GRAY, b"{ % {\r }"));
    let mut text = b"{ }".to_vec();
    text.resize(504, b'%');
    maker.validate("a text that ends with its block", &over(DEVICE_GRAY, &text));
}

/// The bounds on tokens, nesting and the stack.
fn limits(maker: &mut Maker) {
    for count in [399, 400, 401] {
        let negs = "neg ".repeat(count - 2);
        let page = over(DEVICE_GRAY, format!("{{ {negs}}}").as_bytes());
        maker.validate(&format!("{count} tokens"), &page);
        maker.list(&format!("{count} tokens, listed"), &page);
    }
    // 21 tokens with counts, braces and the words after them, and the outer pair.
    let some = "dup 1 copy 0 index 2 1 roll pop pop pop true { } if false { } { } ifelse";
    for count in [400, 401] {
        let negs = "neg ".repeat(count - 23);
        let text = format!("{{ {some} % one two three\n{negs}}}");
        let label = format!("{count} tokens of every kind and a comment");
        maker.colour(&label, &over(DEVICE_GRAY, text.as_bytes()), 0, &[HALF]);
    }
    for depth in [7, 8, 9, 30] {
        let (open, close) = ("dup 0 ge { ".repeat(depth - 1), "} if ".repeat(depth - 1));
        let text = format!("{{ {open}1 exch sub {close}}}");
        let label = format!("nesting {depth}");
        maker.colour(&label, &over(DEVICE_GRAY, text.as_bytes()), 0, &[250_000]);
    }
    let up = "1 copy 2 copy 4 copy 8 copy 16 copy 32 copy";
    for (label, more) in [
        ("100 by copy", "36 copy"),
        ("101 by copy", "37 copy pop"),
        ("101 by dup", "36 copy dup pop"),
        ("101 by a number", "36 copy 0 pop"),
        ("101 by true", "36 copy true pop"),
        ("101 by index", "36 copy 99 index pop"),
        (
            "100 and counts, which are not on it",
            "36 copy 0 copy 100 7 roll 2 -1 roll",
        ),
        ("100 and index past it", "36 copy pop 99 index"),
        ("100 and a roll past it", "36 copy 101 1 roll"),
    ] {
        let text = format!("{{ {up} {more} {}}}", "pop ".repeat(99));
        maker.validate(
            &format!("a stack of {label}"),
            &over(DEVICE_GRAY, text.as_bytes()),
        );
    }
}
