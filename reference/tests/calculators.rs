//! Document 02, "Calculator functions for tints": readings by values worked out by hand.

mod common;
mod flat;

use common::{kept, moved};
use reference::cie::Answer;
use reference::numbers::ONE;
use reference::program::{judge, parse, results, words_of};
use reference::runner;

/// What a text leaves of a tint, or its refusal; and that its flat form leaves the same.
fn left(text: &str, count: usize, tint: i32) -> Result<Vec<i32>, u32> {
    let program = judge(text.as_bytes(), 1, count)?;
    let words = words_of(&program);
    assert!(runner::flat::holds(&words, 1, count), "{text}");
    assert!(flat::holds(&words, 1, count), "{text}");
    let results = results(&program, &[tint]).expect(text);
    assert_eq!(runner::flat::run(&words, &[tint]), results, "{text}");
    assert_eq!(
        flat::run(&words, &[tint]).as_ref(),
        Some(&results),
        "{text}"
    );
    Ok(results)
}

#[test]
fn values_by_hand() {
    let (least, most) = (i32::MIN, i32::MAX);
    for (text, tint, expected) in [
        ("{ }", 300_000, &[300_000][..]),
        ("{ 0.25 add }", 300_000, &[550_000]),
        ("{ 0.25 sub }", 200_000, &[-50_000]),
        ("{ 1 exch sub }", 200_000, &[800_000]),
        ("{ dup mul }", 500_000, &[250_000]),
        // 0.000001 x 0.5 is half a millionth, which rounds up; so does minus half a millionth.
        ("{ pop 0.000001 0.5 mul }", 0, &[1]),
        ("{ pop -0.000001 0.5 mul }", 0, &[0]),
        ("{ pop 0.000003 0.5 mul }", 0, &[2]),
        ("{ pop -0.000003 0.5 mul }", 0, &[-1]),
        ("{ pop -0.000001 0.500001 mul }", 0, &[-1]),
        ("{ pop 0.000001 0.499999 mul }", 0, &[0]),
        ("{ pop -2147.483648 dup mul }", 0, &[most]),
        ("{ pop -2147.483648 2147.483647 mul }", 0, &[least]),
        ("{ pop 2147.483647 0.000001 add }", 0, &[most]),
        ("{ pop -2147.483648 0.000001 sub }", 0, &[least]),
        ("{ pop -2147.483648 2147.483647 add }", 0, &[-1]),
        ("{ pop -2147.483648 neg }", 0, &[most]),
        ("{ pop -2147.483648 abs }", 0, &[most]),
        ("{ pop 2147.483647 neg }", 0, &[-most]),
        ("{ neg }", 0, &[0]),
        ("{ -1 mul abs }", 125_000, &[125_000]),
        ("{ pop 1 2 3 3 1 roll }", 0, &[3 * ONE, ONE, 2 * ONE]),
        ("{ pop 1 2 3 3 -1 roll }", 0, &[2 * ONE, 3 * ONE, ONE]),
        ("{ pop 1 2 3 3 2147 roll }", 0, &[2 * ONE, 3 * ONE, ONE]),
        ("{ pop 1 2 3 3 -2147 roll }", 0, &[3 * ONE, ONE, 2 * ONE]),
        ("{ pop 1 2 3 2 1 roll }", 0, &[ONE, 3 * ONE, 2 * ONE]),
        ("{ 1 1 roll 0 5 roll 1 -7.0 roll }", 7, &[7]),
        ("{ pop 1 2 2 copy }", 0, &[ONE, 2 * ONE, ONE, 2 * ONE]),
        ("{ pop 1 2 2.0 copy }", 0, &[ONE, 2 * ONE, ONE, 2 * ONE]),
        ("{ 0 copy -0 copy }", 9, &[9]),
        ("{ pop 1 2 1 index }", 0, &[ONE, 2 * ONE, ONE]),
        ("{ 0 index }", 5, &[5, 5]),
        ("{ 3 exch }", 5, &[3 * ONE, 5]),
        ("{ dup 0.5 lt { pop 0 } { dup pop } ifelse }", 499_999, &[0]),
        (
            "{ dup 0.5 lt { pop 0 } { dup pop } ifelse }",
            500_000,
            &[500_000],
        ),
        ("{ dup 0.5 le { neg } if }", 500_000, &[-500_000]),
        ("{ true { } if }", 1, &[1]),
        ("{ false { pop 7 } { pop 8 } ifelse }", 1, &[8 * ONE]),
        ("{ true not { neg } if }", 1, &[1]),
        ("{ true false or true and { neg } if }", 1, &[-1]),
        ("{ dup 0.000001 eq { pop 5 } if }", 1, &[5 * ONE]),
        ("{ dup 0.000001 ne { pop 5 } if }", 1, &[1]),
        ("{ dup 0 gt { pop 5 } if }", 0, &[0]),
        ("{ dup 0 ge { pop 5 } if }", 0, &[5 * ONE]),
        // The deeper operand is the first: 0.3 > 0.2.
        ("{ pop 0.3 0.2 gt { 1 } { 2 } ifelse }", 0, &[ONE]),
        ("{dup%}{\r0.5%x\ngt{pop 1}if\t\x0c}% (end", 600_000, &[ONE]),
        ("{.5 add +1. sub -00.25 add}", 0, &[-750_000]),
        ("{ }\0} what follows a zero is not read", 4, &[4]),
    ] {
        assert_eq!(
            left(text, expected.len(), tint),
            Ok(expected.to_vec()),
            "{text}"
        );
    }
}

#[test]
fn refusals_by_hand() {
    for (text, count, refusal) in [
        ("", 1, 16),
        (" % { }", 1, 16),
        ("{", 1, 16),
        ("}", 1, 16),
        ("{ } }", 1, 16),
        ("{ } { }", 1, 16),
        ("{ } 0", 1, 16),
        ("0 { }", 1, 16),
        ("{ } if", 1, 16),
        ("{ div }", 1, 16),
        ("{ Dup pop }", 1, 16),
        ("{ (a) }", 1, 16),
        ("{ <00> pop }", 1, 16),
        ("{ [ ] }", 1, 16),
        ("{ /dup }", 1, 16),
        ("{ 1e5 }", 1, 16),
        ("{ pop 1.0000000 }", 1, 16),
        ("{ pop 0.000000 }", 1, 0),
        ("{ pop 2147.483647 }", 1, 0),
        ("{ pop 2147.483648 }", 1, 16),
        ("{ pop -2147.483648 }", 1, 0),
        ("{ pop -2147.483649 }", 1, 16),
        ("{ 2148 copy }", 1, 16),
        ("{ 2147 copy }", 1, 17),
        ("{ true { } { } if }", 1, 16),
        ("{ true { } ifelse }", 1, 16),
        ("{ true { } { } { } ifelse }", 1, 16),
        ("{ true { } dup if }", 1, 16),
        ("{ true { } { } }", 1, 16),
        ("{ { } }", 1, 16),
        ("{ if }", 1, 16),
        ("{ true { } %c\n if }", 1, 0),
        // 16 of the whole text comes before any 17.
        ("{ pop pop pop div }", 1, 16),
        ("{ add } }", 1, 16),
        ("{ add }", 1, 17),
        ("{ pop }", 1, 17),
        ("{ dup }", 1, 17),
        // A count stands in the same braces.
        ("{ true 1 { copy pop } if }", 1, 17),
        ("{ true 1 { 1 roll } if }", 1, 17),
        ("{ 1 true { copy pop } if pop }", 1, 17),
        ("{ true { 1 copy pop } if }", 1, 0),
        ("{ dup }", 2, 0),
        ("{ dup }", 3, 17),
        ("{ pop true }", 1, 17),
        ("{ not pop 1 }", 1, 17),
        ("{ true neg }", 1, 17),
        ("{ true true eq { } if }", 1, 17),
        ("{ 1 and }", 1, 17),
        ("{ { } if }", 1, 17),
        ("{ true { 0 } if }", 1, 17),
        ("{ true { 0 } { } ifelse }", 1, 17),
        ("{ true { pop } { pop } ifelse 1 }", 1, 0),
        ("{ false { true not not } { false } ifelse pop }", 1, 0),
        // Kinds are fixed on branches that are never taken.
        ("{ false { pop pop 1 2 } if }", 1, 17),
        ("{ copy }", 1, 17),
        ("{ dup copy }", 1, 17),
        ("{ 1 2 add copy }", 1, 17),
        ("{ roll }", 1, 17),
        ("{ 1 roll }", 1, 17),
        ("{ 1 1 copy 1 roll }", 1, 17),
        ("{ 0.5 copy }", 1, 17),
        ("{ 0.5 index }", 1, 17),
        ("{ 1 0.5 roll }", 1, 17),
        ("{ 0 0.5 roll }", 1, 17),
        ("{ 0.5 1 roll }", 1, 17),
        ("{ -1 copy }", 1, 17),
        ("{ -1 index pop }", 1, 17),
        ("{ -1 1 roll }", 1, 17),
        ("{ 1 copy pop }", 1, 0),
        ("{ 2 copy }", 1, 17),
        ("{ 0 index pop }", 1, 0),
        ("{ 1 index pop }", 1, 17),
        ("{ 1 1 roll }", 1, 0),
        ("{ 2 1 roll }", 1, 17),
    ] {
        let found = left(text, count, 0).err().unwrap_or(0);
        assert_eq!(found, refusal, "{text}");
    }
    for byte in (1..=255).filter(|b| !b"\t\n\x0c\r {}%".contains(b) && !b.is_ascii_digit()) {
        let text = [b"{ ", &[byte][..], b" }"].concat();
        assert_eq!(judge(&text, 1, 1), Err(16), "byte {byte}");
    }
}

#[test]
fn limits_by_hand() {
    // 400 tokens: the outer pair and 398 more.
    let tokens = |count: usize| format!("{{ {} }}", "neg ".repeat(count - 2));
    assert_eq!(left(&tokens(400), 1, 7), Ok(vec![7]));
    assert_eq!(left(&tokens(401), 1, 7), Err(16));
    // Counts, braces and both words of branches are tokens, comments are not.
    let all = |more: &str| {
        let some = "dup 1 copy 0 index 2 1 roll pop pop pop true { } if false { } { } ifelse ";
        format!(
            "{{ {some}% a comment\n{} {more} }}",
            "neg ".repeat(398 - 21)
        )
    };
    assert_eq!(left(&all(""), 1, 7), Ok(vec![-7]));
    assert_eq!(left(&all("neg"), 1, 7), Err(16));
    // Nesting 8 with the outer pair.
    let nested = |depth: usize| {
        let inner = depth - 1;
        format!(
            "{{ {} neg {} }}",
            "true { ".repeat(inner),
            "} if ".repeat(inner)
        )
    };
    assert_eq!(left(&nested(8), 1, 7), Ok(vec![-7]));
    assert_eq!(left(&nested(9), 1, 7), Err(16));
    // A stack of 100, the literal counts not on it.
    let high = |more: &str| {
        let up = "1 copy 2 copy 4 copy 8 copy 16 copy 32 copy 36 copy";
        format!("{{ {up} {more} {} }}", "pop ".repeat(99))
    };
    assert_eq!(left(&high(""), 1, 7), Ok(vec![7]));
    assert_eq!(
        left(&high("0 copy 100 1 roll 100 -2147 roll"), 1, 7),
        Ok(vec![7])
    );
    assert_eq!(left(&high("dup pop"), 1, 7), Err(17));
    assert_eq!(left(&high("0 pop"), 1, 7), Err(17));
    assert_eq!(left(&high("true pop"), 1, 7), Err(17));
    assert_eq!(left(&high("0 index pop"), 1, 7), Err(17));
    assert_eq!(left(&high("1 copy pop"), 1, 7), Err(17));
}

/// Of a flat form's words: by hand, right ones and ones that are 11.
#[test]
fn flat_forms_by_hand() {
    let example = "{ dup 0.5 lt { pop 0 } { dup pop } ifelse }";
    let words = [25, 1, 500_000, 14, 5, 5, 23, 1, 0, 6, 2, 25, 23];
    assert_eq!(words_of(&parse(example.as_bytes()).unwrap()), words);
    for (words, count, holds) in [
        (&[][..], 1, true),
        (&[], 2, false),
        (&[0], 1, false),
        (&[26], 1, false),
        (&[-1], 1, false),
        (&[1], 2, false),
        (&[1, 9], 2, true),
        (&[2], 1, false),
        (&[2, 1], 2, true),
        (&[2, 0], 1, true),
        (&[2, 2], 3, false),
        (&[2, -1], 1, false),
        (&[3, 0], 2, true),
        (&[3, 1], 2, false),
        (&[3, -1], 2, false),
        (&[4, 1], 1, false),
        (&[4, 1, i32::MIN], 1, true),
        (&[4, 0, i32::MAX], 1, true),
        (&[4, 2, 0], 1, false),
        (&[4, -1, 0], 1, false),
        (&[21, 5, 0], 1, true),
        (&[21, 5, 1], 1, false),
        (&[21, 5, -1], 1, false),
        (&[21, 5, -3, 18], 1, false),
        (&[5, 0], 0, false),
        (&[6, 0], 1, true),
        (&[6, 1], 1, false),
        (&[6, -2], 1, false),
        // A place to which no path comes.
        (&[6, 1, 18], 1, false),
        (&[21, 5, 2, 6, 1, 18], 1, true),
        (&[21, 5, 2, 6, 1, 18, 18], 1, true),
        (&[21, 5, 3, 6, 1, 18, 18], 1, false),
        // Into the middle of an item, and past the end.
        (&[21, 5, 1, 1, 9, 23], 1, false),
        (&[21, 5, 3, 1, 9, 23], 1, true),
        (&[21, 5, 4, 1, 9, 23], 1, false),
        (&[21, 5, i32::MAX, 1, 9, 23], 1, false),
        // Heights or kinds that are not fixed.
        (&[21, 5, 2, 1, 9], 2, false),
        (&[21, 5, 2, 23, 21, 23, 1, 0], 1, false),
        (&[23], 0, true),
        (&[23, 23], 0, false),
        (&[25, 16], 1, false),
        (&[21, 18], 2, false),
        (&[21], 2, false),
        // Jumps that cross, which no tree has.
        (&[21, 22, 5, 3, 5, 2, 18, 21, 23], 1, false),
        (&[21, 5, 4, 22, 5, 1, 18, 19, 19], 1, true),
    ] {
        assert_eq!(runner::flat::holds(words, 1, count), holds, "{words:?}");
        assert_eq!(flat::holds(words, 1, count), holds, "{words:?}");
    }
    // Step 12 replaces the first values and leaves the others; its tint is limited, and says so.
    let step = [3, 12, 2, 1, 25, 5];
    let answer = Answer::Rgb([0.5, 0.5, 3.0]);
    assert_eq!(
        runner::run(&step, &[ONE / 2, 2 * ONE, 3 * ONE]),
        kept(answer)
    );
    let answer = Answer::Rgb([1.0, 1.0, 3.0]);
    assert_eq!(
        runner::run(&step, &[ONE + 1, 2 * ONE, 3 * ONE]),
        moved(answer)
    );
    for ill in [
        &[1, 12, 0, 1, 23, 4][..],
        &[1, 12, 5, 8, 25, 25, 25, 25, 18, 18, 18, 18, 4],
        &[1, 12, 1, -1, 4],
        &[1, 12, 1, 1, 4],
        &[1, 12, 1, 2, 18, 4],
        &[1, 12, 2, 0, 4],
        &[1, 12, 1],
        &[1, 12, 1, 0],
    ] {
        assert_eq!(runner::run(ill, &[0]), Err((11, 0)), "{ill:?}");
    }
    assert_eq!(
        runner::run(&[1, 12, 1, 0, 4], &[0]),
        kept(Answer::Gray(0.0))
    );
}
