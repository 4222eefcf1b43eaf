//! Texts: what each form reads as, and every refusal with its place.

use super::generate::{damage_text, many_spaces, nested_text, random_text};
use super::{read, read_at_most, MOST_BYTES};
use crate::block::{
    read_block, Body, Record, BLOCK, DEVICE_CMYK, DEVICE_GRAY, DEVICE_RGB, MOST_BLOCKS,
};
use crate::generate::Rng;
use crate::page::validate;

const ONE: i32 = 1_000_000;
const WHITE: &str = "/WhitePoint[0.9505 1 1.089]";
const FUNCTION: &str = "<</FunctionType 2/Domain[0 1]/N 1>>";

fn gray(entries: &str) -> String {
    format!("[/CalGray<<{WHITE}{entries}>>]")
}

/// The records of the blocks that a text is read into.
fn records(text: &[u8]) -> Vec<Record> {
    let page = read(text, MOST_BLOCKS).expect("the text is accepted");
    page.chunks(BLOCK)
        .map(|block| read_block(block).expect("the block is accepted"))
        .collect()
}

fn first(text: &str) -> Body {
    records(text.as_bytes())[0].body
}

/// The refusal of a text, and its place.
fn refused(text: &[u8]) -> (u32, u64) {
    read(text, MOST_BLOCKS).expect_err("the text is refused")
}

/// Holds the refusal of a text to a number, at the first byte of a mark that stands in it once.
fn refuses(text: &str, number: u32, mark: &str) {
    let at: Vec<usize> = text.match_indices(mark).map(|(at, _)| at).collect();
    assert_eq!(at.len(), 1, "{mark} stands once in {text}");
    assert_eq!(refused(text.as_bytes()), (number, at[0] as u64), "{text}");
}

/// The same at the end of the text.
fn refuses_at_end(text: &str, number: u32) {
    assert_eq!(
        refused(text.as_bytes()),
        (number, text.len() as u64),
        "{text}"
    );
}

fn indexed(rest: &str) -> String {
    format!("[/Indexed/DeviceGray {rest}]")
}

fn separation(function: &str) -> String {
    format!("[/Separation/Ink/DeviceRGB<<{function}>>]")
}

#[test]
fn the_five_arrays_are_read() {
    let white = [950_500, ONE, 1_089_000];
    assert_eq!(
        first(&gray("/Gamma 2/BlackPoint[.1 0.2 +.3]")),
        Body::CalGray {
            white,
            black: [100_000, 200_000, 300_000],
            gamma: 2 * ONE
        }
    );
    assert_eq!(
        first(&format!(
            "[/CalRGB<</Gamma[1 2 3]/Matrix[1 2 3 4 5 6 7 8 -9]{WHITE}>>]"
        )),
        Body::CalRgb {
            white,
            black: [0; 3],
            gammas: [ONE, 2 * ONE, 3 * ONE],
            matrix: [1, 2, 3, 4, 5, 6, 7, 8, -9].map(|v| v * ONE),
        }
    );
    assert_eq!(
        first(&format!("[/Lab<<{WHITE}/Range[-1 1 -2 2]>>]")),
        Body::Lab {
            white,
            black: [0; 3],
            range: [-ONE, ONE, -2 * ONE, 2 * ONE]
        }
    );
    let blocks = records(b"[/Indexed/DeviceRGB 1(abcdef)]");
    assert_eq!(blocks.len(), 2);
    assert_eq!(
        blocks[0].body,
        Body::Indexed {
            base: DEVICE_RGB,
            hival: 1
        }
    );
    assert_eq!(&blocks[1].bytes[..7], b"abcdef\0");
    let ink = records(b"[/Separation/Go#6cd/DeviceCMYK<</FunctionType 2/Domain[0 1]/N 3/C0[0 0 0 0]/C1[.1 .2 .3 .4]>>]");
    assert_eq!(&ink[0].bytes[..5], b"Gold\0");
    assert_eq!(
        ink[0].body,
        Body::Separation {
            alternate: DEVICE_CMYK,
            exponent: 3,
            name_length: 4,
            c0: [0; 4],
            c1: [100_000, 200_000, 300_000, 400_000],
        }
    );
}

#[test]
fn missing_entries_get_defaults() {
    let white = [950_500, ONE, 1_089_000];
    assert_eq!(
        first(&gray("")),
        Body::CalGray {
            white,
            black: [0; 3],
            gamma: ONE
        }
    );
    assert_eq!(
        first(&format!("[/CalRGB<<{WHITE}>>]")),
        Body::CalRgb {
            white,
            black: [0; 3],
            gammas: [ONE; 3],
            matrix: [ONE, 0, 0, 0, ONE, 0, 0, 0, ONE],
        }
    );
    let wide = 100 * ONE;
    assert_eq!(
        first(&format!("[/Lab<<{WHITE}>>]")),
        Body::Lab {
            white,
            black: [0; 3],
            range: [-wide, wide, -wide, wide]
        }
    );
    assert_eq!(
        first(&format!("[/Separation/Ink/DeviceGray{FUNCTION}]")),
        Body::Separation {
            alternate: DEVICE_GRAY,
            exponent: 1,
            name_length: 3,
            c0: [0; 4],
            c1: [ONE, 0, 0, 0],
        }
    );
}

#[test]
fn blocks_are_taken_in_order_of_closing_brackets() {
    let inner = gray("");
    let text = format!("[/Indexed[/Separation/Ink{inner}{FUNCTION}]1<0102>]{inner}");
    let blocks = records(text.as_bytes());
    let kinds: Vec<u8> = blocks.iter().map(|record| record.body.kind()).collect();
    assert_eq!(kinds, [1, 5, 4, 6, 1]);
    assert_eq!(blocks[1].body.reference(), Some(0));
    assert_eq!(blocks[2].body.reference(), Some(1));
}

#[test]
fn strings_are_read_in_both_forms() {
    let palette = |text: &[u8], hival: usize| {
        let mut whole = format!("[/Indexed/DeviceGray {hival}").into_bytes();
        whole.extend_from_slice(text);
        whole.push(b']');
        records(&whole)[1].bytes[..=hival].to_vec()
    };
    assert_eq!(palette(b"(a(b)c)", 4), b"a(b)c");
    assert_eq!(
        palette(b"(\\n\\r\\t\\b\\f\\(\\)\\\\)", 7),
        b"\n\r\t\x08\x0c()\\"
    );
    assert_eq!(
        palette(b"(\\101\\1019\\7\\777\\0053)", 6),
        b"AA9\x07\xff\x053"
    );
    assert_eq!(palette(b"(a\\\nb\\\r\nc\\\rd\\x)", 4), b"abcdx");
    assert_eq!(palette(b"(a\rb\r\nc\nd\n\r)", 8), b"a\nb\nc\nd\n\n"[..9]);
    assert_eq!(palette(b"<4 1\n4\x002>", 1), b"AB");
    assert_eq!(palette(b"<414>", 1), b"A@");
    assert_eq!(palette(b"<aBcD>", 1), [0xab, 0xcd]);
    assert_eq!(palette(b"(a\\0)", 1), b"a\0");
}

#[test]
fn gaps_are_white_space_and_comments() {
    let text = b"% one [ (\r[%(\n/CalGray\0<<\t/WhitePoint\x0c[1 1%]\r\n1]>>%\n]%";
    assert_eq!(records(text).len(), 1);
    // VT is regular
    assert_eq!(refused(b"[/CalGray\x0b<<"), (12, 1));
    assert_eq!(refused(b"\x0b"), (12, 0));
}

#[test]
fn numbers_have_six_digits_after_the_point_and_32_bits() {
    let black = |v: &str| gray(&format!("/BlackPoint[{v} 0 0]"));
    for (v, value) in [
        ("2147.483647", i32::MAX),
        ("00001.5", 1_500_000),
        ("+7", 7 * ONE),
        ("-0", 0),
        ("3.", 3 * ONE),
        (".000001", 1),
    ] {
        let Body::CalGray { black, .. } = first(&black(v)) else {
            panic!("{v}");
        };
        assert_eq!(black[0], value, "{v}");
    }
    for v in [
        "2147.483648",
        "-2147.483649",
        "1.0000000",
        "99999",
        "123456789012345678901234567890",
    ] {
        refuses(&black(v), 13, v);
    }
    // in range, and refused by judging alone
    assert_eq!(refused(black("-2147.483648").as_bytes()), (4, 0));
    for v in [
        "1e5", "--5", "1.2.3", "+-1", "-", ".", "+.", "null", "true", "5-", "\u{b5}",
    ] {
        let text = black(&format!(" {v}"));
        let at = text.rfind("[ ").expect("a bracket") as u64 + 2;
        assert_eq!(refused(text.as_bytes()), (12, at), "{text}");
    }
}

#[test]
fn at_the_outermost_level_only_arrays_stand() {
    for mark in [
        "/DeviceGray",
        "7",
        "(x)",
        "<00>",
        "]",
        "<<",
        ">>",
        "word",
        "{",
        "}",
        ")",
    ] {
        let text = format!("{} {mark}", gray(""));
        assert_eq!(
            refused(text.as_bytes()),
            (12, gray("").len() as u64 + 1),
            "{text}"
        );
    }
    refuses_at_end("", 12);
    refuses_at_end("  % nothing", 12);
    // the second array is refused, and so the first is not written
    refuses(&format!("{}[/Gray]", gray("")), 12, "/Gray]");
}

#[test]
fn an_unfinished_text_is_12_at_its_end() {
    for text in [
        "[",
        "[/CalGray",
        "[/CalGray<<",
        "[/CalGray<</WhitePoint[1 1 1]>>",
        "[/Indexed/DeviceGray 0(",
        "[/CalGray(",
        "(",
        "((a)",
        "(a\\",
        "(a\\1",
        "<",
        "<0",
        ">",
        "[/CalGray<</WhitePoint[1 1 1]>",
        "[/Indexed/DeviceGray 0 <0",
        "[%",
    ] {
        refuses_at_end(text, 12);
    }
    refuses("[/CalGra", 12, "/CalGra");
    refuses_at_end("[/CalGray", 12);
    refuses("[/A#", 12, "/A#");
    refuses("[/A#4", 12, "/A#4");
    refuses("12", 12, "12");
}

#[test]
fn bad_syntax_is_12_at_the_first_byte_of_its_token() {
    refuses("[<0G", 12, "<0G");
    refuses("[/A#G(", 12, "/A#G");
    refuses("[/A#00(", 12, "/A#00");
    refuses("[/A#4 ", 12, "/A#4");
    refuses("[/A#4(", 12, "/A#4");
    refuses("[> >", 12, "> >");
    refuses("[/CalGray<< >x", 12, ">x");
    // a misplaced token is refused when it is complete
    refuses("[(a(b)c)<0G", 12, "(a(b)c)");
    refuses_at_end("[/CalGray (a", 12);
}

#[test]
fn a_name_is_compared_after_its_hashes() {
    assert_eq!(records(b"[/Cal#47ray<</W#68itePoint[1 1 1]>>]").len(), 1);
    refuses("[/calgray<<", 12, "/calgray");
    refuses("[/ <<", 12, "/ ");
    let long = "x".repeat(127);
    let ink = |name: &str| format!("[/Separation/{name} /DeviceGray{FUNCTION}]");
    assert_eq!(records(ink(&long).as_bytes()).len(), 1);
    for name in ["", &"x".repeat(128), &"#41".repeat(128)] {
        assert_eq!(refused(ink(name).as_bytes()), (12, 12));
    }
    assert_eq!(records(ink(&"#41".repeat(127)).as_bytes()).len(), 1);
    refuses("[/Separation(Ink)", 12, "(Ink)");
    refuses("[/Separation/Ink/Pattern", 12, "/Pattern");
}

#[test]
fn entries_are_held_to_their_form_and_length() {
    for (entry, mark) in [
        ("/Gamma[1]", "[1]"),
        ("/BlackPoint 0", "0>"),
        ("/BlackPoint[0 0]", "]>"),
        ("/BlackPoint[0 0 0 7]", "7]"),
        ("/BlackPoint[0 0 99999]]", "99999"),
        ("/BlackPoint[0 0/A]", "/A"),
        ("/BlackPoint[0 0 0(", "("),
        ("/Gamma/Gamma", "/Gamma>"),
        ("7", "7>"),
        ("<<", "<<>"),
    ] {
        let number = if mark == "99999" { 13 } else { 12 };
        let text = gray(entry);
        if mark == "(" {
            refuses_at_end(&text, 12);
        } else {
            refuses(&text, number, mark);
        }
    }
    // a number where none may stand is 12 and not 13
    refuses(&gray("/BlackPoint[0 0 0 99999]"), 12, "99999");
    refuses(&gray("/BlackPoint 1.0000000"), 12, "1.0000000");
    refuses("[/CalGray/Gamma", 12, "/Gamma");
    refuses(&format!("[/CalGray<<{WHITE}>>/X]"), 12, "/X");
    refuses("[/Indexed 7", 12, "7");
    refuses(&indexed("/A"), 12, "/A");
    refuses(&indexed("0/A"), 12, "/A");
    refuses(&indexed("0(a)(b)"), 12, "(b)");
    refuses(&indexed(""), 12, "]");
}

#[test]
fn a_missing_doubled_or_unknown_key_is_14() {
    refuses("[/CalGray<</Gamma 1>>]", 14, ">>");
    refuses(&gray("/WhitePoint [1 1 1]"), 14, "/WhitePoint [");
    refuses(&gray("/Range[0 1]"), 14, "/Range");
    refuses(&gray("/Matrix(x)"), 14, "/Matrix");
    refuses(&gray("/gamma 1"), 14, "/gamma");
    refuses(&format!("[/CalRGB<<{WHITE}/Range[1]>>]"), 14, "/Range");
    refuses(&format!("[/Lab<<{WHITE}/Gamma 1>>]"), 14, "/Gamma");
    let ends = "/C0[0 0 0]/C1[1 1 1]";
    refuses(
        &separation(&format!("/FunctionType 2/N 1{ends}/Range[0 1]")),
        14,
        "/Range",
    );
    refuses(&separation(&format!("/FunctionType 2/N 1{ends}")), 14, ">>");
    refuses(
        &separation(&format!("/FunctionType 2/Domain[0 1]{ends}")),
        14,
        ">>",
    );
    refuses(&separation(&format!("/Domain[0 1]/N 1{ends}")), 14, ">>");
    refuses(
        &separation("/FunctionType 2/Domain[0 1]/N 1/C0[0 0 0]"),
        14,
        ">>",
    );
    refuses(
        &separation("/FunctionType 2/Domain[0 1]/N 1/C1[0 0 0]"),
        14,
        ">>",
    );
}

#[test]
fn a_function_is_of_type_2_over_0_to_1() {
    for (v, number) in [
        ("3", 12),
        ("-2", 12),
        ("99999", 12),
        ("2.0000001", 12),
        ("2.0000000", 13),
        ("2.5", 12),
    ] {
        refuses(
            &separation(&format!("/FunctionType  {v} ")),
            number,
            &format!(" {v} ")[1..],
        );
    }
    for two in ["2.000", "02.", "+2"] {
        let text = format!("[/Separation/Ink/DeviceGray<</FunctionType {two}/Domain[0 1]/N 1>>]");
        assert!(read(text.as_bytes(), MOST_BLOCKS).is_ok(), "{two}");
    }
    refuses(&separation("/Domain[1 0]"), 12, "1 0");
    refuses(&separation("/Domain[0 7]"), 12, "7");
    refuses(&separation("/Domain[0 1.0000000]"), 13, "1.0000000");
    refuses(&separation("/Domain[0 1.0000001]"), 12, "1.0000001");
    refuses(&separation("/Domain[0]"), 12, "]>");
    refuses(&separation("/Domain[0 1 7]"), 12, "7");
    assert!(read(
        b"[/Separation/Ink/DeviceGray<</FunctionType 2/Domain[-0 1.0]/N 1>>]",
        MOST_BLOCKS
    )
    .is_ok());
    for v in ["0", "5", "1.5", "-1", "4.000001"] {
        refuses(&separation(&format!("/N  {v}/")), 5, &format!(" {v}/")[1..]);
    }
    refuses(&separation("/N 99999"), 13, "99999");
    refuses(&separation("/C0[0 0]"), 12, "]>");
    refuses(&separation("/C1[0 0 0 7]"), 12, "7");
}

#[test]
fn hival_and_palette() {
    for v in ["256", "-1", "0.5", "2147.483647"] {
        refuses(&indexed(&format!("{v}(a)")), 4, &format!("{v}("));
    }
    refuses(&indexed("99999(a)"), 13, "99999");
    refuses(&indexed("1.0000000(a)"), 13, "1.0000000");
    assert_eq!(records(indexed("3.0(abcd)").as_bytes()).len(), 2);
    assert_eq!(records(indexed("-0<41>").as_bytes()).len(), 2);
    refuses(&indexed("1(a)"), 7, "(a)");
    refuses(&indexed("0(ab)"), 7, "(ab)");
    refuses(&indexed("0<>"), 7, "<>");
    // three blocks of palette
    let text = format!("[/Indexed/DeviceCMYK 255<{}>]", "00".repeat(1024));
    assert_eq!(records(text.as_bytes()).len(), 4);
}

#[test]
fn more_than_128_blocks_is_15_and_more_than_the_room_10() {
    let mut rng = Rng::new(7);
    let at_128 = many_spaces(&mut rng, 128);
    assert_eq!(records(&at_128).len(), 128);
    let at_129 = many_spaces(&mut rng, 129);
    let last = |text: &[u8]| text.iter().rposition(|b| *b == b']').expect("a bracket") as u64;
    assert_eq!(read(&at_129, 200), Err((15, last(&at_129))));
    assert_eq!(read(&at_129, 128), Err((15, last(&at_129))));
    assert_eq!(read(&at_128, 127), Err((10, last(&at_128))));
    let one = indexed("0(a)");
    assert_eq!(read(one.as_bytes(), 1), Err((10, one.len() as u64 - 1)));
    assert_eq!(
        read(one.as_bytes(), 2).map(|page| page.len()),
        Ok(2 * BLOCK)
    );
    // 12 before them where the space is short there
    refuses("[/CalGray]", 12, "]");
    assert_eq!(read(b"[/CalGray]", 0), Err((12, 9)));
    assert_eq!(
        read(gray("").as_bytes(), 0),
        Err((10, gray("").len() as u64 - 1))
    );
    // a palette of three blocks that the page has no room for
    let mut text = many_spaces(&mut rng, 125);
    text.extend_from_slice(format!("[/Indexed/DeviceCMYK 255<{}>]", "00".repeat(1024)).as_bytes());
    assert_eq!(read(&text, 128), Err((15, text.len() as u64 - 1)));
}

#[test]
fn judging_comes_last_at_the_opening_bracket() {
    let good = gray("");
    let bad = "[/CalGray<</WhitePoint[1 .5 1]>>]";
    let text = format!("{good} {bad}");
    assert_eq!(refused(text.as_bytes()), (4, good.len() as u64 + 1));
    // a later refusal of the text's own comes before it
    let longer = format!("{text} 7");
    assert_eq!(refused(longer.as_bytes()), (12, longer.len() as u64 - 1));
    assert_eq!(refused(gray("/Gamma 1.85").as_bytes()), (5, 0));
    assert_eq!(refused(gray("/Gamma 0").as_bytes()), (4, 0));
    let inside = format!("[/Indexed {bad} 0(a)]");
    assert_eq!(refused(inside.as_bytes()), (4, 10));
}

#[test]
fn nesting_that_the_clause_forbids_is_judgings_6() {
    let inner = indexed("0(a)");
    assert_eq!(
        refused(format!(" [/Indexed{inner}0(a)]").as_bytes()),
        (6, 1)
    );
    let ink = format!("[/Separation/Ink/DeviceGray{FUNCTION}]");
    assert_eq!(
        refused(format!("[/Separation/Two{ink}{FUNCTION}]").as_bytes()),
        (6, 0)
    );
    assert_eq!(
        refused(format!("[/Separation/Two{inner}{FUNCTION}]").as_bytes()),
        (6, 0)
    );
    // deep nesting is read, up to the first block too many
    let mut rng = Rng::new(3);
    let deep = nested_text(&mut rng, 5_000);
    assert_eq!(refused(&deep).0, 15);
}

#[test]
fn the_first_byte_too_many_is_12_there() {
    assert_eq!(MOST_BYTES, 4_294_967_295);
    let text = gray("");
    let n = text.len() as u64;
    assert!(read_at_most(text.as_bytes(), MOST_BLOCKS, n).is_ok());
    for most in 0..n {
        assert_eq!(
            read_at_most(text.as_bytes(), MOST_BLOCKS, most),
            Err((12, most)),
            "{most}"
        );
    }
    // before what it would end
    assert_eq!(read_at_most(b"[/CalGra ", MOST_BLOCKS, 8), Err((12, 8)));
    assert_eq!(read_at_most(b"[/CalGra ", MOST_BLOCKS, 9), Err((12, 1)));
    assert_eq!(read_at_most(b"[/A#4 ", MOST_BLOCKS, 5), Err((12, 5)));
    assert_eq!(read_at_most(b"[> ", MOST_BLOCKS, 2), Err((12, 2)));
    assert_eq!(read_at_most(b"[] ", MOST_BLOCKS, 2), Err((12, 1)));
}

#[test]
fn random_texts_are_answered_and_accepted_pages_are_pages() {
    let mut rng = Rng::new(2026);
    let mut met = std::collections::BTreeMap::new();
    let rounds = if cfg!(debug_assertions) {
        3_000
    } else {
        30_000
    };
    for _ in 0..rounds {
        let mut text = random_text(&mut rng);
        for _ in 0..rng.below(3) {
            damage_text(&mut rng, &mut text);
        }
        let room = if rng.once_in(10) {
            rng.below(4)
        } else {
            MOST_BLOCKS
        };
        let number = match read(&text, room) {
            Ok(page) => {
                assert_eq!(validate(&page), Ok(page.len() / BLOCK));
                0
            }
            Err((number, at)) => {
                assert!(at <= text.len() as u64);
                number
            }
        };
        *met.entry(number).or_insert(0) += 1;
    }
    for number in [0, 4, 5, 6, 7, 10, 12, 13, 14] {
        assert!(met.contains_key(&number), "{number} is met: {met:?}");
    }
}
