//! Cases of document 02's calculator functions: what programs leave, by their page and by their recipe.

use super::format::{decimal, Case};
use super::maker::Maker;
use crate::block::{DEVICE_CMYK, DEVICE_GRAY, DEVICE_RGB};
use crate::numbers::ONE;
use crate::records::{cal_gray, cal_rgb, indexed_run, lab, named, page, program_run, USUAL};

const HALF: i32 = ONE / 2;

/// The cases of this group.
pub(super) fn cases() -> Vec<Case> {
    let mut maker = Maker::default();
    arithmetic(&mut maker);
    stacks(&mut maker);
    branches(&mut maker);
    alternates(&mut maker);
    marks(&mut maker);
    flags(&mut maker);
    recipes(&mut maker);
    maker.cases
}

/// A page of a Separation over a program of this text.
pub(super) fn over(alternate: u16, text: &[u8]) -> Vec<u8> {
    page(&program_run(0, alternate, text))
}

/// Whether a sum of a program is this number: the colour is 1 where it is.
fn is(maker: &mut Maker, sum: &str, expected: &str) {
    let text = format!("{{ pop {sum} {expected} eq {{ 1 }} {{ 0 }} ifelse }}");
    let label = format!("{sum} is {expected}");
    maker.colour(&label, &over(DEVICE_GRAY, text.as_bytes()), 0, &[0]);
}

/// Numbers: half up, the nearest that fits, exact comparisons.
fn arithmetic(maker: &mut Maker) {
    for (sum, expected) in [
        ("0.000001 0.5 mul", "0.000001"),
        ("-0.000001 0.5 mul", "0"),
        ("0.000001 -0.5 mul", "0"),
        ("-0.000003 0.5 mul", "-0.000001"),
        ("0.000003 0.5 mul", "0.000002"),
        ("0.000001 0.499999 mul", "0"),
        ("-0.000001 0.500001 mul", "-0.000001"),
        ("-0.000001 -0.5 mul", "0.000001"),
        ("1.5 -2 mul", "-3"),
        ("2000 2 mul", "2147.483647"),
        ("2000 -2 mul", "-2147.483648"),
        ("-2147.483648 -2147.483648 mul", "2147.483647"),
        ("-2147.483648 1 mul", "-2147.483648"),
        ("-2147.483648 -1 mul", "2147.483647"),
        ("2147.483647 0.000001 add", "2147.483647"),
        ("-2147.483648 -0.000001 add", "-2147.483648"),
        ("-2147.483648 2147.483647 add", "-0.000001"),
        ("-2147.483648 0.000001 sub", "-2147.483648"),
        ("0 -2147.483648 sub", "2147.483647"),
        ("5 3 sub", "2"),
        ("-2147.483648 neg", "2147.483647"),
        ("2147.483647 neg", "-2147.483647"),
        ("-2147.483648 abs", "2147.483647"),
        ("-0.000001 abs", "0.000001"),
        ("0 neg", "0"),
    ] {
        is(maker, sum, expected);
    }
    for word in ["eq", "ne", "gt", "ge", "lt", "le"] {
        for pair in ["0.3 0.2", "0.2 0.3", "0.3 0.3", "-2147.483648 2147.483647"] {
            let text = format!("{{ pop {pair} {word} {{ 1 }} {{ 0 }} ifelse }}");
            maker.colour(
                &format!("{pair} {word}"),
                &over(DEVICE_GRAY, text.as_bytes()),
                0,
                &[0],
            );
        }
    }
    for truth in [
        "true true and",
        "true false and",
        "false true and",
        "false false and",
        "true true or",
        "true false or",
        "false true or",
        "false false or",
        "true not",
        "false not",
    ] {
        let text = format!("{{ pop {truth} {{ 1 }} {{ 0 }} ifelse }}");
        maker.colour(truth, &over(DEVICE_GRAY, text.as_bytes()), 0, &[0]);
    }
}

/// What stands where, over DeviceCMYK: the first deepest.
fn stacks(maker: &mut Maker) {
    for moves in [
        "",
        "exch",
        "4 1 roll",
        "4 -1 roll",
        "4 2 roll",
        "4 -2 roll",
        "4 0 roll",
        "4 4 roll",
        "4 5 roll",
        "4 -5 roll",
        "4 2147 roll",
        "4 -2147 roll",
        "3 1 roll",
        "3 -1 roll",
        "2 1 roll",
        "2 -3 roll",
        "1 1 roll",
        "0 1 roll",
        "4.0 1.0 roll",
        "dup pop",
        "pop dup",
        "pop 0 index",
        "pop 2 index",
        "pop pop 2 copy",
        "pop pop 2.0 copy",
        "pop pop pop 1 copy 2 copy pop",
        "0 copy",
        "true pop",
        "true exch pop pop 0.7",
        "0.6 0.7 4 -2 roll pop pop",
        "3 index exch pop",
        "2 copy pop pop",
    ] {
        let text = format!("{{ pop 0.1 0.2 0.3 0.4 {moves} }}");
        let label = format!("0.1 0.2 0.3 0.4 {moves}");
        maker.colour(
            label.trim_end(),
            &over(DEVICE_CMYK, text.as_bytes()),
            0,
            &[0],
        );
    }
}

/// Branches that the tint decides.
fn branches(maker: &mut Maker) {
    for (label, text) in [
        ("ifelse at 0.5", "{ dup 0.5 lt { pop 0 } { dup pop } ifelse }"),
        ("if at 0.5", "{ dup 0.5 le { 1 exch sub } if }"),
        (
            "ifelse in both branches of an ifelse",
            "{ dup 0.5 lt { dup 0.25 lt { pop 0.1 } { pop 0.2 } ifelse } { dup 0.75 lt { pop 0.3 } { pop 0.4 } ifelse } ifelse }",
        ),
        ("an if of no items", "{ dup 0.5 gt { } if }"),
        ("an ifelse of no items", "{ dup 0.5 gt { } { } ifelse }"),
        ("two truth values for two ifs", "{ dup 0.5 gt 1 index 0.4 lt { 3 -1 roll } { exch } ifelse pop }"),
    ] {
        let page = over(DEVICE_GRAY, text.as_bytes());
        maker.validate(&format!("{label}, judged"), &page);
        for v in [0, 249_999, 250_000, 499_999, HALF, 500_001, 750_000, ONE] {
            maker.colour(&format!("{label}, tint {}", decimal(v)), &page, 0, &[v]);
        }
    }
}

/// Programs over every alternate, and an Indexed over one.
fn alternates(maker: &mut Maker) {
    let three = b"{ dup 100 mul exch dup 20 mul exch -30 mul }";
    let wide = [i32::MIN, i32::MAX, i32::MIN, i32::MAX];
    let with = |text: &[u8], alternate| [&program_run(0, 2, text)[..], &[alternate]].concat();
    for (label, records) in [
        ("CalGray", with(b"{ dup mul }", cal_gray(2, 2_200_000))),
        (
            "CalRGB",
            with(b"{ dup dup mul dup 2 index mul }", cal_rgb(2, [2 * ONE; 3])),
        ),
        ("Lab", with(three, lab(2, USUAL))),
        (
            "Lab of any range",
            with(b"{ pop 50 -2147.483648 2147.483647 }", lab(2, wide)),
        ),
        (
            "DeviceRGB",
            program_run(0, DEVICE_RGB, b"{ 1 exch sub dup 0.5 exch }"),
        ),
    ] {
        for v in [0, 1, HALF, 777_777, ONE] {
            let label = format!("a program over {label}, tint {}", decimal(v));
            maker.colour(&label, &page(&records), 0, &[v]);
        }
    }
    let mut records = indexed_run(0, 2, 3, &[0, 51, 0xb5, 255]);
    records.extend(program_run(
        2,
        DEVICE_RGB,
        b"{ dup 0.5 gt { 1 exch sub } if dup dup mul 0 }",
    ));
    let page = page(&records);
    maker.validate_and_list("an Indexed over a program", &page);
    for v in [-ONE, 0, ONE, 1_500_000, 3 * ONE, 3_500_000] {
        maker.colour(
            &format!("an Indexed over a program, index {}", decimal(v)),
            &page,
            0,
            &[v],
        );
    }
}

/// None and All over a program: it is judged and never run.
fn marks(maker: &mut Maker) {
    for name in ["None", "All", "none"] {
        for text in ["{ pop 0.3 }", "{ dup }", "{ div }", "{ }\0x"] {
            let mut records = program_run(0, DEVICE_GRAY, text.as_bytes());
            records[0] = named(records[0], name.as_bytes());
            let page = page(&records);
            let shown = text.replace('\0', " zero ");
            let label = format!("Separation {name} over the program {shown}");
            maker.validate_and_list(&label, &page);
            for v in [HALF, 2 * ONE] {
                maker.colour(&format!("{label}, tint {}", decimal(v)), &page, 0, &[v]);
            }
        }
    }
}

/// What is pulled in: the tint, and the alternate's components; not what goes to the nearest in the program.
fn flags(maker: &mut Maker) {
    for (label, text) in [
        ("a program that keeps within 0..1", "{ 0.5 mul }"),
        ("a program that leaves 0..1", "{ 2 mul }"),
        (
            "a program that saturates",
            "{ 2147 add 2147 add 2147.483647 sub }",
        ),
        ("a program that hides its tint", "{ pop 0.5 }"),
    ] {
        let page = over(DEVICE_GRAY, text.as_bytes());
        for v in [i32::MIN, -1, 0, HALF, 500_001, ONE, ONE + 1, i32::MAX] {
            maker.colour(
                &format!("{label}, limiting tint {}", decimal(v)),
                &page,
                0,
                &[v],
            );
        }
    }
    let page = over(DEVICE_GRAY, b"{ }");
    for count in [0, 2, 3, 4] {
        maker.colour(
            &format!("{count} components for a program"),
            &page,
            0,
            &vec![0; count],
        );
    }
    maker.evaluate("a colour of a program's block", &page, 1, &[0]);
    maker.write_recipe("a recipe of a program's block", &page, 1, 30);
}

/// Recipes with step 12, into room that is short, right and long.
fn recipes(maker: &mut Maker) {
    for (name, text, alternate, count) in [
        ("no items", "{ }", DEVICE_GRAY, 9),
        ("an empty if", "{ true { } if }", DEVICE_GRAY, 12),
        (
            "an ifelse",
            "{ dup 0.5 lt { pop 0 } { dup pop } ifelse }",
            DEVICE_GRAY,
            22,
        ),
        ("counts", "{ 0 copy dup 1 index 3 -1 roll }", DEVICE_RGB, 25),
        (
            "sums",
            "{ pop 1 2 add 3 sub 4 mul neg abs 5 dup }",
            DEVICE_RGB,
            34,
        ),
        (
            "comparisons",
            "{ 1 2 eq 3 4 ne and 5 6 gt 7 8 ge or 9 10 lt 11 12 le and or and not pop }",
            DEVICE_GRAY,
            46,
        ),
        (
            "a branch of truth values",
            "{ 1 lt true false 3 -2147 roll pop pop { 1 2 } { 3.5 -0.000001 } ifelse dup }",
            DEVICE_RGB,
            40,
        ),
        (
            "numbers at the ends",
            "{ pop 2147.483647 -2147.483648 0.000001 }",
            DEVICE_RGB,
            24,
        ),
    ] {
        let page = over(alternate, text.as_bytes());
        for (room, length) in [
            ("a word short", count - 1),
            ("just enough", count),
            ("a word more", count + 1),
        ] {
            let label = format!("recipe of a program of {name}, {room}");
            maker.write_recipe(&label, &page, 0, length);
        }
    }
    maker.write_recipe(
        "a recipe of a program refused 16",
        &over(DEVICE_GRAY, b"{ div }"),
        0,
        30,
    );
    maker.write_recipe(
        "a recipe of a program refused 17",
        &over(DEVICE_GRAY, b"{ dup }"),
        0,
        30,
    );
    maker.evaluate(
        "a colour of a program refused 16",
        &over(DEVICE_GRAY, b"{ div }"),
        0,
        &[0],
    );
    maker.evaluate(
        "a colour of a program refused 17",
        &over(DEVICE_GRAY, b"{ dup }"),
        0,
        &[0],
    );
    // Nearly all that may be: 97 numbers, taken off again, and copies of nothing.
    let (numbers, pops) = ("0.5 ".repeat(97), "pop ".repeat(97));
    let text = format!("{{ {numbers}{pops}{} }}", "0 copy ".repeat(101));
    let page = over(DEVICE_GRAY, text.as_bytes());
    maker.validate_and_list("a program of 398 tokens and 493 words", &page);
    maker.colour("a program of 493 words", &page, 0, &[HALF]);
}
