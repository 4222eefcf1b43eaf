//! Cases of document 02's None and All, which are not inks, and of names near theirs: pages, colours, recipes and runs.

use super::format::{decimal, Case};
use super::maker::Maker;
use crate::block::{Record, DEVICE_CMYK, DEVICE_GRAY, DEVICE_RGB};
use crate::numbers::ONE;
use crate::records::{
    cal_gray, cal_rgb, free, indexed, indexed_run, lab, named, page, palette, separation, USUAL,
};

const HALF: i32 = ONE / 2;

/// None, All, and names that only begin so or differ in a letter's case.
const NAMES: [&str; 6] = ["None", "All", "none", "Non", "Nones", "ALL"];

/// A Separation of this name over DeviceCMYK.
fn over_cmyk(number: u16, name: &str) -> Record {
    let c1 = [0, HALF, ONE, 250_000];
    named(
        separation(number, DEVICE_CMYK, 1, [0; 4], c1),
        name.as_bytes(),
    )
}

/// An Indexed space of four rows, and the Separation of this name that it is over.
fn indexed_over(name: &str) -> Vec<Record> {
    let mut records = indexed_run(0, 2, 3, &[0, 0x33, 0xb5, 0xff]);
    records.push(over_cmyk(2, name));
    records
}

/// The cases of this group.
pub(super) fn cases() -> Vec<Case> {
    let mut maker = Maker::default();
    judged(&mut maker);
    listed(&mut maker);
    tints(&mut maker);
    indices(&mut maker);
    alternates(&mut maker);
    counts(&mut maker);
    recipes(&mut maker);
    endings(&mut maker);
    ill_formed(&mut maker);
    maker.cases
}

/// "Records are judged as before, unused alternate included."
fn judged(maker: &mut Maker) {
    for name in ["None", "All"] {
        let made = |alternate, exponent, c0, c1| {
            named(separation(0, alternate, exponent, c0, c1), name.as_bytes())
        };
        let none = [0; 4];
        let (second, last) = ([0, 1, 0, 0], [0, 0, 0, 1]);
        for (fault, records) in [
            ("an alternate FF02", &[made(0xff02, 1, none, none)][..]),
            ("no such alternate", &[made(1, 1, none, none)]),
            ("itself as alternate", &[made(0, 1, none, none)]),
            ("a free alternate", &[made(1, 1, none, none), free(1)]),
            (
                "an Indexed alternate",
                &[
                    made(1, 1, none, none),
                    indexed(1, DEVICE_GRAY, 0),
                    palette(2, &[1]),
                ],
            ),
            (
                "a None as alternate",
                &[made(1, 1, none, none), over_cmyk(1, "None")],
            ),
            (
                "an All as alternate",
                &[made(1, 1, none, none), over_cmyk(1, "All")],
            ),
            (
                "a second C0 entry over Gray",
                &[made(DEVICE_GRAY, 1, second, none)],
            ),
            (
                "a fourth C1 entry over RGB",
                &[made(DEVICE_RGB, 1, none, last)],
            ),
            (
                "a fourth C1 entry over Lab",
                &[made(1, 1, none, last), lab(1, USUAL)],
            ),
            ("exponent 0", &[made(DEVICE_GRAY, 0, none, none)]),
            ("exponent 5", &[made(DEVICE_GRAY, 5, none, none)]),
            (
                "a faulty alternate",
                &[made(1, 1, none, none), cal_gray(1, 0)],
            ),
            ("no fault", &[made(DEVICE_CMYK, 4, last, last)]),
        ] {
            maker.validate(&format!("{name} with {fault}"), &page(records));
        }
        let bad = page(&[made(0xff02, 1, none, none)]);
        maker.evaluate(&format!("a colour of {name}, refused 6"), &bad, 0, &[0]);
        maker.write_recipe(&format!("a recipe of {name}, refused 6"), &bad, 0, 9);
        let bad = page(&[made(DEVICE_GRAY, 1, second, none)]);
        maker.evaluate(&format!("a colour of {name}, refused 7"), &bad, 0, &[0]);
        maker.write_recipe(&format!("a recipe of {name}, refused 7"), &bad, 0, 9);
    }
}

/// Listings: the family is Separation under every name.
fn listed(maker: &mut Maker) {
    let mut records: Vec<Record> = (0..)
        .zip(NAMES)
        .map(|(number, name)| over_cmyk(number, name))
        .collect();
    for base in 0..6 {
        records.extend(indexed_run(6 + 2 * base, base, 2, &[1, 2, 3]));
    }
    let label = "Separations None, All, none, Non, Nones, ALL and an Indexed over each";
    maker.validate_and_list(label, &page(&records));
}

/// Tints within 0..1 and outside.
fn tints(maker: &mut Maker) {
    for name in NAMES {
        let page = page(&[over_cmyk(0, name)]);
        for v in [
            i32::MIN,
            -1,
            0,
            250_000,
            777_777,
            ONE,
            ONE + 1,
            2 * ONE,
            i32::MAX,
        ] {
            let label = format!("Separation {name}, tint {}", decimal(v));
            maker.colour(&label, &page, 0, &[v]);
        }
    }
}

/// An Indexed over each.
fn indices(maker: &mut Maker) {
    for name in NAMES {
        let page = page(&indexed_over(name));
        for v in [-ONE, 0, ONE, 1_500_000, 3 * ONE, 3_500_000, i32::MAX] {
            let label = format!("Indexed over Separation {name}, index {}", decimal(v));
            maker.colour(&label, &page, 0, &[v]);
        }
        let label = format!("Separation {name} under an Indexed, tint 0.5");
        maker.colour(&label, &page, 2, &[HALF]);
    }
}

/// The alternate has no part, whatever it is; nor have C0, C1 and the exponent.
fn alternates(maker: &mut Maker) {
    for (over, others) in [
        ("CalGray", cal_gray(1, 2_200_000)),
        ("CalRGB", cal_rgb(1, [2 * ONE; 3])),
        ("Lab", lab(1, USUAL)),
    ] {
        for name in ["None", "All"] {
            let (c0, c1) = ([i32::MIN, 0, 0, 0], [i32::MAX, 0, 0, 0]);
            let made = named(separation(0, 1, 4, c0, c1), name.as_bytes());
            let page = page(&[made, others]);
            for v in [0, 333_333, 5 * ONE] {
                let label = format!("Separation {name} over {over}, tint {}", decimal(v));
                maker.colour(&label, &page, 0, &[v]);
            }
        }
    }
}

/// Another count than one is 9.
fn counts(maker: &mut Maker) {
    for name in ["None", "All"] {
        let page = page(&indexed_over(name));
        for count in [0, 2, 3, 4, 5] {
            let colour = vec![HALF; count];
            let label = format!("{count} components for {name}");
            maker.colour(&label, &page, 2, &colour);
            let label = format!("{count} components for an Indexed over {name}");
            maker.colour(&label, &page, 0, &colour);
        }
    }
}

/// Recipes of each into room that is short, right and long.
fn recipes(maker: &mut Maker) {
    for (name, words) in [("None", 2), ("All", 6), ("none", 29), ("ALL", 29)] {
        let page = page(&indexed_over(name));
        for (of, number, count) in [
            (format!("Separation {name}"), 2, words),
            (format!("Indexed over Separation {name}"), 0, words + 7),
        ] {
            for (room, length) in [
                ("a word short", count - 1),
                ("just enough", count),
                ("a word more", count + 1),
            ] {
                let label = format!("recipe of {of}, {count} words, {room}");
                maker.write_recipe(&label, &page, number, length);
            }
        }
        let label = format!("recipe of Separation {name}, no room");
        maker.write_recipe(&label, &page, 2, 0);
    }
}

/// Steps that may stand before any closing step, by their names.
const STEPS: [(&str, &[i32]); 5] = [
    ("no step", &[]),
    ("a limit", &[1, 0, 0, ONE]),
    ("a limit of value 3", &[1, 3, -5, 5]),
    ("rows of one", &[2, 1, 2, -7, 8 * ONE, 9 * ONE]),
    (
        "a tint of two and a limit",
        &[3, 2, 2, 0, 0, 3 * ONE, ONE, 1, 0, -ONE, ONE],
    ),
];

/// Recipes that end in 10 or 11, with every input count: "Any recipe may end in them". 11 reads value 0 as it stands.
fn endings(maker: &mut Maker) {
    let colour = [-7 * ONE, 2 * ONE, HALF, 1];
    for closing in [10, 11] {
        for count in 1..=4 {
            for (before, steps) in STEPS {
                let words = [&[count][..], steps, &[closing]].concat();
                let label = format!("{count} components, {before}, then {closing}");
                maker.run(&label, &words, &colour[..count as usize]);
            }
            let words = [count, closing];
            let of = format!("for a recipe of {count} that ends in {closing}");
            for other in [count - 1, count + 1] {
                let label = format!("{other} components {of}");
                maker.run(&label, &words, &vec![0; other as usize]);
            }
        }
        for v in [i32::MIN, -1, 0, ONE, ONE + 1, i32::MAX] {
            let label = format!("value {} as it stands, then {closing}", decimal(v));
            maker.run(&label, &[1, closing], &[v]);
        }
    }
}

/// 10 and 11 take no words, and close.
fn ill_formed(maker: &mut Maker) {
    for closing in [10, 11] {
        for (label, words) in [
            ("with a word after it", vec![1, closing, 0]),
            ("with a limit after it", vec![1, closing, 1, 0, 0, ONE]),
            ("twice", vec![1, closing, closing]),
            ("before 4", vec![1, closing, 4]),
            ("after 4", vec![1, 4, closing]),
            ("before the other", vec![1, closing, 21 - closing]),
            ("with input count 0", vec![0, closing]),
            ("with input count 5", vec![5, closing]),
            ("without an input count", vec![closing]),
            ("taken as a row's entry", vec![1, 2, 1, 0, closing]),
            ("as a limit cut short", vec![1, 1, 0, 0, closing]),
            ("below 0", vec![1, -closing]),
        ] {
            maker.run(&format!("ill-formed, {closing} {label}"), &words, &[0]);
        }
        let label = format!("11 before 9, {closing} with a word after it");
        maker.run(&label, &[1, closing, 0], &[]);
    }
}
