//! Cases of document 02's "Tell us when a colour was pulled in": on either side of every limit, at every level, and what
//! is no limiting.

use super::colours::{counting, CMYK, GRAY, RGB};
use super::format::{decimal, Case};
use super::maker::Maker;
use crate::block::{Record, BLOCK, DEVICE_CMYK, DEVICE_GRAY, DEVICE_RGB};
use crate::numbers::ONE;
use crate::records::{
    cal_gray, cal_rgb, indexed_run, lab, named, page, separation, NINE, USUAL, WHITE,
};

const HALF: i32 = ONE / 2;

/// The cases of this group.
pub(super) fn cases() -> Vec<Case> {
    let mut maker = Maker::default();
    plain_spaces(&mut maker);
    narrow_labs(&mut maker);
    indices(&mut maker);
    tints(&mut maker);
    levels(&mut maker);
    marks(&mut maker);
    refusals(&mut maker);
    steps(&mut maker);
    gammas(&mut maker);
    maker.cases
}

/// A plain space: its name, page and number, and the ranges of its components.
type Plain = (&'static str, Vec<u8>, u32, Vec<(i32, i32)>);

/// The plain spaces.
fn all_plain() -> Vec<Plain> {
    let none = vec![0; BLOCK];
    let unit = (0, ONE);
    let lab_ranges = vec![(0, 100 * ONE), (-7 * ONE, 9 * ONE), (5, 6)];
    let lone = |record: Record| page(&[record]);
    vec![
        ("DeviceGray", none.clone(), GRAY, vec![unit]),
        ("DeviceRGB", none.clone(), RGB, vec![unit; 3]),
        ("DeviceCMYK", none, CMYK, vec![unit; 4]),
        ("CalGray", lone(cal_gray(0, 2 * ONE)), 0, vec![unit]),
        ("CalGray 2.2", lone(cal_gray(0, 2_200_000)), 0, vec![unit]),
        ("CalRGB", lone(cal_rgb(0, [ONE; 3])), 0, vec![unit; 3]),
        (
            "CalRGB 1.8",
            lone(cal_rgb(0, [1_800_000; 3])),
            0,
            vec![unit; 3],
        ),
        (
            "Lab",
            lone(lab(0, [-7 * ONE, 9 * ONE, 5, 6])),
            0,
            lab_ranges,
        ),
    ]
}

/// Plain spaces: all components at their ends, and each by itself just outside.
fn plain_spaces(maker: &mut Maker) {
    for (name, page, number, ranges) in all_plain() {
        let lows: Vec<i32> = ranges.iter().map(|range| range.0).collect();
        let highs: Vec<i32> = ranges.iter().map(|range| range.1).collect();
        maker.colour(&format!("{name} at its low ends"), &page, number, &lows);
        maker.colour(&format!("{name} at its high ends"), &page, number, &highs);
        for k in 0..ranges.len() {
            for (ends, colour, beyond) in [
                ("low", &lows, lows[k] - 1),
                ("high", &highs, highs[k] + 1),
                ("low", &lows, i32::MIN),
                ("high", &highs, i32::MAX),
            ] {
                let mut colour = colour.clone();
                colour[k] = beyond;
                let label = format!(
                    "{name} at its {ends} ends but component {k}, {}",
                    decimal(beyond)
                );
                maker.colour(&label, &page, number, &colour);
            }
        }
    }
}

/// A Lab range of one number, and one of all numbers, which moves nothing.
fn narrow_labs(maker: &mut Maker) {
    let narrow = page(&[lab(0, [5, 5, -7, -7])]);
    for (label, colour) in [
        ("on it", [ONE, 5, -7]),
        ("a* above", [ONE, 6, -7]),
        ("b* below", [ONE, 5, -8]),
        ("L* beyond alone", [101 * ONE, 5, -7]),
    ] {
        maker.colour(&format!("Lab ranges of one, {label}"), &narrow, 0, &colour);
    }
    let wide = page(&[lab(0, [i32::MIN, i32::MAX, i32::MIN, i32::MAX])]);
    let ends = [100 * ONE, i32::MIN, i32::MAX];
    maker.colour("Lab ranges of all numbers, at the ends", &wide, 0, &ends);
    let ends = [-1, i32::MIN, i32::MAX];
    maker.colour("Lab ranges of all numbers, L* below 0", &wide, 0, &ends);
}

/// Rounding by itself moves nothing: what counts is the rounded index.
fn indices(maker: &mut Maker) {
    for (hival, values) in [
        (
            3,
            &[
                3_400_000,
                3_499_999,
                3_500_000,
                3 * ONE,
                4 * ONE,
                2_500_000,
                0,
                -1,
                -499_999,
                -500_000,
                -500_001,
                -ONE,
            ][..],
        ),
        (0, &[0, 499_999, 500_000, -500_000, -500_001]),
        (254, &[254_499_999, 254_500_000]),
        (255, &[255_499_999, 255_500_000, i32::MAX, i32::MIN]),
    ] {
        for v in values {
            let label = format!("hival {hival}, limiting index {}", decimal(*v));
            maker.colour(&label, &counting(hival), 0, &[*v]);
        }
    }
}

/// A Separation over DeviceGray, from C0 to C1, exponent 1.
fn over_gray(number: u16, c0: i32, c1: i32) -> Record {
    separation(number, DEVICE_GRAY, 1, [c0, 0, 0, 0], [c1, 0, 0, 0])
}

/// The tint's limit, and the alternate's limits after it. C0 and C1 are not limited, so a result within range from ends
/// beyond it moves nothing.
fn tints(maker: &mut Maker) {
    let within = page(&[over_gray(0, 250_000, 750_000)]);
    let beyond = page(&[over_gray(0, -ONE, 3 * ONE)]);
    for (ends, page) in [("0.25 to 0.75", &within), ("-1 to 3", &beyond)] {
        for v in [
            i32::MIN,
            -1,
            0,
            250_000,
            375_000,
            HALF,
            500_001,
            ONE,
            ONE + 1,
        ] {
            let label = format!("limiting tint {} of {ends}", decimal(v));
            maker.colour(&label, page, 0, &[v]);
        }
    }
    // One component of the alternate's alone, the last.
    let last = page(&[separation(
        0,
        DEVICE_CMYK,
        2,
        [0, 0, 0, ONE],
        [ONE, ONE, ONE, ONE + 4],
    )]);
    for v in [0, 353_552, 353_553, HALF, ONE] {
        let label = format!("the last of CMYK to 1.000004, tint {}", decimal(v));
        maker.colour(&label, &last, 0, &[v]);
    }
    // The alternate's own ranges count, not 0..1.
    let c1 = [100 * ONE, 100 * ONE, -100 * ONE, 0];
    let ranges = page(&[separation(0, 1, 1, [0; 4], c1), lab(1, USUAL)]);
    let narrow = page(&[
        separation(0, 1, 1, [0; 4], c1),
        lab(1, [0, 50 * ONE, -100 * ONE, 0]),
    ]);
    for (name, page) in [("-100..100", &ranges), ("0..50 and -100..0", &narrow)] {
        for v in [0, HALF, 500_001, ONE, 2 * ONE] {
            let label = format!("a tint over Lab of {name}, tint {}", decimal(v));
            maker.colour(&label, page, 0, &[v]);
        }
    }
}

/// Levels: the index alone, the alternate's limit alone, both, neither; a base whose palette values all lie in range.
fn levels(maker: &mut Maker) {
    // Row 0 is tint 0.2 and within range, row 1 tint 1 and beyond.
    let mut nested = indexed_run(0, 2, 1, &[0x33, 0xff]);
    nested.push(over_gray(2, 0, 2 * ONE));
    // The rows the other way round.
    let mut turned = indexed_run(0, 2, 1, &[0xff, 0x33]);
    turned.push(over_gray(2, 0, 2 * ONE));
    for (name, records) in [("0.4 then 2", &nested), ("2 then 0.4", &turned)] {
        for v in [-ONE, 0, 499_999, ONE, 1_499_999, 1_500_000] {
            let label = format!("Indexed over tints of {name}, index {}", decimal(v));
            maker.colour(&label, &page(records), 0, &[v]);
        }
    }
    let rows: Vec<u8> = (0..12).map(|place| place * 23).collect();
    let mut over_lab = indexed_run(0, 2, 3, &rows);
    over_lab.push(lab(2, [-3, ONE, i32::MIN, i32::MAX]));
    let over_rgb = indexed_run(0, DEVICE_RGB, 3, &rows);
    let mut over_cal = indexed_run(0, 2, 3, &rows);
    over_cal.push(cal_rgb(2, [2_200_000; 3]));
    for (base, records) in [("Lab", over_lab), ("RGB", over_rgb), ("CalRGB", over_cal)] {
        for v in [-500_001, -500_000, 3 * ONE, 3_500_000] {
            let label = format!("limiting an index over {base}, index {}", decimal(v));
            maker.colour(&label, &page(&records), 0, &[v]);
        }
    }
}

/// "A Separation named None limits nothing; an Indexed over it still limits its index." All limits its tint; its C0 and
/// C1 and the alternate's limits have no part.
fn marks(maker: &mut Maker) {
    for name in ["None", "All"] {
        let made = |number| named(over_gray(number, -ONE, 3 * ONE), name.as_bytes());
        let lone = page(&[made(0)]);
        for v in [i32::MIN, -1, 0, HALF, ONE, ONE + 1, i32::MAX] {
            let label = format!("limiting {name}, tint {}", decimal(v));
            maker.colour(&label, &lone, 0, &[v]);
        }
        let mut over = indexed_run(0, 2, 3, &[0, 0x33, 0xb5, 0xff]);
        over.push(made(2));
        for v in [-500_001, -500_000, 0, 3_400_000, 3_500_000] {
            let label = format!("limiting an index over {name}, index {}", decimal(v));
            maker.colour(&label, &page(&over), 0, &[v]);
        }
    }
}

/// A refusal carries nothing, whatever would have moved.
fn refusals(maker: &mut Maker) {
    let none = [0; BLOCK];
    maker.colour("nothing moved by 9", &none, GRAY, &[2 * ONE, 2 * ONE]);
    maker.evaluate("nothing moved by 8", &none, 0, &[2 * ONE]);
    maker.evaluate("nothing moved by 1", &none[1..], GRAY, &[2 * ONE]);
    let limited = [1, 1, 0, 0, ONE, 4];
    maker.run("nothing moved by 9, a run", &limited, &[2 * ONE, 0]);
    maker.run("nothing moved by 11", &limited[..5], &[2 * ONE]);
}

/// Runs: each step's limiting, and that what an earlier step moved is not forgotten.
fn steps(maker: &mut Maker) {
    let rows = [2, 1, 2, 10 * ONE, -ONE, HALF];
    let tint = [3, 2, 1, 5 * ONE, -ONE];
    let limit = [1, 0, 0, ONE];
    for (label, words, colour) in [
        ("no step", vec![1, 4], &[i32::MAX][..]),
        (
            "a limit of all numbers, the least",
            vec![1, 1, 0, i32::MIN, i32::MAX, 4],
            &[i32::MIN],
        ),
        ("a limit at its low end", vec![1, 1, 0, 5, 9, 4], &[5]),
        ("a limit at its high end", vec![1, 1, 0, 5, 9, 4], &[9]),
        ("a limit below", vec![1, 1, 0, 5, 9, 4], &[4]),
        ("a limit above", vec![1, 1, 0, 5, 9, 4], &[10]),
        (
            "a limit of a value not given, 0 within",
            vec![1, 1, 3, 0, 9, 4],
            &[10],
        ),
        (
            "a limit of a value not given, 0 below",
            vec![1, 1, 3, 1, 9, 4],
            &[10],
        ),
        (
            "a limit of a value that no closing step reads",
            vec![4, 1, 3, 0, 9, 4],
            &[0, 0, 0, 10],
        ),
        (
            "two limits, the first moves",
            vec![1, 1, 0, 5, 9, 1, 0, 0, 9, 4],
            &[10],
        ),
        (
            "two limits, the second moves",
            vec![1, 1, 0, 5, 9, 1, 0, 0, 8, 4],
            &[9],
        ),
        (
            "two limits, there and back",
            vec![1, 1, 0, 7, 7, 1, 0, 3, 3, 4],
            &[3],
        ),
        (
            "a limit that moves, then rows that do not",
            [&[1][..], &limit, &rows, &[4]].concat(),
            &[2 * ONE],
        ),
        (
            "a limit that does not, then rows that do not",
            [&[1][..], &limit, &rows, &[4]].concat(),
            &[ONE],
        ),
        (
            "rows of rows, the first moves",
            [&[1][..], &[2, 1, 0, ONE], &rows, &[4]].concat(),
            &[ONE],
        ),
        (
            "rows of rows, the second moves",
            [&[1][..], &[2, 1, 0, 9 * ONE], &rows, &[4]].concat(),
            &[0],
        ),
        (
            "rows of rows, neither moves",
            [&[1][..], &[2, 1, 0, ONE], &rows, &[4]].concat(),
            &[0],
        ),
        (
            "rows of one and 0.499999",
            vec![1, 2, 1, 0, 7, 4],
            &[499_999],
        ),
        ("rows of one and 0.5", vec![1, 2, 1, 0, 7, 4], &[HALF]),
        (
            "a tint at 1, its result beyond",
            [&[1][..], &tint, &[4]].concat(),
            &[ONE],
        ),
        (
            "a tint at 0, its result beyond",
            [&[1][..], &tint, &[4]].concat(),
            &[0],
        ),
        (
            "a tint above 1",
            [&[1][..], &tint, &[4]].concat(),
            &[ONE + 1],
        ),
        ("a tint below 0", [&[1][..], &tint, &[4]].concat(), &[-1]),
        (
            "a tint, then a limit that moves",
            [&[1][..], &tint, &limit, &[4]].concat(),
            &[0],
        ),
        (
            "a tint of a tint, the first moves",
            [&[1][..], &[3, 1, 1, 0, ONE], &tint, &[4]].concat(),
            &[-1],
        ),
        (
            "a tint of a tint, the second moves",
            [&[1][..], &tint, &tint, &[4]].concat(),
            &[0],
        ),
        (
            "rows that move, then a tint that does not",
            [&[1][..], &[2, 1, 0, HALF], &tint, &[4]].concat(),
            &[-ONE],
        ),
        (
            "rows that do not, then a tint that moves",
            [&[1][..], &[2, 1, 0, -1], &tint, &[4]].concat(),
            &[0],
        ),
        (
            "a limit that moves, then no mark",
            [&[1][..], &limit, &[10]].concat(),
            &[-1],
        ),
        (
            "a limit that does not move, then no mark",
            [&[1][..], &limit, &[10]].concat(),
            &[0],
        ),
        (
            "a limit that moves, then every ink",
            [&[1][..], &limit, &[11]].concat(),
            &[ONE + 1],
        ),
        ("every ink as it stands", vec![1, 11], &[ONE + 1]),
        (
            "a limit of each of four, the third moves",
            vec![4, 1, 0, 0, ONE, 1, 1, 0, ONE, 1, 2, 0, ONE, 1, 3, 0, ONE, 6],
            &[0, ONE, ONE + 1, HALF],
        ),
    ] {
        maker.run(&format!("limiting, {label}"), &words, colour);
    }
}

/// "Not the nearer end in a gamma": values past 0..1 that no step limits.
fn gammas(maker: &mut Maker) {
    for gamma in [100_000, ONE, 1_800_000, 2 * ONE, 3_900_000] {
        for v in [i32::MIN, -1, 0, ONE, ONE + 1, i32::MAX] {
            let closing = [7, WHITE[0], WHITE[2], gamma];
            let label = format!("no limiting by gamma {}, {}", decimal(gamma), decimal(v));
            let words = [&[1][..], &closing].concat();
            maker.run(&label, &words, &[v]);
            let label = format!("a limit before gamma {}, {}", decimal(gamma), decimal(v));
            let words = [&[1, 1, 0, 0, ONE][..], &closing].concat();
            maker.run(&label, &words, &[v]);
        }
    }
    let words = [&[3, 8, 1_800_000, 2_200_000, 100_000][..], &NINE].concat();
    let beyond = [-ONE, 2 * ONE, i32::MAX];
    maker.run("no limiting by gammas 1.8 2.2 0.1", &words, &beyond);
    let words = vec![3, 9, WHITE[0], WHITE[2]];
    maker.run("no limiting by Lab's closing step", &words, &[i32::MIN; 3]);
}
