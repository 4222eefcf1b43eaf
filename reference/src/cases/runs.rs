//! Cases of recipes that are run, well-formed or not: operation 33.

use super::format::Case;
use super::maker::Maker;
use crate::numbers::ONE;
use crate::recipe::MOST_WORDS;
use crate::records::{NINE, WHITE};

const HALF: i32 = ONE / 2;

/// The cases of this group.
pub(super) fn cases() -> Vec<Case> {
    let mut maker = Maker::default();
    least_runs(&mut maker);
    long_runs(&mut maker);
    ill_formed(&mut maker);
    maker.cases
}

/// Well-formed recipes that no page has.
fn least_runs(maker: &mut Maker) {
    let rows = [2, 1, 2, 10 * ONE, 20 * ONE, 30 * ONE];
    let with = |before: &[i32], after: &[i32]| [before, &rows, after].concat();
    let runs: Vec<(&str, Vec<i32>, &[i32])> = vec![
        ("no step at all is well-formed", vec![1, 4], &[-7 * ONE]),
        ("two components, the second unused", vec![2, 4], &[ONE, 5]),
        ("values not given are 0", vec![1, 6], &[ONE]),
        ("four components as Gray", vec![4, 4], &[1, 2, 3, 4]),
        (
            "the ends through a closing step",
            vec![2, 5],
            &[i32::MIN, i32::MAX],
        ),
        (
            "value 3 limited with one component",
            vec![1, 1, 3, ONE, ONE, 6],
            &[0],
        ),
        ("a limit with lo = hi", vec![1, 1, 0, 7, 7, 4], &[0]),
        (
            "a limit of all numbers",
            vec![1, 1, 0, i32::MIN, i32::MAX, 4],
            &[-5],
        ),
        (
            "two limits of one value",
            vec![1, 1, 0, 5, 9, 1, 0, 1, 3, 4],
            &[8],
        ),
        (
            "rows of one leave the other values",
            with(&[3], &[5]),
            &[ONE, 1, 2],
        ),
        ("a row of a row", with(&with(&[1], &[]), &[4]), &[ONE]),
        ("a row of one entry", vec![1, 2, 1, 0, 9, 4], &[-1]),
        (
            "a row of four over two components",
            vec![2, 2, 4, 1, 1, 2, 3, 4, 5, 6, 7, 8, 6],
            &[HALF, 9],
        ),
        (
            "a tint of one leaves the others",
            vec![3, 3, 1, 1, 0, 9 * ONE, 5],
            &[ONE, 1, 2],
        ),
        (
            "a tint of two",
            vec![3, 3, 1, 2, 0, 0, ONE, 2 * ONE, 5],
            &[HALF, 7, ONE],
        ),
        (
            "tint 1 gives C1, before any limit",
            vec![1, 3, 4, 1, -5 * ONE, 7 * ONE, 4],
            &[ONE],
        ),
        (
            "tint 0 gives C0, before any limit",
            vec![1, 3, 4, 1, -5 * ONE, 7 * ONE, 4],
            &[0],
        ),
        (
            "a tint is first limited to 1",
            vec![1, 3, 1, 1, 5, 7 * ONE, 4],
            &[i32::MAX],
        ),
        (
            "a tint is first limited to 0",
            vec![1, 3, 4, 1, 5, 7 * ONE, 4],
            &[i32::MIN],
        ),
        (
            "a tint after a row",
            with(&[1], &[3, 2, 1, 0, ONE, 4]),
            &[ONE],
        ),
        (
            "a tint from end to end",
            vec![1, 3, 1, 1, i32::MIN, i32::MAX, 4],
            &[HALF],
        ),
        (
            "a tint from end to end, falling",
            vec![1, 3, 1, 1, i32::MAX, i32::MIN, 4],
            &[1],
        ),
        (
            "CalGray closing, white 0 and below",
            vec![1, 7, -1, 0, ONE],
            &[0],
        ),
        (
            "CalGray closing, gamma 4, as it stands",
            vec![1, 7, WHITE[0], WHITE[2], 4 * ONE],
            &[-3 * ONE],
        ),
        (
            "CalGray closing, gamma 1.8, past 0",
            vec![1, 7, WHITE[0], WHITE[2], 1_800_000],
            &[-3 * ONE],
        ),
        (
            "CalGray closing, gamma 1.8, past 1",
            vec![1, 7, WHITE[0], WHITE[2], 1_800_000],
            &[i32::MAX],
        ),
        (
            "CalGray closing, gamma 0.1, white 0 and below",
            vec![1, 7, -1, 0, 100_000],
            &[49],
        ),
        (
            "CalGray closing, gamma 3.9, one component of two",
            vec![2, 7, i32::MIN, i32::MAX, 3_900_000],
            &[HALF, ONE],
        ),
        (
            "CalGray closing, white ends",
            vec![1, 7, i32::MIN, i32::MAX, 3 * ONE],
            &[i32::MIN],
        ),
        (
            "CalRGB closing, values as they stand",
            [&[3, 8, ONE, 2 * ONE, 3 * ONE][..], &NINE].concat(),
            &[-ONE, i32::MAX, i32::MIN],
        ),
        (
            "CalRGB closing, gammas 1.8 2 2.2, values as they stand",
            [&[3, 8, 1_800_000, 2 * ONE, 2_200_000][..], &NINE].concat(),
            &[-ONE, i32::MAX, i32::MAX],
        ),
        (
            "CalRGB closing, gammas 0.1 3.9 0.5, one component",
            [&[1, 8, 100_000, 3_900_000, 500_000][..], &NINE].concat(),
            &[50],
        ),
        (
            "a limit, then CalGray closing, gamma 2.2",
            vec![1, 1, 0, 250_000, 750_000, 7, WHITE[0], WHITE[2], 2_200_000],
            &[ONE],
        ),
        (
            "CalRGB closing, gammas 4, one component",
            [&[1, 8, 4 * ONE, 4 * ONE, 4 * ONE][..], &NINE].concat(),
            &[2 * ONE],
        ),
        (
            "Lab closing, white below 0",
            vec![3, 9, -ONE, 0],
            &[100 * ONE, 0, 0],
        ),
        (
            "Lab closing, the least values",
            vec![3, 9, i32::MAX, i32::MIN],
            &[i32::MIN; 3],
        ),
        (
            "Lab closing, the greatest values",
            vec![3, 9, i32::MIN, i32::MAX],
            &[i32::MAX; 3],
        ),
        (
            "Lab closing, one component",
            vec![1, 9, WHITE[0], WHITE[2]],
            &[100 * ONE],
        ),
        (
            "Lab closing, four components",
            vec![4, 9, ONE, ONE],
            &[8 * ONE, -1, 1, 7],
        ),
        ("no component for a recipe of one, 9", vec![1, 4], &[]),
        ("two components for a recipe of one, 9", vec![1, 4], &[0, 0]),
        (
            "five components for a recipe of four, 9",
            vec![4, 6],
            &[0; 5],
        ),
        (
            "nine components for a recipe of eight, 9",
            vec![8, 6],
            &[0; 9],
        ),
        (
            "value 7 limited with one component",
            vec![1, 1, 7, ONE, ONE, 6],
            &[0],
        ),
        (
            "value 7 limited with eight components",
            vec![8, 1, 7, 0, ONE, 6],
            &[1, 2, 3, 4, 5, 6, 7, 2 * ONE],
        ),
        ("11 before 9", vec![1, 4, 4], &[]),
        (
            "the last words are read before 9 is given",
            vec![1, 7, 0, 0, ONE + 1],
            &[],
        ),
    ];
    for (label, words, colour) in runs {
        maker.run(label, &words, colour);
    }
}

/// Recipes about as long as may be.
fn long_runs(maker: &mut Maker) {
    // About the longest recipe that a page has, and about the longest of all.
    for (limits, rows) in [258, 268, 716]
        .into_iter()
        .flat_map(|n| (5..10).map(move |h| (n, h)))
    {
        let mut words = vec![1];
        for _ in 0..limits {
            words.extend([1, 0, 0, ONE]);
        }
        words.extend([2, 1, rows]);
        words.extend(vec![5; rows as usize + 1]);
        words.push(4);
        let count = words.len();
        let label = format!("a run of {count} words, the most being {MOST_WORDS}");
        maker.run(&label, &words, &[0]);
        maker.run(&format!("{label}, no component"), &words, &[]);
    }
    let mut rows = vec![1, 2, 4, 255];
    rows.extend(0..1024);
    for end in [
        &[6][..],
        &[1, 0, 5, 9, 4],
        &[3, 1, 4, 1, 2, 3, 4, 5, 6, 7, 8, 6],
    ] {
        let words = [&rows[..], end].concat();
        let label = format!("256 rows of four, then {} words", end.len());
        maker.run(&label, &words, &[255 * ONE]);
    }
    // Rows of up to eight entries, each picked in turn and shown as CMYK.
    for m in 5..=8 {
        let entries: Vec<i32> = (0..2 * m).map(|v| v * ONE).collect();
        let words = [&[1, 2, m, 1][..], &entries, &[6]].concat();
        for v in [0, ONE] {
            maker.run(&format!("two rows of {m}, row {}", v / ONE), &words, &[v]);
        }
    }
}

/// Recipes that are ill-formed, each beside a colour of the count that it names.
fn ill_formed(maker: &mut Maker) {
    let nine = [0; 9];
    let matrix = |gammas: [i32; 3], numbers: &[i32]| [&[1, 8][..], &gammas, numbers].concat();
    let rows = |h: i32, count: usize| [&[1, 2, 1, h][..], &vec![0; count], &[4]].concat();
    let ill: Vec<(&str, Vec<i32>)> = vec![
        ("no words at all", vec![]),
        ("input count 0", vec![0, 4]),
        ("input count 9", vec![9, 4]),
        ("input count -1", vec![-1, 4]),
        ("the least input count", vec![i32::MIN, 4]),
        ("an input count alone", vec![1]),
        ("step 0", vec![1, 0]),
        ("step 12", vec![1, 12]),
        ("step 13", vec![1, 13]),
        ("step 14", vec![1, 14]),
        ("step -4", vec![1, -4]),
        ("two closing steps", vec![1, 4, 4]),
        ("a word after the closing step", vec![1, 4, 0]),
        ("a limit after the closing step", vec![1, 4, 1, 0, 0, 1]),
        ("no closing step", vec![1, 1, 0, 0, 1]),
        ("a limit cut short", vec![1, 1, 0, 0]),
        ("a limit of value -1", vec![1, 1, -1, 0, 1, 4]),
        ("a limit of value 8", vec![1, 1, 8, 0, 1, 4]),
        ("a limit with lo > hi", vec![1, 1, 0, 1, 0, 4]),
        ("rows of no entry", vec![1, 2, 0, 0, 4]),
        (
            "rows of nine entries",
            vec![1, 2, 9, 0, 1, 2, 3, 4, 5, 6, 7, 8, 9, 4],
        ),
        ("h -1", vec![1, 2, 1, -1, 4]),
        ("h 256", rows(256, 257)),
        ("h 255 and an entry less", rows(255, 255)),
        ("h 255 and an entry more", rows(255, 257)),
        ("a row without entries", vec![1, 2, 1, 0]),
        ("a row that takes the closing step", vec![1, 2, 1, 0, 4]),
        ("rows past any count", vec![1, 2, i32::MAX, i32::MAX, 4]),
        ("rows of four by 65536", vec![1, 2, 4, 65_535, 4]),
        ("a step 2 cut short", vec![1, 2, 1]),
        ("e 0", vec![1, 3, 0, 1, 0, 0, 4]),
        ("e 5", vec![1, 3, 5, 1, 0, 0, 4]),
        ("e 1000000", vec![1, 3, ONE, 1, 0, 0, 4]),
        ("a tint of no component", vec![1, 3, 1, 0, 4]),
        (
            "a tint of five",
            [&[1, 3, 1, 5][..], &[0; 10], &[4]].concat(),
        ),
        ("a tint with a C1 less", vec![1, 3, 1, 1, 0, 4]),
        ("a tint cut short", vec![1, 3, 1]),
        ("CalGray closing cut short", vec![1, 7, 0, 0]),
        ("CalGray closing with gamma 0", vec![1, 7, 0, 0, 0]),
        (
            "CalGray closing with gamma 1 millionth",
            vec![1, 7, 0, 0, 1],
        ),
        (
            "CalGray closing with gamma 1.85",
            vec![1, 7, 0, 0, 1_850_000],
        ),
        ("CalGray closing with gamma 0.05", vec![1, 7, 0, 0, 50_000]),
        (
            "CalGray closing with gamma 4.1",
            vec![1, 7, 0, 0, 4_100_000],
        ),
        (
            "CalGray closing with gamma -0.1",
            vec![1, 7, 0, 0, -100_000],
        ),
        ("CalGray closing with gamma 5", vec![1, 7, 0, 0, 5 * ONE]),
        ("CalGray closing with gamma -1", vec![1, 7, 0, 0, -ONE]),
        ("CalGray closing and a word", vec![1, 7, 0, 0, ONE, 0]),
        (
            "CalRGB closing with a first gamma 0",
            matrix([0, ONE, ONE], &nine),
        ),
        (
            "CalRGB closing with a second gamma 0",
            matrix([ONE, 0, ONE], &nine),
        ),
        (
            "CalRGB closing with a first gamma 1.85",
            matrix([1_850_000, ONE, ONE], &nine),
        ),
        (
            "CalRGB closing with a second gamma 4.1",
            matrix([ONE, 4_100_000, ONE], &nine),
        ),
        (
            "CalRGB closing with a third gamma 0.1 and a millionth",
            matrix([ONE, ONE, 100_001], &nine),
        ),
        (
            "CalRGB closing with a third gamma 5",
            matrix([ONE, ONE, 5 * ONE], &nine),
        ),
        (
            "CalRGB closing with eight numbers",
            matrix([ONE; 3], &nine[..8]),
        ),
        (
            "CalRGB closing with ten numbers",
            matrix([ONE; 3], &[0; 10]),
        ),
        ("Lab closing cut short", vec![1, 9, 0]),
        ("Lab closing and a word", vec![1, 9, 0, 0, 0]),
    ];
    for (label, words) in ill {
        maker.run(&format!("ill-formed, {label}"), &words, &[0]);
    }
}
