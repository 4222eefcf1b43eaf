//! Cases of document 02's step 13, a program that takes several values: the step's own words, values that it takes and
//! does not replace, input counts, and the longest recipes.

use super::format::Case;
use super::maker::Maker;
use crate::numbers::{ONE, VALUES};
use crate::records::NINE;

const HALF: i32 = ONE / 2;

/// Eight components, none of them 0, three of them outside 0..1.
const EIGHT: [i32; 8] = [
    100_000, 2_000_000, -3_000_000, 400_000, 500_000, 600_000, 8_000_000, 900_000,
];

/// The cases of this group.
pub(super) fn cases() -> Vec<Case> {
    let mut maker = Maker::default();
    steps(&mut maker);
    values(&mut maker);
    inputs(&mut maker);
    forms(&mut maker);
    long(&mut maker);
    maker.cases
}

/// A recipe of one step 13 that takes and leaves so many, shown as CMYK.
fn taking(input: usize, taken: usize, left: usize, flat: &[i32]) -> Vec<i32> {
    let step = [input, 13, taken, left, flat.len()].map(|word| word as i32);
    [&step[..], flat, &[6]].concat()
}

/// The step's own words.
fn steps(maker: &mut Maker) {
    for (label, words) in [
        ("taking 0", vec![1, 13, 0, 1, 2, 1, 5, 4]),
        ("taking 0 and no words", vec![1, 13, 0, 1, 0, 4]),
        ("taking 9", [&[1, 13, 9, 1, 8][..], &[23; 8], &[4]].concat()),
        ("taking -1", vec![1, 13, -1, 1, 0, 4]),
        ("taking the greatest number", vec![1, 13, i32::MAX, 1, 0, 4]),
        ("leaving 0", vec![1, 13, 1, 0, 1, 23, 4]),
        ("leaving 5", vec![1, 13, 5, 5, 0, 4]),
        ("leaving 8", vec![1, 13, 8, 8, 0, 4]),
        ("leaving -1", vec![1, 13, 1, -1, 0, 4]),
        ("of -1 words", vec![1, 13, 1, 1, -1, 4]),
        ("of more words than there are", vec![1, 13, 1, 1, 2, 18, 4]),
        ("that takes the closing step", vec![1, 13, 1, 1, 1, 4]),
        ("of the greatest count", vec![1, 13, 1, 1, i32::MAX, 18, 4]),
        ("of no words taking 2 leaving 1", vec![1, 13, 2, 1, 0, 4]),
        ("of no words taking 1 leaving 2", vec![1, 13, 1, 2, 0, 4]),
        ("cut short at once", vec![1, 13]),
        ("cut short behind what it takes", vec![1, 13, 1]),
        ("cut short before its count", vec![1, 13, 1, 1]),
        ("without a closing step", vec![1, 13, 1, 1, 0]),
        ("after the closing step", vec![1, 4, 13, 1, 1, 0]),
        ("with a word between", vec![1, 13, 1, 1, 0, 0, 4]),
        ("in the form of step 12", vec![1, 13, 1, 0, 4]),
    ] {
        maker.run(&format!("ill-formed, step 13 {label}"), &words, &[0]);
    }
    maker.run("step 12 in the form of step 13", &[1, 12, 1, 1, 0, 4], &[0]);
    maker.run("step 13, 11 before 9", &[1, 13, 0, 1, 0, 4], &[]);
    maker.run("step 13, 9", &[1, 13, 1, 1, 0, 4], &[]);
    for left in 1..=4 {
        let words = taking(left, left, left, &[]);
        let label = format!("step 13 takes and leaves {left}, no words");
        maker.run(&label, &words, &EIGHT[..left]);
    }
    for v in [i32::MIN, -1, 0, HALF, ONE, ONE + 1, i32::MAX] {
        let label = format!("step 13 taking 1 limits its tint {v}");
        maker.run(&label, &[1, 13, 1, 1, 0, 4], &[v]);
    }
}

/// What it takes and replaces, takes and leaves as it was, and never looks at.
fn values(maker: &mut Maker) {
    for taken in 1..=VALUES {
        let pops = vec![23; taken - 1];
        let label = format!("step 13 takes {taken} and leaves 1, the others as they were");
        maker.run(&label, &taking(8, taken, 1, &pops), &EIGHT);
        // Each tint in its turn, by an index of its own, and the others under it.
        for k in 0..taken {
            let flat = [
                &[3, (taken - 1 - k) as i32][..],
                &[4, taken as i32 + 1, 1],
                &vec![23; taken],
            ]
            .concat();
            let label = format!("step 13 takes {taken} and leaves its tint {k}");
            maker.run(&label, &taking(8, taken, 1, &flat), &EIGHT);
        }
    }
    // Value 0 is within and replaced; value 1 or value 4 lies outside and stays as it was, and moved all the same.
    for (place, taken) in [(0, 2), (1, 2), (2, 2), (4, 5), (4, 4), (7, 8), (7, 7)] {
        let mut colour = [HALF; VALUES];
        colour[place] = 3 * ONE;
        let pops = vec![23; taken - 1];
        let label = format!("step 13 takes {taken}, value {place} outside");
        maker.run(&label, &taking(8, taken, 1, &pops), &colour);
    }
    // "It may take more values than the recipe's count (the others are 0) or fewer."
    for (input, taken) in [(1, 8), (1, 2), (4, 5), (8, 1), (8, 3), (2, 2)] {
        let adds = vec![7; taken - 1];
        let label = format!("step 13 takes {taken} with an input count of {input}");
        maker.run(&label, &taking(input, taken, 1, &adds), &EIGHT[..input]);
    }
    let shown = |steps: &[i32]| [&[8][..], steps, &[6]].concat();
    for (label, steps) in [
        (
            "a limit of value 7 before it",
            &[1, 7, 0, HALF, 13, 8, 4, 4, 23, 23, 23, 23][..],
        ),
        (
            "a limit of value 4 after it",
            &[13, 8, 4, 4, 23, 23, 23, 23, 1, 4, 0, 1],
        ),
        (
            "a row of eight before it",
            &[2, 8, 0, 1, 2, 3, 4, 5, 6, 7, 8, 13, 8, 4, 4, 23, 23, 23, 23],
        ),
        (
            "a tint before it",
            &[3, 1, 2, 0, 0, ONE, ONE, 13, 2, 1, 1, 7],
        ),
        ("a step 12 before it", &[12, 2, 1, 25, 13, 2, 1, 1, 7]),
        ("a step 12 after it", &[13, 2, 1, 1, 7, 12, 2, 1, 25]),
        ("another after it", &[13, 2, 1, 1, 7, 13, 3, 1, 2, 7, 7]),
    ] {
        maker.run(&format!("step 13 with {label}"), &shown(steps), &EIGHT);
    }
}

/// Input counts from 1 to 8, and 9.
fn inputs(maker: &mut Maker) {
    for count in 1..=9 {
        let colour: Vec<i32> = (1..=count).map(|v| v * ONE).collect();
        maker.run(
            &format!("input count {count}, as it stands"),
            &[count, 6],
            &colour,
        );
        maker.run(
            &format!("input count {count}, one less"),
            &[count, 6],
            &colour[1..],
        );
        let last = count - 1;
        let words = [count, 1, last, 0, ONE, 6];
        maker.run(
            &format!("input count {count}, the last limited"),
            &words,
            &colour,
        );
        let adds = vec![7; last as usize];
        let step = [&[count, 13, count, 1, last][..], &adds, &[6]].concat();
        maker.run(
            &format!("input count {count}, the sum of all"),
            &step,
            &vec![90_000; count as usize],
        );
    }
}

/// Flat forms over several values that are 11, and ones that are not.
fn forms(maker: &mut Maker) {
    let pops = |count: usize| vec![23; count];
    let up = |more: usize| [vec![2, 8, 2, 16, 2, 32, 2, more as i32], pops(63 + more)].concat();
    for (label, words) in [
        (
            "a height below 0",
            taking(8, 8, 1, &[pops(9), vec![1, 5]].concat()),
        ),
        ("a height of 100", taking(8, 8, 1, &up(36))),
        ("a height of 101", taking(8, 8, 1, &up(37))),
        (
            "a copy of 8",
            taking(8, 8, 4, &[vec![2, 8], pops(12)].concat()),
        ),
        (
            "a copy of 9",
            taking(8, 8, 4, &[vec![2, 9], pops(13)].concat()),
        ),
        ("index 7", taking(8, 8, 4, &[vec![3, 7], pops(5)].concat())),
        ("index 8", taking(8, 8, 4, &[vec![3, 8], pops(5)].concat())),
        (
            "a roll of 8",
            taking(8, 8, 4, &[vec![4, 8, 3], pops(4)].concat()),
        ),
        (
            "a roll of 9",
            taking(8, 8, 4, &[vec![4, 9, 3], pops(4)].concat()),
        ),
        ("a number more at the end", taking(8, 8, 4, &pops(3))),
        ("a number less at the end", taking(8, 8, 4, &pops(5))),
        ("a truth value at the end", taking(2, 2, 1, &[12])),
        (
            "a comparison of two tints",
            taking(2, 2, 1, &[12, 5, 4, 1, 5, 6, 2, 1, 9]),
        ),
        ("and of two tints", taking(2, 2, 1, &[16])),
        ("a jump past the end", taking(2, 2, 1, &[7, 6, 1])),
    ] {
        let count = words[0] as usize;
        maker.run(
            &format!("over several values, {label}"),
            &words,
            &EIGHT[..count],
        );
    }
}

/// The longest recipe: 256 rows of eight, a program of 796 words and CalRGB's limits and closing step.
fn long(maker: &mut Maker) {
    for rows in [256, 255] {
        let mut words = vec![1, 2, 8, rows - 1];
        words.extend(vec![HALF; 8 * rows as usize]);
        words.extend([13, 8, 3, 796, 23, 23, 23, 23, 23]);
        words.extend(vec![18; 791]);
        for k in 0..3 {
            words.extend([1, k, 0, ONE]);
        }
        words.extend([8, ONE, ONE, ONE]);
        words.extend(NINE);
        let label = format!(
            "{rows} rows of eight, 796 words and CalRGB, {} words",
            words.len()
        );
        maker.run(&label, &words, &[0]);
        words.splice(1..1, [1, 0, 0, ONE]);
        let label = format!(
            "a limit, {rows} rows of eight and CalRGB, {} words",
            words.len()
        );
        maker.run(&label, &words, &[0]);
    }
    for count in [2876, 2877, 2878] {
        let negs = count - 7;
        let step = [
            &[8, 13, 2, 1, negs + 1][..],
            &vec![18; negs as usize],
            &[7, 4],
        ]
        .concat();
        maker.run(
            &format!("a step 13 in a run of {} words", step.len()),
            &step,
            &EIGHT,
        );
    }
}
