//! Cases of document 02's step 12, a program in a recipe: well-formed flat forms, and ones that are 11.

use super::format::Case;
use super::maker::Maker;
use crate::numbers::ONE;
use crate::records::NINE;

const HALF: i32 = ONE / 2;

/// The cases of this group.
pub(super) fn cases() -> Vec<Case> {
    let mut maker = Maker::default();
    operators(&mut maker);
    jumps(&mut maker);
    ill_formed(&mut maker);
    steps(&mut maker);
    long(&mut maker);
    maker.cases
}

/// Runs a flat form that leaves so many numbers of a tint, and shows four values as they stand.
fn shown(maker: &mut Maker, label: &str, flat: &[i32], left: i32, tint: i32) {
    let words = [&[1, 12, left, flat.len() as i32][..], flat, &[6]].concat();
    maker.run(label, &words, &[tint]);
}

/// Every code, its result as it stands.
fn operators(maker: &mut Maker) {
    let (least, most) = (i32::MIN, i32::MAX);
    for (code, name) in [(7, "add"), (8, "sub"), (9, "mul")] {
        for (x, y) in [
            (1, HALF),
            (-1, HALF),
            (3, HALF),
            (-3, HALF),
            (1, 499_999),
            (-1, 500_001),
            (-1, -HALF),
            (least, least),
            (least, most),
            (most, most),
            (most, 1),
            (least, 1),
            (least, -1),
            (most, -1),
            (least, ONE),
            (least, -ONE),
            (7, -9),
        ] {
            let label = format!("flat {x} {y} {name}");
            shown(maker, &label, &[1, x, 1, y, code, 24, 23], 1, HALF);
        }
    }
    for (code, name) in [(18, "neg"), (19, "abs")] {
        for x in [least, -1, 0, 1, most] {
            shown(
                maker,
                &format!("flat {x} {name}"),
                &[1, x, code, 24, 23],
                1,
                HALF,
            );
        }
    }
    for code in 10..=15 {
        for (x, y) in [(1, 2), (2, 1), (2, 2), (least, most), (most, least)] {
            let flat = [1, x, 1, y, code, 5, 4, 1, ONE, 6, 2, 1, -ONE, 24, 23];
            shown(
                maker,
                &format!("flat comparison {code} of {x} and {y}"),
                &flat,
                1,
                HALF,
            );
        }
    }
    for (label, truth) in [
        ("and", [21, 22, 16]),
        ("and of two", [21, 21, 16]),
        ("or", [22, 21, 17]),
        ("or of none", [22, 22, 17]),
        ("not", [21, 20, 20]),
        ("true over false", [22, 21, 24]),
    ] {
        let rest = [5, 4, 1, ONE, 6, 2, 1, -ONE];
        let drop: &[i32] = if label == "true over false" {
            &[23, 5, 4, 1, ONE, 6, 2, 1, -ONE]
        } else {
            &rest
        };
        shown(
            maker,
            &format!("flat {label}"),
            &[&truth[..], drop].concat(),
            2,
            HALF,
        );
    }
    for j in [0, 1, -1, 2, 3, -3, 4, 5, -5, ONE, most, least] {
        let flat = [1, 1, 1, 2, 1, 3, 4, 4, j];
        shown(maker, &format!("flat roll of 4 by {j}"), &flat, 4, HALF);
        shown(
            maker,
            &format!("flat roll of 3 by {j}"),
            &[1, 1, 1, 2, 1, 3, 4, 3, j],
            4,
            HALF,
        );
        shown(
            maker,
            &format!("flat roll of 0 by {j}"),
            &[4, 0, j],
            1,
            HALF,
        );
        shown(
            maker,
            &format!("flat roll of 1 by {j}"),
            &[4, 1, j],
            1,
            HALF,
        );
    }
    for (label, flat, left) in [
        ("copy of 2", &[1, 9, 2, 2][..], 4),
        ("copy of 0", &[2, 0], 1),
        ("index 0", &[1, 9, 3, 0], 3),
        ("index 1", &[1, 9, 3, 1], 3),
        ("dup and exch", &[1, 9, 25, 24], 3),
        ("numbers at both ends", &[1, least, 1, most], 3),
        ("no words", &[], 1),
    ] {
        shown(maker, &format!("flat {label}"), flat, left, HALF);
    }
}

/// Forward jumps, also some that no text has.
fn jumps(maker: &mut Maker) {
    for (label, flat) in [
        ("a test that passes nothing over", &[21, 5, 0][..]),
        ("a jump that passes nothing over", &[6, 0]),
        ("a test that leads to the end", &[22, 5, 1, 18]),
        ("a test that does not lead to the end", &[21, 5, 1, 18]),
        ("a jump to the end", &[21, 5, 2, 6, 1, 18]),
        ("a jump not come to", &[22, 5, 2, 6, 1, 18]),
        ("two tests to one place", &[21, 5, 4, 22, 5, 1, 18]),
        ("jumps that cross", &[21, 5, 4, 22, 5, 1, 18, 19, 18]),
        (
            "a jump that a test leads behind",
            &[22, 5, 3, 18, 6, 1, 18, 18],
        ),
        ("a test of a test", &[21, 25, 5, 1, 20, 5, 1, 18]),
    ] {
        for tint in [0, HALF] {
            shown(maker, &format!("flat, {label}, tint {tint}"), flat, 1, tint);
        }
    }
    // "So `{ dup 0.5 lt { pop 0 } { dup pop } ifelse }` is" these words.
    let words = [25, 1, HALF, 14, 5, 5, 23, 1, 0, 6, 2, 25, 23];
    for tint in [499_999, HALF] {
        shown(
            maker,
            &format!("the words of an ifelse, tint {tint}"),
            &words,
            1,
            tint,
        );
    }
}

/// Each cause of 11 within a flat form.
fn ill_formed(maker: &mut Maker) {
    let up = [2, 1, 2, 2, 2, 4, 2, 8, 2, 16, 2, 32];
    let high = |more: &[i32], pops: usize| [&up[..], more, &vec![23; pops]].concat();
    let ill: Vec<(&str, Vec<i32>, i32)> = vec![
        ("code 0", vec![0], 1),
        ("code 26", vec![26], 1),
        ("code -1", vec![-1], 1),
        ("the greatest code", vec![i32::MAX], 1),
        ("a number cut short", vec![1], 2),
        ("a copy cut short", vec![2], 1),
        ("an index cut short", vec![3], 2),
        ("a roll cut short", vec![4, 1], 1),
        ("a test cut short", vec![21, 5], 1),
        ("a jump cut short", vec![6], 1),
        ("a height below 0", vec![23, 23, 1, 1], 1),
        ("add of one number", vec![7], 1),
        ("exch of one", vec![24], 1),
        ("dup of nothing", vec![23, 25], 1),
        ("neg of nothing", vec![23, 18, 1, 1], 1),
        ("a test of nothing", vec![23, 5, 0, 1, 1], 1),
        ("a height of 101 by copy", high(&[2, 37], 100), 1),
        ("a height of 101 by a number", high(&[2, 36, 1, 0], 100), 1),
        ("a height of 101 by true", high(&[2, 36, 21], 100), 1),
        ("a height of 101 by index", high(&[2, 36, 3, 99], 100), 1),
        ("a height of 101 by dup", high(&[2, 36, 25], 100), 1),
        ("a place to which no path comes", vec![6, 1, 18], 1),
        (
            "a place behind a jump to the end",
            vec![21, 5, 3, 6, 1, 18, 18],
            1,
        ),
        ("two heights at one place", vec![21, 5, 2, 1, 9], 2),
        (
            "two heights at one place, the other left",
            vec![21, 5, 2, 1, 9],
            1,
        ),
        (
            "two kinds at one place",
            vec![21, 5, 2, 23, 21, 23, 1, 0],
            1,
        ),
        ("two kinds below the top", vec![21, 21, 5, 2, 24, 23, 23], 1),
        ("add of a truth value", vec![21, 7], 1),
        ("neg of a truth value", vec![21, 18, 23], 1),
        ("a comparison of truth values", vec![21, 22, 10, 23], 1),
        ("and of numbers", vec![25, 16], 1),
        ("not of a number", vec![20], 1),
        ("a test of a number", vec![25, 5, 0], 1),
        ("copy of -1", vec![2, -1], 1),
        ("copy past the stack", vec![2, 2], 3),
        ("copy of the greatest number", vec![2, i32::MAX], 1),
        ("index -1", vec![3, -1], 2),
        ("index past the stack", vec![3, 1], 2),
        ("roll of -1", vec![4, -1, 1], 1),
        ("roll past the stack", vec![4, 2, 1], 1),
        ("a jump back", vec![6, -2], 1),
        ("a test back", vec![21, 5, -3], 1),
        ("a jump past the end", vec![6, 1], 1),
        ("a test past the end", vec![21, 5, 1], 1),
        ("a test past all words", vec![21, 5, i32::MAX], 1),
        (
            "a jump into the middle of a number",
            vec![21, 5, 1, 1, 9, 23],
            1,
        ),
        (
            "a jump into the middle of a roll",
            vec![21, 5, 2, 4, 1, 18, 18],
            1,
        ),
        ("a jump into the middle of a jump", vec![21, 5, 1, 6, 0], 1),
        ("a number more at the end", vec![25], 1),
        ("a number less at the end", vec![25], 3),
        ("nothing at the end", vec![23], 1),
        ("a truth value at the end", vec![21], 2),
        ("a truth value for a number at the end", vec![23, 21], 1),
    ];
    for (label, flat, left) in ill {
        shown(maker, &format!("flat 11, {label}"), &flat, left, 0);
    }
    shown(maker, "flat, a height of 100", &high(&[2, 36], 99), 1, HALF);
    shown(
        maker,
        "flat, a height of 100 and a roll",
        &high(&[2, 36, 4, 100, 7, 2, 0], 99),
        1,
        HALF,
    );
    maker.run("flat 11 before 9", &[1, 12, 1, 1, 7, 4], &[]);
}

/// The step's own words, and what it leaves of the other values.
fn steps(maker: &mut Maker) {
    for (label, words) in [
        ("leaving 0", vec![1, 12, 0, 1, 23, 4]),
        ("leaving 5", vec![1, 12, 5, 4, 25, 25, 25, 25, 4]),
        ("leaving -1", vec![1, 12, -1, 0, 4]),
        ("of -1 words", vec![1, 12, 1, -1, 4]),
        ("of more words than there are", vec![1, 12, 1, 2, 18, 4]),
        ("that takes the closing step", vec![1, 12, 1, 1, 4]),
        ("of the greatest count", vec![1, 12, 1, i32::MAX, 18, 4]),
        ("of no words leaving 2", vec![1, 12, 2, 0, 4]),
        ("cut short before its count", vec![1, 12, 1]),
        ("cut short at once", vec![1, 12]),
        ("without a closing step", vec![1, 12, 1, 0]),
        ("after the closing step", vec![1, 4, 12, 1, 0]),
        ("with a word between", vec![1, 12, 1, 0, 0, 4]),
    ] {
        maker.run(&format!("ill-formed, step 12 {label}"), &words, &[0]);
    }
    let colour = [HALF, 2 * ONE, -3 * ONE, 4 * ONE];
    for left in 1..=4 {
        let dups = vec![25; left - 1];
        let flat = [&[4, 12, left as i32, dups.len() as i32][..], &dups, &[6]].concat();
        maker.run(
            &format!("step 12 leaves {left} and the other values"),
            &flat,
            &colour,
        );
    }
    for v in [i32::MIN, -1, 0, ONE, ONE + 1, i32::MAX] {
        maker.run(
            &format!("step 12 limits its tint {v}"),
            &[1, 12, 1, 0, 4],
            &[v],
        );
        let twice = [1, 12, 1, 3, 1, 2 * ONE, 9, 12, 1, 0, 4];
        maker.run(&format!("two steps 12, tint {v}"), &twice, &[v]);
    }
    for (label, words) in [
        (
            "a limit before it",
            vec![1, 1, 0, 250_000, 750_000, 12, 1, 0, 4],
        ),
        (
            "a row before it",
            vec![1, 2, 1, 1, -ONE, 2 * ONE, 12, 1, 0, 4],
        ),
        (
            "a tint before it",
            vec![1, 3, 2, 1, 0, 2 * ONE, 12, 1, 0, 4],
        ),
        (
            "a tint after it",
            vec![1, 12, 1, 3, 1, 2 * ONE, 9, 3, 1, 1, 0, ONE, 4],
        ),
        (
            "a row after it",
            vec![1, 12, 1, 3, 1, 2 * ONE, 9, 2, 1, 2, 7, 8, 9, 4],
        ),
        ("10 after it", vec![1, 12, 1, 0, 10]),
        ("11 after it", vec![1, 12, 1, 1, 18, 11]),
        (
            "Lab's closing after it",
            vec![1, 12, 3, 6, 1, 100 * ONE, 9, 25, 1, 0, 24, 9, ONE, ONE],
        ),
    ] {
        for v in [0, HALF, 2 * ONE] {
            maker.run(&format!("step 12 with {label}, {v}"), &words, &[v]);
        }
    }
}

/// "The limit of 1,084 words becomes 2,877": 2,877 words run, 2,878 are 11.
fn long(maker: &mut Maker) {
    for count in [1045, 1046, 1083, 1084, 1085, 1086, 2876, 2877, 2878, 2879] {
        let negs = count - 5;
        let words = [&[1, 12, 1, negs as i32][..], &vec![18; negs], &[4]].concat();
        maker.run(
            &format!("a program in a run of {count} words"),
            &words,
            &[HALF],
        );
    }
    // 256 rows, a program of 796 words and CalRGB's limits and closing step.
    for entries in [256, 255] {
        let mut words = vec![1, 2, 1, entries - 1];
        words.extend(vec![HALF; entries as usize]);
        words.extend([12, 3, 796, 25, 25]);
        words.extend(vec![18; 794]);
        for k in 0..3 {
            words.extend([1, k, 0, ONE]);
        }
        words.extend([8, ONE, ONE, ONE]);
        words.extend(NINE);
        let label = format!(
            "{entries} rows, 796 words of a program and CalRGB, {} words",
            words.len()
        );
        maker.run(&label, &words, &[0]);
        words.splice(1..1, [1, 0, 0, ONE]);
        let label = format!(
            "a limit, {entries} rows, 796 words and CalRGB, {} words",
            words.len()
        );
        maker.run(&label, &words, &[0]);
    }
}
