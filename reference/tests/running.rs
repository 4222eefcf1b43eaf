//! Running recipes, against a slow second runner that takes one word at a time.

mod common;
mod flat;

use common::{kept, moved};
use reference::block::{DEVICE_CMYK, DEVICE_GRAY, DEVICE_RGB};
use reference::cie::Answer;
use reference::colour::{evaluate, Colour, Reply};
use reference::generate::programs::{
    damage_program_recipe, long_program_recipe, random_program_recipe,
};
use reference::generate::{
    damage_recipe, long_recipe, random_components, random_page, random_recipe, Rng,
};
use reference::numbers::{float_of, ONE};
use reference::page::{components, spaces};
use reference::recipe::{recipe_of, MOST_WORDS};
use reference::runner::run;

const NINE: Reply = Err((9, 0));
const ELEVEN: Reply = Err((11, 0));

#[test]
fn the_least_recipes() {
    assert_eq!(run(&[1, 4], &[-7 * ONE]), kept(Answer::Gray(-7.0)));
    assert_eq!(run(&[2, 4], &[ONE, 5]), kept(Answer::Gray(1.0)));
    // Values not given are 0.
    assert_eq!(
        run(&[1, 6], &[ONE]),
        kept(Answer::Cmyk([1.0, 0.0, 0.0, 0.0]))
    );
    // k may be beyond the input count.
    assert_eq!(
        run(&[1, 1, 3, ONE, ONE, 6], &[0]),
        moved(Answer::Cmyk([0.0, 0.0, 0.0, 1.0]))
    );
    // Values that a step does not replace stay.
    assert_eq!(
        run(&[3, 2, 1, 0, 9 * ONE, 5], &[ONE, ONE, 2 * ONE]),
        moved(Answer::Rgb([9.0, 1.0, 2.0]))
    );
    assert_eq!(
        run(&[3, 3, 1, 2, 0, 0, ONE, 2 * ONE, 5], &[500_000, 7, ONE]),
        kept(Answer::Rgb([0.5, 1.0, 1.0]))
    );
    // The tint step limits value 0 first.
    assert_eq!(
        run(&[1, 3, 1, 1, 5, 7 * ONE, 4], &[i32::MAX]),
        moved(Answer::Gray(7.0))
    );
    assert_eq!(
        run(&[1, 3, 4, 1, 5, 7 * ONE, 4], &[i32::MIN]),
        moved(Answer::Gray(float_of(5)))
    );
    // 10 and 11 may end any recipe; 11 reads value 0 as it stands.
    for count in 1..=8 {
        let colour = &[-7 * ONE, 1, 2, 3, 4, 5, 6, 7][..count];
        let input = count as i32;
        assert_eq!(run(&[input, 10], colour), kept(Answer::NoMark));
        assert_eq!(run(&[input, 11], colour), kept(Answer::EveryInk(-7.0)));
        let limited = [input, 1, 0, 0, ONE, 11];
        assert_eq!(run(&limited, colour), moved(Answer::EveryInk(0.0)));
    }
    assert_eq!(
        run(&[1, 3, 1, 1, 5, 7 * ONE, 11], &[ONE]),
        kept(Answer::EveryInk(7.0))
    );
    // A white point of 0 or below may stand in a recipe; signed zeros are kept.
    assert_eq!(
        run(&[1, 7, -1, 0, ONE], &[0]),
        kept(Answer::Xyz([-0.0, 0.0, 0.0]))
    );
    assert_eq!(
        run(&[3, 9, -ONE, 0], &[100 * ONE, 0, 0]),
        kept(Answer::Xyz([-1.0, 1.0, 0.0]))
    );
}

#[test]
fn ill_formed_recipes_are_11() {
    let nine = [0; 9];
    let matrix = |gammas: [i32; 3], numbers: &[i32]| [&[1, 8][..], &gammas, numbers].concat();
    let ill: Vec<Vec<i32>> = vec![
        vec![],
        vec![0, 4],
        vec![9, 4],
        vec![-1, 4],
        vec![i32::MIN, 4],
        vec![1],
        vec![1, 0],
        vec![1, 12],
        vec![1, 13],
        vec![1, 14],
        vec![1, 10, 0],
        vec![1, 11, 0],
        vec![1, 10, 11],
        vec![9, 10],
        vec![11],
        vec![1, -4],
        vec![1, 4, 4],
        vec![1, 4, 0],
        vec![1, 1, 0, 0, 1],
        vec![1, 1, 0, 0],
        vec![1, 1, -1, 0, 1, 4],
        vec![1, 1, 8, 0, 1, 4],
        vec![1, 1, 0, 1, 0, 4],
        vec![1, 2, 0, 0, 4],
        vec![1, 2, 9, 0, 1, 2, 3, 4, 5, 6, 7, 8, 9, 4],
        vec![1, 2, 1, -1, 4],
        vec![1, 2, 1, 0],
        vec![1, 2, 1, 0, 4],
        vec![1, 2, i32::MAX, i32::MAX, 4],
        [vec![1, 2, 1, 256], vec![0; 257], vec![4]].concat(),
        vec![1, 3, 0, 1, 0, 0, 4],
        vec![1, 3, 5, 1, 0, 0, 4],
        vec![1, 3, 1, 0, 4],
        vec![1, 3, 1, 5, 0, 0, 0, 0, 0, 0, 0, 0, 0, 0, 4],
        vec![1, 3, 1, 1, 0, 4],
        vec![1, 7, 0, 0],
        vec![1, 7, 0, 0, 0],
        vec![1, 7, 0, 0, 1],
        vec![1, 7, 0, 0, 5 * ONE],
        vec![1, 7, 0, 0, ONE + 1],
        vec![1, 7, 0, 0, 50_000],
        vec![1, 7, 0, 0, 1_850_000],
        vec![1, 7, 0, 0, 4_100_000],
        vec![1, 7, 0, 0, -100_000],
        matrix([1_850_000, ONE, ONE], &nine),
        matrix([ONE, 4_100_000, ONE], &nine),
        matrix([ONE, ONE, 50_000], &nine),
        vec![1, 7, 0, 0, ONE, 0],
        matrix([0, ONE, ONE], &nine),
        matrix([ONE, 0, ONE], &nine),
        matrix([ONE, ONE, 0], &nine),
        matrix([ONE; 3], &nine[..8]),
        matrix([ONE; 3], &[0; 10]),
        vec![1, 9, 0],
        vec![1, 9, 0, 0, 0],
    ];
    for words in &ill {
        for colour in [&[][..], &[0], &[0, 0]] {
            assert_eq!(run(words, colour), ELEVEN, "{words:?}");
        }
    }
    for words in [
        vec![1, 4],
        vec![4, 6],
        vec![1, 10],
        vec![4, 11],
        vec![5, 4],
        vec![8, 6],
        vec![2, 1, 3, 5, 5, 10],
        vec![1, 1, 7, 5, 5, 10],
        vec![1, 2, 5, 0, 1, 2, 3, 4, 5, 4],
        vec![1, 2, 8, 0, 1, 2, 3, 4, 5, 6, 7, 8, 4],
        vec![1, 13, 8, 1, 7, 23, 23, 23, 23, 23, 23, 23, 4],
        vec![1, 7, 0, 0, 4 * ONE],
        vec![1, 7, 0, 0, 100_000],
        vec![1, 7, 0, 0, 1_800_000],
        matrix([2_200_000, 100_000, 3_900_000], &nine),
        matrix([ONE; 3], &nine),
        vec![1, 9, 0, 0],
        vec![1, 1, 3, 5, 5, 2, 1, 0, 9, 3, 4, 1, 0, 0, 4],
        [vec![1, 2, 1, 255], vec![0; 256], vec![4]].concat(),
    ] {
        assert_eq!(run(&words, &[]), NINE, "{words:?}");
        assert!(run(&words, &[0; 8][..words[0] as usize]).is_ok());
    }
}

#[test]
fn a_recipe_of_more_than_2877_words_is_11() {
    assert_eq!(MOST_WORDS, 2877);
    let limits = |count: usize| {
        let mut words = vec![1];
        for _ in 0..count {
            words.extend([1, 0, 0, ONE]);
        }
        words
    };
    let mut words = limits(716);
    words.extend([2, 1, 6, 1, 1, 1, 1, 1, 1, 1, 4]);
    assert_eq!(words.len(), 2876);
    assert_eq!(run(&words, &[0]), kept(Answer::Gray(float_of(1))));
    let mut words = limits(716);
    words.extend([2, 1, 7, 1, 1, 1, 1, 1, 1, 1, 1, 4]);
    assert_eq!(words.len(), 2877);
    assert_eq!(run(&words, &[0]), kept(Answer::Gray(float_of(1))));
    let mut words = limits(716);
    words.extend([2, 1, 8, 1, 1, 1, 1, 1, 1, 1, 1, 1, 4]);
    assert_eq!(words.len(), 2878);
    assert_eq!(run(&words, &[0]), ELEVEN);
    assert_eq!(run(&vec![4; 100_000], &[0]), ELEVEN);
}

/// A slow second runner: words taken one at a time, exact fractions in i128. None is 11.
fn slow(words: &[i32], colour: &[i32]) -> Option<Reply> {
    if words.len() > 2877 {
        return None;
    }
    let mut queue = words.iter().map(|word| i128::from(*word));
    let floor_half = |top: i128, below: i128| (2 * top + below).div_euclid(2 * below);
    let count = queue.next().filter(|count| (1..9).contains(count))?;
    let mut values: Vec<i128> = colour.iter().map(|v| i128::from(*v)).collect();
    values.resize(8, 0);
    let float = |v: i128| v as f64 / 1_000_000.0;
    // What was limited, each with the range that it was limited to.
    let mut limited: Vec<(i128, i128, i128)> = Vec::new();
    let answer = loop {
        let code = queue.next()?;
        match code {
            1 => {
                let (k, lo, hi) = (queue.next()?, queue.next()?, queue.next()?);
                if !(0..8).contains(&k) || lo > hi {
                    return None;
                }
                limited.push((values[k as usize], lo, hi));
                values[k as usize] = values[k as usize].max(lo).min(hi);
            }
            2 => {
                let (m, h) = (queue.next()?, queue.next()?);
                if !(1..9).contains(&m) || !(0..256).contains(&h) {
                    return None;
                }
                limited.push((floor_half(values[0], 1_000_000), 0, h));
                let row = floor_half(values[0], 1_000_000).max(0).min(h);
                for r in 0..=h {
                    for k in 0..m {
                        let entry = queue.next()?;
                        if r == row {
                            values[k as usize] = entry;
                        }
                    }
                }
            }
            3 => {
                let (e, m) = (queue.next()?, queue.next()?);
                if !(1..5).contains(&e) || !(1..5).contains(&m) {
                    return None;
                }
                limited.push((values[0], 0, 1_000_000));
                let x = values[0].clamp(0, 1_000_000);
                let mut q = x;
                for _ in 1..e {
                    q = floor_half(q * x, 1_000_000);
                }
                let c: Vec<i128> = (0..2 * m).map_while(|_| queue.next()).collect();
                let m = m as usize;
                if c.len() != 2 * m {
                    return None;
                }
                for k in 0..m {
                    // The whole sum over one million, and only then the floor.
                    values[k] = floor_half(c[k] * 1_000_000 + q * (c[m + k] - c[k]), 1_000_000);
                }
            }
            4 => break Answer::Gray(float(values[0])),
            5 => break Answer::Rgb([float(values[0]), float(values[1]), float(values[2])]),
            6 => {
                break Answer::Cmyk([
                    float(values[0]),
                    float(values[1]),
                    float(values[2]),
                    float(values[3]),
                ])
            }
            7 => {
                let (xw, zw, gamma) = (queue.next()?, queue.next()?, queue.next()?);
                let a = slow_decode(values[0], gamma)?;
                break Answer::Xyz([float(xw) * a, a, float(zw) * a]);
            }
            8 => {
                let mut decoded = [0.0; 3];
                for k in 0..3 {
                    decoded[k] = slow_decode(values[k], queue.next()?)?;
                }
                let m: Vec<f64> = queue.by_ref().take(9).map(float).collect();
                if m.len() != 9 {
                    return None;
                }
                let mut xyz = [0.0; 3];
                for (k, out) in xyz.iter_mut().enumerate() {
                    let first = m[k] * decoded[0];
                    let second = m[3 + k] * decoded[1];
                    let third = m[6 + k] * decoded[2];
                    *out = (first + second) + third;
                }
                break Answer::Xyz(xyz);
            }
            9 => {
                let (xw, zw) = (queue.next()?, queue.next()?);
                let (l, a, b) = (values[0], values[1], values[2]);
                let l16 = l + 16_000_000;
                let g = |whole: i128, seam: i128, below: f64, start: i128, slope: f64| {
                    if whole >= seam {
                        let x = whole as f64 / below;
                        (x * x) * x
                    } else {
                        (108 * (whole - start)) as f64 / slope
                    }
                };
                let first = g(
                    125 * l16 + 29 * a,
                    3_000_000_000,
                    14.5e9,
                    2_000_000_000,
                    12_194.5e9,
                );
                let second = g(l16, 24_000_000, 116e6, 16_000_000, 97_556e6);
                let third = g(
                    50 * l16 - 29 * b,
                    1_200_000_000,
                    5.8e9,
                    800_000_000,
                    4_877.8e9,
                );
                break Answer::Xyz([float(xw) * first, second, float(zw) * third]);
            }
            12 | 13 => {
                let taken = if code == 12 { 1 } else { queue.next()? };
                let (m, n) = (queue.next()?, queue.next()?);
                if !(1..9).contains(&taken) || !(1..5).contains(&m) || n < 0 {
                    return None;
                }
                let taken = taken as usize;
                let program: Vec<i32> = (0..n)
                    .map_while(|_| queue.next())
                    .map(|word| word as i32)
                    .collect();
                if program.len() as i128 != n || !flat::holds(&program, taken, m as usize) {
                    return None;
                }
                limited.extend(values[..taken].iter().map(|v| (*v, 0, 1_000_000)));
                let tint = |v: &i128| (*v).clamp(0, 1_000_000) as i32;
                let tints: Vec<i32> = values[..taken].iter().map(tint).collect();
                let left = flat::run(&program, &tints)?;
                for (value, left) in values.iter_mut().zip(left) {
                    *value = left.into();
                }
            }
            10 => break Answer::NoMark,
            11 => break Answer::EveryInk(float(values[0])),
            _ => return None,
        }
    };
    if queue.next().is_some() {
        return None;
    }
    if count != colour.len() as i128 {
        return Some(NINE);
    }
    let outside = |&(v, lo, hi): &(i128, i128, i128)| v < lo || hi < v;
    let moved = limited.iter().any(outside);
    Some(Ok(Colour { answer, moved }))
}

/// Decode for the slow runner; none for a gamma that is no count of tenths, 1 to 40, in millionths.
fn slow_decode(v: i128, gamma: i128) -> Option<f64> {
    let a = v as f64 / 1_000_000.0;
    match gamma {
        1_000_000 => Some(a),
        2_000_000 => Some(a * a),
        3_000_000 => Some((a * a) * a),
        4_000_000 => Some(((a * a) * a) * a),
        100_000..=3_900_000 if gamma % 100_000 == 0 => {
            let u = (v.clamp(0, 1_000_000) + 50).div_euclid(100);
            Some(slow_tenths(u as u64, gamma as u64 / 100_000) as f64 / 10_000.0)
        }
        _ => None,
    }
}

/// The greatest number of 0..10000 whose tenth power is at most u^p x 10000^(10 - p), looked for downward from a little
/// above a guess. The p - 10 divisions by 10000, where p is above 10, are multiplications on the other side.
fn slow_tenths(u: u64, p: u64) -> u64 {
    let guess = 10_000.0 * (u as f64 / 10_000.0).powf(p as f64 / 10.0);
    let right = slow_power(&[(u, p), (10_000, 10u64.saturating_sub(p))]);
    let holds = |v: &u64| {
        slow_power(&[(*v, 10), (10_000, p.saturating_sub(10))])
            .iter()
            .rev()
            .le(right.iter().rev())
    };
    let from = (guess as u64 + 2).min(10_000);
    (0..=from).rev().find(holds).unwrap()
}

/// A product of powers in 40 parts of five decimal digits, the lowest first.
fn slow_power(powers: &[(u64, u64)]) -> [u64; 40] {
    let mut parts = [0; 40];
    parts[0] = 1;
    for &(base, exponent) in powers {
        for _ in 0..exponent {
            let mut over = 0;
            for part in &mut parts {
                let product = *part * base + over;
                *part = product % 100_000;
                over = product / 100_000;
            }
            assert_eq!(over, 0);
        }
    }
    parts
}

#[test]
fn random_recipes_run_alike() {
    let mut rng = Rng::new(8);
    let (mut answered, mut ill) = (0, 0);
    for round in 0..100_000 {
        let mut words = random_recipe(&mut rng);
        assert!(words.len() <= MOST_WORDS);
        let mut count = words[0] as usize;
        if round % 2 == 1 {
            damage_recipe(&mut rng, &mut words);
        }
        if rng.once_in(10) {
            count = rng.below(10);
        }
        let colour = random_components(&mut rng, count);
        let reply = run(&words, &colour);
        assert_eq!(reply, slow(&words, &colour).unwrap_or(ELEVEN), "{words:?}");
        answered += u32::from(reply.is_ok());
        ill += u32::from(reply == ELEVEN);
        if round % 2 == 0 {
            assert_eq!(reply == NINE, count != words[0] as usize);
            assert_ne!(reply, ELEVEN);
        }
    }
    assert!(answered > 50_000 && ill > 20_000);
}

#[test]
fn random_recipes_with_programs_run_alike() {
    let mut rng = Rng::new(16);
    let (mut answered, mut ill) = (0, 0);
    for round in 0..20_000 {
        let mut words = random_program_recipe(&mut rng);
        assert!(words.len() <= MOST_WORDS);
        let count = words[0] as usize;
        if round % 2 == 1 {
            damage_program_recipe(&mut rng, &mut words);
        }
        let colour = random_components(&mut rng, count);
        let reply = run(&words, &colour);
        assert_eq!(reply, slow(&words, &colour).unwrap_or(ELEVEN), "{words:?}");
        answered += u32::from(reply.is_ok());
        ill += u32::from(reply == ELEVEN);
        assert!(round % 2 == 1 || reply.is_ok(), "{words:?}");
    }
    assert!(answered > 10_000 && ill > 4_000, "{answered} {ill}");
}

#[test]
fn long_recipes_have_the_words_that_are_asked_for() {
    let mut rng = Rng::new(13);
    for length in (30..200).chain(2_850..2_890) {
        for _ in 0..20 {
            let words = long_recipe(&mut rng, length);
            assert_eq!(words.len(), length);
            let colour = random_components(&mut rng, words[0] as usize);
            let reply = run(&words, &colour);
            assert_eq!(reply, slow(&words, &colour).unwrap_or(ELEVEN), "{words:?}");
            assert_eq!(reply == ELEVEN, length > MOST_WORDS);
        }
    }
}

#[test]
fn long_recipes_with_programs_have_the_words_that_are_asked_for() {
    let mut rng = Rng::new(17);
    for length in (40..70).chain(2_868..2_888) {
        for _ in 0..5 {
            let words = long_program_recipe(&mut rng, length);
            assert_eq!(words.len(), length);
            let colour = random_components(&mut rng, words[0] as usize);
            let reply = run(&words, &colour);
            assert_eq!(reply, slow(&words, &colour).unwrap_or(ELEVEN), "{words:?}");
            assert_eq!(reply == ELEVEN, length > MOST_WORDS);
        }
    }
}

#[test]
fn random_words_run_alike() {
    let mut rng = Rng::new(9);
    let mut answered = 0;
    for _ in 0..300_000 {
        let length = rng.below(12);
        let words: Vec<i32> = (0..length)
            .map(|_| match rng.below(4) {
                0 => rng.number(),
                _ => rng.between(0, 13),
            })
            .collect();
        let count = rng.below(9);
        let colour = random_components(&mut rng, count);
        let reply = run(&words, &colour);
        assert_eq!(reply, slow(&words, &colour).unwrap_or(ELEVEN), "{words:?}");
        answered += u32::from(reply.is_ok());
    }
    assert!(answered > 300, "{answered}");
}

#[test]
fn a_recipe_cut_short_is_11() {
    let mut rng = Rng::new(10);
    for _ in 0..2_000 {
        let page = random_page(&mut rng);
        let mut numbers = [DEVICE_GRAY, DEVICE_RGB, DEVICE_CMYK]
            .map(u32::from)
            .to_vec();
        numbers.extend(spaces(&page).map(|(number, _)| number));
        let number = rng.pick(&numbers, 0xff01);
        let mut words = recipe_of(&page, number).unwrap();
        let colour = random_components(&mut rng, components(&page, number).unwrap());
        assert_eq!(
            slow(&words, &colour),
            Some(evaluate(&page, number, &colour))
        );
        words.push(rng.between(0, 13));
        assert_eq!(run(&words, &colour), ELEVEN);
        words.pop();
        words.truncate(rng.below(words.len()));
        assert_eq!(run(&words, &colour), ELEVEN);
    }
}
