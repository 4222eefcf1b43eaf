//! Document 02, "Calculator functions for tints": random programs and flat forms, right and damaged.

mod flat;

use reference::generate::programs::*;
use reference::generate::Rng;
use reference::numbers::ONE;
use reference::program::kinds::whole;
use reference::program::{judge, parse, results, words_of, Item, Program, MOST_TOKENS};
use reference::runner;
use std::collections::BTreeMap;

/// How many random programs are looked at: fewer where the tests are not built for speed.
const PROGRAMS: usize = if cfg!(debug_assertions) {
    5_000
} else {
    100_000
};

/// A tint of 0..1, the ends among them.
fn tint(rng: &mut Rng) -> i32 {
    let any = rng.between(0, ONE);
    rng.pick(&[0, ONE, ONE / 2, 1, ONE - 1, any, any, any], any)
}

/// So many tints.
fn tints(rng: &mut Rng, count: usize) -> Vec<i32> {
    (0..count).map(|_| tint(rng)).collect()
}

/// How many values a program takes: one, as a Separation's, or as many as a DeviceN's.
fn taken(rng: &mut Rng) -> usize {
    let any = 1 + rng.below(8);
    rng.pick(&[1, any], 1)
}

/// How many branches a program has, and how far they nest, the outer pair counted.
fn branches(program: &Program) -> (usize, usize) {
    let mut found = (0, 1);
    for item in program {
        let inner = match item {
            Item::If(branch) => vec![branch],
            Item::IfElse(first, second) => vec![first, second],
            _ => continue,
        };
        found.0 += 1;
        for branch in inner {
            let (count, depth) = branches(branch);
            found = (found.0 + count, found.1.max(depth + 1));
        }
    }
    found
}

/// "The recipe's flat form with forward jumps equals it on every input", "so nothing accepted sticks".
#[test]
fn the_tree_equals_the_flat_form() {
    let mut rng = Rng::new(61);
    let (mut branched, mut nested, mut full, mut long) = (0, 0, 0, 0);
    let mut codes = [0; 26];
    for round in 0..PROGRAMS {
        let (taken, count) = (taken(&mut rng), 1 + rng.below(4));
        let about = rng.below(30);
        let text = match round % 5 {
            0 => random_program(&mut rng, taken, count),
            _ => random_program_of(&mut rng, taken, count, Shape::About(about)),
        };
        let program = judge(&text, taken, count).unwrap_or_else(|refusal| {
            panic!("refusal {refusal} of {}", String::from_utf8_lossy(&text))
        });
        let words = words_of(&program);
        assert!(words.len() <= 796);
        assert!(runner::flat::holds(&words, taken, count), "{words:?}");
        for _ in 0..3 {
            let tints = tints(&mut rng, taken);
            let expected = results(&program, &tints).unwrap();
            assert_eq!(expected.len(), count);
            assert_eq!(runner::flat::run(&words, &tints), expected, "{words:?}");
            if round % 20 == 0 {
                assert_eq!(flat::run(&words, &tints), Some(expected));
            }
        }
        if round % 20 == 0 {
            assert!(flat::holds(&words, taken, count), "{words:?}");
            let other = count % 4 + 1;
            assert!(!runner::flat::holds(&words, taken, other), "{words:?}");
            let other = taken % 8 + 1;
            assert!(!runner::flat::holds(&words, other, count), "{words:?}");
            for word in words.iter().filter(|word| (1..=25).contains(*word)) {
                codes[*word as usize] += 1;
            }
        }
        let (found, depth) = branches(&program);
        branched += usize::from(found > 0);
        nested += usize::from(depth == 8);
        full += usize::from(tokens_of(&program) + 2 == MOST_TOKENS);
        long += usize::from(text.len() > 3 * 504);
    }
    assert!(2 * branched > PROGRAMS, "{branched}");
    assert!(nested > PROGRAMS / 100 && full > PROGRAMS / 300 && long > PROGRAMS / 300);
    assert!(codes[1..].iter().all(|count| *count > 20), "{codes:?}");
}

/// Whether every count of a program is there and whole, so that its words say what it says.
fn counts_are_whole(program: &Program) -> bool {
    program.iter().all(|item| match item {
        Item::Copy(count) | Item::Index(count) => whole(*count).is_some(),
        Item::Roll(count, by) => whole(*count).is_some() && whole(*by).is_some(),
        Item::If(branch) => counts_are_whole(branch),
        Item::IfElse(first, second) => counts_are_whole(first) && counts_are_whole(second),
        Item::Number(_) | Item::Op(_) => true,
    })
}

/// A program is judged as its flat form is, where its counts are whole: on texts damaged anywhere.
#[test]
fn the_tree_is_judged_as_the_flat_form() {
    let mut rng = Rng::new(62);
    let mut met = BTreeMap::new();
    for _ in 0..PROGRAMS {
        let (taken, count) = (taken(&mut rng), 1 + rng.below(4));
        let about = rng.below(30);
        let mut text = random_program_of(&mut rng, taken, count, Shape::About(about));
        for _ in 0..1 + rng.below(2) {
            damage_program_text(&mut rng, &mut text);
        }
        let reply = judge(&text, taken, count).map(|_| ());
        *met.entry(reply).or_insert(0) += 1;
        let Some(program) = parse(&text) else {
            assert_eq!(reply, Err(16));
            continue;
        };
        let holds = runner::flat::holds(&words_of(&program), taken, count);
        let expected = holds && counts_are_whole(&program);
        assert_eq!(
            reply.is_ok(),
            expected,
            "{}",
            String::from_utf8_lossy(&text)
        );
    }
    for reply in [Ok(()), Err(16), Err(17)] {
        assert!(met[&reply] > PROGRAMS / 50, "{met:?}");
    }
}

#[test]
fn every_way_of_damage_leads_to_its_refusal() {
    let mut rng = Rng::new(63);
    for way in 0..PROGRAM_WAYS {
        for _ in 0..300 {
            let (taken, count) = (taken(&mut rng), 1 + rng.below(4));
            let (text, refusal, name) = damaged_program_by(&mut rng, taken, count, way);
            let reply = judge(&text, taken, count).err();
            assert_eq!(
                reply,
                Some(refusal),
                "{name}: {}",
                String::from_utf8_lossy(&text)
            );
            assert!(!text.is_empty() && text.len() <= MOST_TEXT && !text.contains(&0));
        }
    }
}

#[test]
fn random_flat_forms_are_judged_and_run_alike() {
    let mut rng = Rng::new(64);
    let (mut right, mut still, mut ill) = (0, 0, 0);
    for round in 0..PROGRAMS / 4 {
        let (taken, count) = (taken(&mut rng), 1 + rng.below(4));
        let mut words = random_flat(&mut rng, taken, count);
        let damaged = round % 3 != 0;
        for _ in 0..usize::from(damaged) * (1 + rng.below(2)) {
            damage_flat(&mut rng, &mut words);
        }
        let holds = flat::holds(&words, taken, count);
        let ours = runner::flat::holds(&words, taken, count);
        assert_eq!(ours, holds, "{words:?}");
        assert!(damaged || holds, "{words:?}");
        match (holds, damaged) {
            (true, false) => right += 1,
            (true, true) => still += 1,
            _ => ill += 1,
        }
        if holds {
            let tints = tints(&mut rng, taken);
            let (ours, expected) = (runner::flat::run(&words, &tints), flat::run(&words, &tints));
            assert_eq!(Some(ours), expected, "{words:?}");
        }
    }
    assert!(right > PROGRAMS / 20 && still > PROGRAMS / 200 && ill > PROGRAMS / 20);
}
