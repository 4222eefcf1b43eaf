//! The fast rival of the benchmark replies what the plain reference replies.

use difference::{compare, device_n, fast, programs, FAST};
use reference::block::{sums, BLOCK};
use reference::gamma::greatest;
use reference::generate::Rng;

/// How many pages are compared: fewer where the tests are not built for speed.
const PAGES: u64 = if cfg!(debug_assertions) { 500 } else { 4_000 };

#[test]
fn check_sums_are_alike() {
    let mut rng = Rng::new(12);
    for round in 0..20_000 {
        let mut block = [0; BLOCK];
        for byte in &mut block {
            *byte = match round % 3 {
                0 => rng.next() as u8,
                1 => rng.pick(&[0, 255], 0),
                _ => (rng.next() as u8) | 0xc0,
            };
        }
        assert_eq!(fast::sums(&block), sums(&block));
    }
    // Each byte alone, and all of them as great as may be.
    for i in 0..BLOCK {
        let mut block = [0; BLOCK];
        block[i] = 255;
        assert_eq!(fast::sums(&block), sums(&block));
    }
    assert_eq!(fast::sums(&[0xff; BLOCK]), sums(&[0xff; BLOCK]));
}

#[test]
fn gammas_in_tenths_are_alike() {
    let step = if cfg!(debug_assertions) { 97 } else { 1 };
    for p in (1..40).filter(|p| p % 10 != 0) {
        for u in (0..=10_000).step_by(step) {
            assert_eq!(fast::settled(u, p), greatest(u, p), "{u} by {p}");
        }
    }
}

#[test]
fn pages_are_validated_alike() {
    let tally = compare::validate(&FAST, &mut Rng::new(21), 4 * PAGES).unwrap();
    assert_eq!(tally.total(), 4 * PAGES);
    for number in (1..=7).chain([16, 17]) {
        assert!(tally.refused[number] > 0, "refusal {number} was never met");
    }
}

#[test]
fn colours_are_evaluated_alike() {
    let tally = compare::evaluate(&FAST, &mut Rng::new(22), 4 * PAGES).unwrap();
    assert!(tally.accepted > PAGES);
    for number in (1..=9).chain([16, 17]) {
        assert!(tally.refused[number] > 0, "refusal {number} was never met");
    }
}

#[test]
fn recipes_are_run_alike() {
    let found = compare::recipes(&FAST, &mut Rng::new(23), PAGES).unwrap();
    assert!(found.run.accepted > PAGES / 2 && found.run.refused[9] > 0);
    let tally = compare::run(&FAST, &mut Rng::new(24), 16 * PAGES).unwrap();
    assert!(tally.accepted > PAGES);
    assert!(tally.refused[9] > 0 && tally.refused[11] > PAGES);
}

#[test]
fn programs_are_answered_alike() {
    let found = programs::accepted(&FAST, &mut Rng::new(25), PAGES).unwrap();
    assert!(found.pages.accepted == PAGES && 2 * found.branched > PAGES);
    let tally = programs::damaged(&FAST, &mut Rng::new(26), 4 * PAGES).unwrap();
    assert_eq!(tally.total(), 4 * PAGES);
    for number in [5, 6, 7, 16, 17] {
        assert!(tally.refused[number] > 0, "refusal {number} was never met");
    }
    let tally = programs::flat_forms(&FAST, &mut Rng::new(27), 4 * PAGES).unwrap();
    assert!(tally.accepted > PAGES && tally.refused[11] > PAGES);
    programs::operators(&FAST).unwrap();
}

#[test]
fn device_n_is_answered_alike() {
    let found = device_n::pages(&FAST, &mut Rng::new(28), 2 * PAGES).unwrap();
    assert!(found.pages.accepted > PAGES);
    let tally = device_n::steps(&FAST, &mut Rng::new(29), 8 * PAGES).unwrap();
    assert!(tally.accepted > PAGES && tally.refused[11] > PAGES);
}
