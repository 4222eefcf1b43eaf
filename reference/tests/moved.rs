//! Document 02, "Tell us when a colour was pulled in": what the yes or no means, said without steps.

mod common;

use common::*;
use reference::block::{Body, DEVICE_CMYK, DEVICE_GRAY, DEVICE_RGB};
use reference::cie::Answer;
use reference::colour::evaluate;
use reference::generate::{random_component, random_components, random_page, random_recipe, Rng};
use reference::numbers::ONE;
use reference::page::{block_at, components, name_at, ranges, spaces};
use reference::recipe::recipe_of;
use reference::records::named;
use reference::runner::run;

/// How many random pages are looked at: fewer where the tests are not built for speed.
const PAGES: usize = if cfg!(debug_assertions) { 30 } else { 100 };

/// The numbers that a page can be asked for: its spaces and the device codes.
fn asked(page: &[u8]) -> Vec<u32> {
    let device = [DEVICE_GRAY, DEVICE_RGB, DEVICE_CMYK].map(u32::from);
    let found = spaces(page).map(|(number, _)| number);
    device.into_iter().chain(found).collect()
}

/// What a block records.
fn body(page: &[u8], number: u32) -> Option<Body> {
    block_at(page, number as usize).and_then(Body::of)
}

/// Whether something is moved on the page.
fn moved_on(page: &[u8], number: u32, colour: &[i32]) -> bool {
    evaluate(page, number, colour).unwrap().moved
}

/// A component at an end of the range, just outside or inside it, or any.
fn about(rng: &mut Rng, (lo, hi): (i32, i32)) -> i32 {
    match rng.below(8) {
        0 => lo,
        1 => hi,
        2 => lo.saturating_sub(1),
        3 => hi.saturating_add(1),
        4 | 5 => rng.between(lo, hi),
        _ => random_component(rng),
    }
}

#[test]
fn in_plain_spaces_no_means_that_every_component_is_within_its_range() {
    let mut rng = Rng::new(31);
    let mut found = [0; 2];
    for _ in 0..PAGES {
        let page = random_page(&mut rng);
        for number in asked(&page) {
            if matches!(
                body(&page, number),
                Some(Body::Indexed { .. } | Body::Separation { .. })
            ) {
                continue;
            }
            let words = recipe_of(&page, number).unwrap();
            let count = components(&page, number).unwrap();
            let ranges = &ranges(&page, number)[..count];
            for _ in 0..20 {
                let colour: Vec<i32> = ranges.iter().map(|range| about(&mut rng, *range)).collect();
                let within = ranges
                    .iter()
                    .zip(&colour)
                    .all(|((lo, hi), v)| lo <= v && v <= hi);
                assert_eq!(moved_on(&page, number, &colour), !within, "{colour:?}");
                assert_eq!(run(&words, &colour).unwrap().moved, !within, "{colour:?}");
                found[usize::from(within)] += 1;
            }
        }
    }
    assert!(found.iter().all(|count| *count > 10 * PAGES), "{found:?}");
}

/// An index moves nothing from -0.5 up to, but not including, hival and a half; a tint nothing in 0..1. The rest is the
/// inner space's own.
#[test]
fn in_nested_spaces_the_outer_limit_or_the_inner_space_moves() {
    let mut rng = Rng::new(32);
    // By what moved: nothing, the inner space alone, the outer limit alone, both.
    let mut found = [0; 4];
    for _ in 0..PAGES {
        let page = random_page(&mut rng);
        for (number, _) in spaces(&page) {
            let (lo, past, inner) = match (body(&page, number), name_at(&page, number)) {
                (Some(Body::Indexed { base, hival }), _) => {
                    (-500_000, i64::from(hival) * 1_000_000 + 500_000, base)
                }
                (_, Some(b"None" | b"All")) => continue,
                (Some(Body::Separation { alternate, .. }), _) => (0, 1_000_001, alternate),
                _ => continue,
            };
            let inner = u32::from(inner);
            let count = components(&page, inner).unwrap();
            // The recipe's first step is the outer space's. It leaves a colour of the inner one, which step 6 shows.
            let mut first = recipe_of(&page, number).unwrap();
            first.truncate(first.len() - (recipe_of(&page, inner).unwrap().len() - 1));
            first.push(6);
            for _ in 0..20 {
                let v = about(&mut rng, (lo, (past - 1) as i32));
                let outer = v < lo || past <= i64::from(v);
                let shown = run(&first, &[v]).unwrap();
                assert_eq!(shown.moved, outer);
                let Answer::Cmyk(floats) = shown.answer else {
                    panic!("step 6 answers in CMYK")
                };
                let colour = floats.map(|v| (v * 1e6).round() as i32);
                let within = moved_on(&page, inner, &colour[..count]);
                assert_eq!(moved_on(&page, number, &[v]), outer || within);
                found[2 * usize::from(outer) + usize::from(within)] += 1;
            }
        }
    }
    assert!(found.iter().all(|count| *count > PAGES), "{found:?}");
}

#[test]
fn none_limits_nothing_and_all_its_tint() {
    let mut rng = Rng::new(33);
    let gold = separation(0, DEVICE_GRAY, 1, [-ONE, 0, 0, 0], [9 * ONE, 0, 0, 0]);
    let (none, all) = (page(&[named(gold, b"None")]), page(&[named(gold, b"All")]));
    for _ in 0..1_000 {
        let v = about(&mut rng, (0, ONE));
        assert!(!moved_on(&none, 0, &[v]));
        assert_eq!(moved_on(&all, 0, &[v]), !(0..=ONE).contains(&v));
    }
}

/// "Not the nearer end in a gamma", nor anything else in a closing step.
#[test]
fn without_a_limiting_step_nothing_moves() {
    let mut rng = Rng::new(34);
    for _ in 0..1_000 {
        let tenths = rng.between(1, 40) * (ONE / 10);
        for words in [
            vec![4, 4],
            vec![4, 5],
            vec![4, 6],
            vec![4, 7, 1, 2, tenths],
            [vec![4, 8, tenths, tenths, tenths], vec![ONE; 9]].concat(),
            vec![4, 9, ONE, ONE],
            vec![4, 10],
            vec![4, 11],
        ] {
            let colour = random_components(&mut rng, 4);
            assert!(!run(&words, &colour).unwrap().moved, "{words:?}");
        }
    }
}

/// What an earlier step moved is not forgotten: a step before a recipe can only add to it.
#[test]
fn one_limit_more_adds_to_the_rest() {
    let mut rng = Rng::new(35);
    for _ in 0..20_000 {
        let words = random_recipe(&mut rng);
        let count = words[0] as usize;
        let colour = random_components(&mut rng, count);
        let rest = run(&words, &colour).unwrap();
        // Limits that hold the first value where it is, or move it.
        let v = colour[0];
        let still = [&words[..1], &[1, 0, v, v], &words[1..]].concat();
        assert_eq!(run(&still, &colour), Ok(rest));
        let to = random_component(&mut rng);
        let pulled = [&words[..1], &[1, 0, to, to], &words[1..]].concat();
        let moved_first = run(&pulled, &colour).unwrap();
        let mut other = colour.clone();
        other[0] = to;
        let from_there = run(&words, &other).unwrap();
        assert_eq!(moved_first.answer, from_there.answer);
        assert_eq!(moved_first.moved, to != v || from_there.moved);
    }
}
