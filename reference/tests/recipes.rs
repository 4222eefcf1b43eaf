//! Writing recipes, and that running one is evaluating on its page.

mod common;

use common::*;
use reference::block::{Body, BLOCK, DEVICE_CMYK, DEVICE_GRAY, DEVICE_RGB, MOST_BLOCKS};
use reference::cie::Answer;
use reference::colour::{evaluate, Reply};
use reference::generate::{damage, random_components, random_page, Rng};
use reference::numbers::ONE;
use reference::page::{block_at, components, family, name_at, spaces, validate, Family};
use reference::recipe::{recipe_of, write, MOST_WORDS};
use reference::runner::run;

/// How many random pages are looked at: fewer where the tests are not built for speed.
const PAGES: usize = if cfg!(debug_assertions) { 60 } else { 500 };

const NINE: Reply = Err((9, 0));

/// The numbers that a page can be asked for: its spaces and the device codes.
fn asked(page: &[u8]) -> Vec<u32> {
    let mut numbers = vec![
        u32::from(DEVICE_GRAY),
        u32::from(DEVICE_RGB),
        u32::from(DEVICE_CMYK),
    ];
    numbers.extend(spaces(page).map(|(number, _)| number));
    numbers
}

/// "Lengths: Gray 6, RGB 14, CMYK 18, CalGray 9, CalRGB 26, Lab 16; Indexed adds 3 + m(hival + 1), Separation 3 + 2m."
/// By document 02 "None is the words 1, 10; All is 1, the limit, 11", the limit being four words.
fn length(page: &[u8], number: u32) -> usize {
    let inner = |reference: u16| {
        let inner = u32::from(reference);
        (components(page, inner).unwrap(), length(page, inner))
    };
    match name_at(page, number) {
        Some(b"None") => return 2,
        Some(b"All") => return 6,
        _ => {}
    }
    match family(page, number).unwrap() {
        Family::DeviceGray => 6,
        Family::DeviceRgb => 14,
        Family::DeviceCmyk => 18,
        Family::CalGray => 9,
        Family::CalRgb => 26,
        Family::Lab => 16,
        Family::DeviceN(_) => unreachable!("no page made here has one"),
        Family::Indexed | Family::Separation => {
            match block_at(page, number as usize).and_then(Body::of) {
                Some(Body::Indexed { base, hival }) => {
                    let (m, words) = inner(base);
                    words + 3 + m * (usize::from(hival) + 1)
                }
                Some(Body::Separation { alternate, .. }) => {
                    let (m, words) = inner(alternate);
                    words + 3 + 2 * m
                }
                _ => unreachable!(),
            }
        }
    }
}

#[test]
fn a_recipe_run_equals_the_colour_on_the_page() {
    let mut rng = Rng::new(5);
    let mut longest = 0;
    // How many colours moved nothing, and how many something.
    let mut found = [0; 2];
    for _ in 0..PAGES {
        let page = random_page(&mut rng);
        assert!(validate(&page).is_ok());
        for number in asked(&page) {
            let words = recipe_of(&page, number).unwrap();
            assert_eq!(words.len(), length(&page, number));
            longest = longest.max(words.len());
            let count = components(&page, number).unwrap();
            for _ in 0..12 {
                let colour = random_components(&mut rng, count);
                let reply = evaluate(&page, number, &colour);
                assert_eq!(run(&words, &colour), reply);
                found[usize::from(reply.unwrap().moved)] += 1;
            }
            for other in 0..7 {
                let colour = random_components(&mut rng, other);
                let reply = evaluate(&page, number, &colour);
                assert_eq!(reply == NINE, other != count);
                assert_eq!(run(&words, &colour), reply);
            }
        }
    }
    assert_eq!(longest, 1045);
    assert!(found.iter().all(|count| *count > 10 * PAGES), "{found:?}");
}

#[test]
fn a_written_recipe_fills_its_words_and_no_others() {
    let mut rng = Rng::new(6);
    for _ in 0..PAGES / 2 {
        let page = random_page(&mut rng);
        for number in asked(&page) {
            let words = recipe_of(&page, number).unwrap();
            let n = words.len();
            for room in [n, n + 1, n + 100, MOST_WORDS.max(n)] {
                let stamp = rng.next() as i32;
                let mut lent = vec![stamp; room];
                assert_eq!(write(&page, number, &mut lent), Ok(n));
                assert_eq!(lent[..n], words[..]);
                assert!(lent[n..].iter().all(|word| *word == stamp));
            }
            for room in [0, 1, n - 1, rng.below(n)] {
                let mut lent = vec![77; room];
                assert_eq!(write(&page, number, &mut lent), Err((10, 0)));
                assert!(lent.iter().all(|word| *word == 77));
            }
        }
    }
}

#[test]
fn refusals_come_in_order() {
    let mut rng = Rng::new(7);
    let mut refused = 0;
    for _ in 0..3_000 {
        let mut page = random_page(&mut rng);
        if rng.once_in(2) {
            damage(&mut rng, &mut page);
        }
        let number = match rng.below(4) {
            0 => rng.next() as u32,
            1 => 0xff00 + rng.below(8) as u32,
            _ => rng.below(MOST_BLOCKS + 6) as u32,
        };
        let mut lent = [5; 1];
        let expected = match validate(&page) {
            Err(refusal) => Err(refusal),
            Ok(_) if components(&page, number).is_none() => Err((8, 0)),
            Ok(_) => Err((10, 0)),
        };
        assert_eq!(write(&page, number, &mut lent), expected);
        assert_eq!(lent, [5; 1]);
        let asked = evaluate(&page, number, &[1, 2]);
        let Err((number_given, block)) = expected else {
            unreachable!()
        };
        let number_given = if number_given == 10 { 9 } else { number_given };
        assert_eq!(asked, Err((number_given, block)));
        refused += u32::from(number_given == 8);
        if number_given != 9 {
            assert_eq!(recipe_of(&page, number), expected.map(|_| Vec::new()));
        }
    }
    assert!(refused > 200);
}

#[test]
fn asking_for_what_is_no_space_is_8() {
    let page = page(&[
        record(0, Body::Free),
        record(
            1,
            Body::Indexed {
                base: DEVICE_GRAY,
                hival: 0,
            },
        ),
        palette(2, &[1]),
    ]);
    let eight = Err((8, 0));
    let most = MOST_BLOCKS as u32;
    for number in [
        0,
        2,
        3,
        most - 1,
        most,
        0xff00,
        0xff02,
        0xff05,
        0x1_ff01,
        u32::MAX,
    ] {
        assert_eq!(evaluate(&page, number, &[]), eight);
        assert_eq!(recipe_of(&page, number), Err((8, 0)));
    }
    assert_eq!(evaluate(&page, 1, &[]), NINE);
    assert_eq!(evaluate(&page, 0xff01, &[ONE]), kept(Answer::Gray(1.0)));
    // The page is judged first, for device codes too.
    assert_eq!(evaluate(&page[..2 * BLOCK], 0xff01, &[ONE]), Err((7, 1)));
}
