//! The comparisons with small counts: the proved library agrees, and idle or faulty ones are caught.

use difference::{compare, device_n, inks, programs, Library, PROVED, REFERENCE};
use reference::generate::Rng;
use reference::page::{family, Family};
use sktelbaan::{Answer, Colour, InkPage, InkRefusal, Refusal};

/// How many pages are compared: fewer where the tests are not built for speed.
const PAGES: u64 = if cfg!(debug_assertions) { 1_000 } else { 4_000 };

#[test]
fn pages_are_validated_alike() {
    let tally = compare::validate(&PROVED, &mut Rng::new(1), PAGES).unwrap();
    assert_eq!(tally.total(), PAGES);
    assert!(tally.accepted > PAGES / 8);
    for number in (1..=7).chain([16, 17]) {
        assert!(tally.refused[number] > 0, "refusal {number} was never met");
    }
}

#[test]
fn colours_are_evaluated_alike() {
    let tally = compare::evaluate(&PROVED, &mut Rng::new(2), 4 * PAGES).unwrap();
    assert_eq!(tally.total(), 4 * PAGES);
    assert!(tally.accepted > PAGES);
    assert!(tally.moved > PAGES / 4 && tally.accepted - tally.moved > PAGES / 4);
    for number in (1..=9).chain([16, 17]) {
        assert!(tally.refused[number] > 0, "refusal {number} was never met");
    }
}

#[test]
fn recipes_are_written_and_run_alike() {
    let found = compare::recipes(&PROVED, &mut Rng::new(3), 2 * PAGES).unwrap();
    assert_eq!(found.run.total(), 2 * PAGES);
    // That of hival 255 over CMYK at the least; one over a DeviceN may be longer.
    assert!(found.longest >= 1045);
    assert!(found.run.accepted > PAGES && found.run.refused[9] > 0);
    for number in (1..=8).chain([10, 16, 17]) {
        let count = found.written.refused[number];
        assert!(count > 0, "refusal {number} was never met");
    }
}

#[test]
fn word_lists_are_run_alike() {
    let tally = compare::run(&PROVED, &mut Rng::new(4), PAGES).unwrap();
    assert!(tally.total() >= PAGES && tally.accepted > PAGES / 5);
    assert!(tally.moved > PAGES / 20 && tally.accepted - tally.moved > PAGES / 20);
    assert!(tally.refused[9] > 0 && tally.refused[11] > PAGES / 10);
}

#[test]
fn programs_are_answered_alike() {
    let found = programs::accepted(&PROVED, &mut Rng::new(11), PAGES).unwrap();
    assert_eq!(found.pages.accepted, PAGES);
    assert!(2 * found.branched > PAGES, "{found}");
    assert!(found.longest > 400, "{found}");
    let colours = found.colours;
    assert!(colours.moved > PAGES / 10 && colours.accepted - colours.moved > PAGES);
    assert!(colours.refused[9] > 0);
}

#[test]
fn damaged_programs_are_refused_alike() {
    let tally = programs::damaged(&PROVED, &mut Rng::new(12), 4 * PAGES).unwrap();
    assert_eq!(tally.total(), 4 * PAGES);
    for number in [5, 6, 7] {
        assert!(tally.refused[number] > 0, "refusal {number} was never met");
    }
    assert!(tally.refused[16] > PAGES / 2 && tally.refused[17] > PAGES / 2);
    assert!(tally.accepted > PAGES / 20);
}

#[test]
fn flat_forms_are_run_alike() {
    let tally = programs::flat_forms(&PROVED, &mut Rng::new(13), 8 * PAGES).unwrap();
    assert_eq!(tally.total(), 8 * PAGES);
    assert!(tally.accepted > 2 * PAGES && tally.refused[11] > 2 * PAGES);
    assert!(tally.moved > PAGES / 4 && tally.accepted - tally.moved > PAGES);
    assert!(tally.refused[9] > 0);
}

#[test]
fn operators_are_run_alike() {
    let tally = programs::operators(&PROVED).unwrap();
    assert!(
        tally.accepted > 2_600 && tally.refused[11] > 7_000,
        "{tally}"
    );
}

#[test]
fn pages_with_device_n_are_answered_alike() {
    let found = device_n::pages(&PROVED, &mut Rng::new(17), 2 * PAGES).unwrap();
    assert_eq!(found.pages.total(), 2 * PAGES);
    assert!(found.pages.accepted > PAGES);
    for number in [2, 3, 4, 6, 7, 16, 17] {
        let count = found.pages.refused[number];
        assert!(count > 0, "refusal {number} was never met: {found}");
    }
    assert!(
        found.counts[1..].iter().all(|count| *count > PAGES / 40),
        "{found}"
    );
    assert!(found.longest > 1_500 && found.widest == 8, "{found}");
    let colours = found.colours;
    assert!(colours.moved > PAGES / 2 && colours.accepted - colours.moved > PAGES / 10);
    assert!(colours.refused[8] > 0 && colours.refused[9] > PAGES / 20);
}

#[test]
fn steps_13_are_run_alike() {
    let tally = device_n::steps(&PROVED, &mut Rng::new(18), 8 * PAGES).unwrap();
    assert_eq!(tally.total(), 8 * PAGES);
    assert!(tally.accepted > 2 * PAGES && tally.refused[11] > 2 * PAGES);
    assert!(tally.moved > PAGES && tally.accepted - tally.moved > PAGES / 4);
    assert!(tally.refused[9] > 0);
}

/// Every component that a gamma in tenths tells apart, under every such gamma: 36 gammas and 10,001 numbers u.
#[test]
fn every_gamma_in_tenths_is_decoded_alike() {
    for p in (1..=40).filter(|p| p % 10 != 0) {
        let words = [1, 7, 1_000_000, 1_000_000, 100_000 * p];
        for u in 0..=10_000 {
            let colour = [100 * u];
            let expected = (REFERENCE.run)(&words, &colour);
            assert_eq!((PROVED.run)(&words, &colour), expected, "{p} tenths, u {u}");
        }
    }
}

#[test]
fn records_and_blocks_are_written_and_read_alike() {
    let tally = compare::write_block(&PROVED, &mut Rng::new(6), 4 * PAGES).unwrap();
    assert!(tally.total() == 4 * PAGES && tally.accepted > PAGES);
    for number in 3..=6 {
        assert!(tally.refused[number] > 0, "refusal {number} was never met");
    }
    let tally = compare::write_numbers(&PROVED, &mut Rng::new(8), 4 * PAGES).unwrap();
    assert!(tally.total() == 4 * PAGES && tally.accepted > PAGES / 2);
    for number in 3..=6 {
        assert!(tally.refused[number] > 0, "refusal {number} was never met");
    }
    let tally = compare::read_block(&PROVED, &mut Rng::new(7), 4 * PAGES).unwrap();
    assert!(tally.total() == 4 * PAGES && tally.accepted > PAGES / 2);
    for number in (2..=6).chain([10]) {
        assert!(tally.refused[number] > 0, "refusal {number} was never met");
    }
}

#[test]
fn inks_are_found_alike() {
    let inks = inks::find_ink(&PROVED, &mut Rng::new(9), 8 * PAGES).unwrap();
    assert!(inks.replies.total() >= 8 * PAGES && inks.replies.accepted > 2 * PAGES);
    for number in 1..=8 {
        let count = inks.replies.refused[number];
        assert!(count > 0, "refusal {number} was never met");
    }
    assert!(inks.found.iter().all(|count| *count > PAGES / 2));
    assert!(inks.refused.iter().all(|count| *count > PAGES / 8));
}

#[test]
fn faults_of_inks_are_caught() {
    let caught = |library: &Library| inks::find_ink(library, &mut Rng::new(10), 4_000).is_err();
    assert!(!caught(&REFERENCE));
    // Refuses everything.
    let refusing = Library {
        find_ink: |_, _, _| {
            Err(InkRefusal {
                refusal: refusal(8),
                page: None,
            })
        },
        ..REFERENCE
    };
    assert!(caught(&refusing));
    // The house page first.
    let swapped = Library {
        find_ink: |job, house, name| {
            let other = |page| match page {
                InkPage::Job => InkPage::House,
                InkPage::House => InkPage::Job,
            };
            match (REFERENCE.find_ink)(house, job, name) {
                Ok((page, block, bytes)) => Ok((other(page), block, bytes)),
                Err(_) => (REFERENCE.find_ink)(job, house, name),
            }
        },
        ..REFERENCE
    };
    assert!(caught(&swapped));
    // One byte too many.
    let long = Library {
        find_ink: |job, house, name| {
            let (page, block, bytes) = (REFERENCE.find_ink)(job, house, name)?;
            Ok((page, block, bytes.start..bytes.end + 1))
        },
        ..REFERENCE
    };
    assert!(caught(&long));
    // Names in either case, and names without their last zero byte.
    let lax = Library {
        find_ink: |job, house, name| {
            let reply = (REFERENCE.find_ink)(job, house, name);
            reply.or_else(|_| (REFERENCE.find_ink)(job, house, &name.to_ascii_uppercase()))
        },
        ..REFERENCE
    };
    assert!(caught(&lax));
    let cut = Library {
        find_ink: |job, house, name| {
            let name = name.strip_suffix(&[0]).unwrap_or(name);
            (REFERENCE.find_ink)(job, house, name)
        },
        ..REFERENCE
    };
    assert!(caught(&cut));
    // A palette block of the job's page with the bytes of an ink.
    let like_an_ink = Library {
        find_ink: |job, house, name| {
            let reply = (REFERENCE.find_ink)(job, house, name);
            let is_like = |block: &[u8]| {
                let size = usize::from(block[7]);
                block[0] == 6 && size == name.len() && block[8..].starts_with(name)
            };
            let judged = !matches!(reply, Err(none) if none.page.is_some());
            match job.chunks_exact(512).position(is_like) {
                Some(block) if judged => {
                    let from = 512 * block + 8;
                    Ok((InkPage::Job, block as u32, from..from + name.len()))
                }
                _ => reply,
            }
        },
        ..REFERENCE
    };
    assert!(caught(&like_an_ink));
    // The house page's refusal only where it is looked at.
    let lazy = Library {
        find_ink: |job, house, name| {
            let reply = (REFERENCE.find_ink)(job, job, name);
            reply.or_else(|_| (REFERENCE.find_ink)(job, house, name))
        },
        ..REFERENCE
    };
    assert!(caught(&lazy));
}

/// A colour that an idle library gives.
const BLACK: Colour = Colour {
    answer: Answer::Gray(0.0),
    moved: false,
};

/// A refusal that is about no block.
fn refusal(number: u32) -> Refusal {
    Refusal { number, block: 0 }
}

/// Whether each comparison finds a difference: validate, evaluate, recipes, run.
fn caught(library: &Library) -> [bool; 4] {
    let rng = &mut Rng::new(5);
    [
        compare::validate(library, rng, 300).is_err(),
        compare::evaluate(library, rng, 1_000).is_err(),
        compare::recipes(library, rng, 400).is_err(),
        compare::run(library, rng, 1_000).is_err(),
    ]
}

#[test]
fn the_reference_agrees_with_itself() {
    assert_eq!(caught(&REFERENCE), [false; 4]);
}

#[test]
fn idle_libraries_are_caught() {
    let refusing = Library {
        validate: |_| Err(refusal(1)),
        evaluate: |_, _, _| Err(refusal(1)),
        write_recipe: |_, _, _| Err(refusal(1)),
        run: |_, _| Err(refusal(11)),
        ..REFERENCE
    };
    assert_eq!(caught(&refusing), [true; 4]);
    let constant = Library {
        validate: |_| Ok(()),
        evaluate: |_, _, _| Ok(BLACK),
        write_recipe: |_, _, words| {
            let room = words.first_chunk_mut().ok_or(refusal(10))?;
            *room = [1, 4];
            Ok(2)
        },
        run: |_, _| Ok(BLACK),
        ..REFERENCE
    };
    assert_eq!(caught(&constant), [true; 4]);
}

#[test]
fn faults_in_one_place_are_caught() {
    // Reports success, writes nothing.
    let silent = Library {
        write_recipe: |page, number, words| {
            let mut other = words.to_vec();
            (REFERENCE.write_recipe)(page, number, &mut other)
        },
        ..REFERENCE
    };
    assert_eq!(caught(&silent), [false, false, true, false]);
    // Writes one word too many.
    let long = Library {
        write_recipe: |page, number, words| {
            let count = (REFERENCE.write_recipe)(page, number, words)?;
            if let Some(word) = words.get_mut(count) {
                *word = 0;
            }
            Ok(count)
        },
        ..REFERENCE
    };
    assert_eq!(caught(&long), [false, false, true, false]);
    // Alters a word, then refuses.
    let hasty = Library {
        write_recipe: |page, number, words| {
            let reply = (REFERENCE.write_recipe)(page, number, words);
            if let (Err(_), Some(word)) = (reply, words.first_mut()) {
                *word = 1;
            }
            reply
        },
        ..REFERENCE
    };
    assert_eq!(caught(&hasty), [false, false, true, false]);
    // Names the wrong block.
    let blind = Library {
        validate: |page| {
            (REFERENCE.validate)(page).map_err(|refusal| Refusal {
                block: 0,
                ..refusal
            })
        },
        ..REFERENCE
    };
    assert_eq!(caught(&blind), [true, false, false, false]);
    // Loses the sign of a zero.
    let unsigned = Library {
        run: |words, components| {
            (REFERENCE.run)(words, components).map(|colour| match colour.answer {
                Answer::Xyz(v) => Colour {
                    answer: Answer::Xyz(v.map(|v| v + 0.0)),
                    ..colour
                },
                _ => colour,
            })
        },
        ..REFERENCE
    };
    assert!(caught(&unsigned)[3]);
    // Leaves a mark where there is to be none.
    let marking = Library {
        evaluate: |page, number, components| {
            (REFERENCE.evaluate)(page, number, components).map(marked)
        },
        run: |words, components| (REFERENCE.run)(words, components).map(marked),
        ..REFERENCE
    };
    assert_eq!(caught(&marking), [false, true, true, true]);
    // Takes every ink for Gray.
    let gray = Library {
        evaluate: |page, number, components| {
            (REFERENCE.evaluate)(page, number, components).map(grayed)
        },
        run: |words, components| (REFERENCE.run)(words, components).map(grayed),
        ..REFERENCE
    };
    assert_eq!(caught(&gray), [false, true, true, true]);
}

/// A colour that always marks.
fn marked(colour: Colour) -> Colour {
    let answer = match colour.answer {
        Answer::NoMark => Answer::EveryInk(0.0),
        other => other,
    };
    Colour { answer, ..colour }
}

/// A colour in which every ink is Gray.
fn grayed(colour: Colour) -> Colour {
    let answer = match colour.answer {
        Answer::EveryInk(v) => Answer::Gray(v),
        other => other,
    };
    Colour { answer, ..colour }
}

/// A colour with another word on whether it was pulled in.
fn saying(moved: bool, colour: Colour) -> Colour {
    Colour { moved, ..colour }
}

#[test]
fn a_wrong_word_on_moving_is_caught() {
    let never = Library {
        evaluate: |page, number, components| {
            (REFERENCE.evaluate)(page, number, components).map(|colour| saying(false, colour))
        },
        run: |words, components| {
            (REFERENCE.run)(words, components).map(|colour| saying(false, colour))
        },
        ..REFERENCE
    };
    assert_eq!(caught(&never), [false, true, true, true]);
    let always = Library {
        evaluate: |page, number, components| {
            (REFERENCE.evaluate)(page, number, components).map(|colour| saying(true, colour))
        },
        run: |words, components| {
            (REFERENCE.run)(words, components).map(|colour| saying(true, colour))
        },
        ..REFERENCE
    };
    assert_eq!(caught(&always), [false, true, true, true]);
    // On the page alone: a recipe's run is held to it.
    let forgetful = Library {
        evaluate: never.evaluate,
        ..REFERENCE
    };
    assert_eq!(caught(&forgetful), [false, true, true, false]);
    // Says yes where rounding alone changed an index.
    let rounding = Library {
        evaluate: |page, number, components| {
            let indexed = family(page, number) == Some(Family::Indexed);
            let rounded = components.iter().any(|v| v % 1_000_000 != 0);
            let colour = (REFERENCE.evaluate)(page, number, components)?;
            Ok(saying(colour.moved || indexed && rounded, colour))
        },
        ..REFERENCE
    };
    assert_eq!(caught(&rounding), [false, true, true, false]);
}

/// Whether each comparison of programs finds a difference: accepted ones, damaged ones, flat forms, operators.
fn caught_in_programs(library: &Library) -> [bool; 4] {
    let rng = &mut Rng::new(14);
    [
        programs::accepted(library, rng, 400).is_err(),
        programs::damaged(library, rng, 2_000).is_err(),
        programs::flat_forms(library, rng, 2_000).is_err(),
        programs::operators(library).is_err(),
    ]
}

/// The refusal of one number in place of another.
fn exchanged<T>(reply: Result<T, Refusal>, from: u32, to: u32) -> Result<T, Refusal> {
    reply.map_err(|refusal| match refusal {
        Refusal { number, block } if number == from => Refusal { number: to, block },
        other => other,
    })
}

/// The words of a recipe that is a step 12 and a closing step, with one code of its items in place of another.
fn recoded(words: &[i32], from: i32, to: i32) -> Vec<i32> {
    let mut words = words.to_vec();
    let mut at = 4;
    while at + 1 < words.len() && words[1] == 12 {
        let length = match words[at] {
            1..=3 | 5 | 6 => 2,
            4 => 3,
            _ => 1,
        };
        if words[at] == from {
            words[at] = to;
        }
        at += length;
    }
    words
}

#[test]
fn faults_of_programs_are_caught() {
    assert_eq!(caught_in_programs(&REFERENCE), [false; 4]);
    // Takes one refusal for another.
    let sixteen = Library {
        validate: |page| exchanged((REFERENCE.validate)(page), 17, 16),
        ..REFERENCE
    };
    assert_eq!(caught_in_programs(&sixteen), [false, true, false, false]);
    let seven = Library {
        validate: |page| exchanged((REFERENCE.validate)(page), 16, 7),
        ..REFERENCE
    };
    assert_eq!(caught_in_programs(&seven), [false, true, false, false]);
    // Knows no programs: kind 7 is unknown.
    let old = Library {
        validate: |page| match page.chunks(512).position(|block| block[0] == 7) {
            Some(block) => Err(Refusal {
                number: 3,
                block: block as u32,
            }),
            None => (REFERENCE.validate)(page),
        },
        run: |words, components| match words {
            [_, 12, ..] => Err(refusal(11)),
            _ => (REFERENCE.run)(words, components),
        },
        ..REFERENCE
    };
    assert_eq!(caught_in_programs(&old), [true; 4]);
    // Answers where words are ill-formed.
    let lax = Library {
        run: |words, components| match (REFERENCE.run)(words, components) {
            Err(Refusal { number: 11, .. }) => Ok(BLACK),
            reply => reply,
        },
        ..REFERENCE
    };
    assert_eq!(caught_in_programs(&lax), [false, false, true, true]);
    // Takes one operator for another: ge for gt, or for and.
    for other in [
        Library {
            run: |words, components| (REFERENCE.run)(&recoded(words, 12, 13), components),
            ..REFERENCE
        },
        Library {
            run: |words, components| (REFERENCE.run)(&recoded(words, 16, 17), components),
            ..REFERENCE
        },
    ] {
        assert!(caught_in_programs(&other)[3]);
        // Random forms tell it too, enough of them.
        assert!(programs::flat_forms(&other, &mut Rng::new(16), 100_000).is_err());
    }
    // Forgets that a tint was pulled in.
    let forgetful = Library {
        run: |words, components| {
            (REFERENCE.run)(words, components).map(|colour| match words {
                [_, 12, ..] => saying(false, colour),
                _ => colour,
            })
        },
        ..REFERENCE
    };
    assert_eq!(caught_in_programs(&forgetful), [true, false, true, false]);
}

/// The runs of a library that limits the values of step 13 in place, or takes a step 12's one value, or knows no more than
/// four components.
#[test]
fn faults_of_device_n_are_caught() {
    let caught = |library: &Library| {
        let rng = &mut Rng::new(19);
        [
            device_n::pages(library, rng, 600).is_err(),
            device_n::steps(library, rng, 4_000).is_err(),
        ]
    };
    assert_eq!(caught(&REFERENCE), [false; 2]);
    // Limits all values where there is a step 13, so that those that it does not replace are limited too.
    let in_place = Library {
        run: |words, components| {
            let limited: Vec<i32> = components
                .iter()
                .map(|v| (*v).clamp(0, 1_000_000))
                .collect();
            let reply = (REFERENCE.run)(words, components);
            match (words, reply) {
                ([_, 13, ..], Ok(Colour { moved, .. })) => {
                    (REFERENCE.run)(words, &limited).map(|colour| saying(moved, colour))
                }
                _ => reply,
            }
        },
        ..REFERENCE
    };
    assert_eq!(caught(&in_place), [false, true]);
    // Knows four values.
    let four = Library {
        run: |words, components| match words.first() {
            Some(5..) => Err(refusal(11)),
            _ => (REFERENCE.run)(words, components),
        },
        ..REFERENCE
    };
    assert_eq!(caught(&four), [true; 2]);
    // Takes None for a name like any other, or every DeviceN for no mark.
    let marked = Library {
        evaluate: |page, number, components| {
            (REFERENCE.evaluate)(page, number, components).map(marked)
        },
        ..REFERENCE
    };
    assert_eq!(caught(&marked), [true, false]);
    // Accepts equal names.
    let lax = Library {
        validate: |page| match (REFERENCE.validate)(page) {
            Err(Refusal { number: 4, .. }) => Ok(()),
            reply => reply,
        },
        ..REFERENCE
    };
    assert_eq!(caught(&lax), [true, false]);
}

/// "The limit of 1,084 words becomes 2,877": 2,877 words run, 2,878 are 11, with programs and without.
#[test]
fn a_wrong_limit_of_words_is_caught() {
    let caught = |library: &Library| compare::run(library, &mut Rng::new(15), 4_000).is_err();
    assert!(!caught(&REFERENCE));
    let before = Library {
        run: |words, components| match words.len() {
            1085.. => Err(refusal(11)),
            _ => (REFERENCE.run)(words, components),
        },
        ..REFERENCE
    };
    assert!(caught(&before));
    let one_less = Library {
        run: |words, components| match words.len() {
            2877.. => Err(refusal(11)),
            _ => (REFERENCE.run)(words, components),
        },
        ..REFERENCE
    };
    assert!(caught(&one_less));
    let one_more = Library {
        run: |words, components| match words.len() {
            2878 => Ok(BLACK),
            _ => (REFERENCE.run)(words, components),
        },
        ..REFERENCE
    };
    assert!(caught(&one_more));
}

#[test]
fn faults_on_one_block_are_caught() {
    let caught = |library: &Library| {
        let rng = &mut Rng::new(8);
        [
            compare::write_block(library, rng, 1_000).is_err(),
            compare::read_block(library, rng, 1_000).is_err(),
        ]
    };
    assert_eq!(caught(&REFERENCE), [false; 2]);
    // Writes nothing.
    let silent = Library {
        write_block: |record| (REFERENCE.write_block)(record).map(|_| [0; 512]),
        ..REFERENCE
    };
    assert!(caught(&silent)[0]);
    // Loses the bytes.
    let bare = Library {
        read_block: |block| {
            (REFERENCE.read_block)(block).map(|record| sktelbaan::Record {
                bytes: [0; 504],
                ..record
            })
        },
        ..REFERENCE
    };
    assert!(caught(&bare)[1]);
}
