//! Document 02, "Calculator functions for tints", on pages: runs of blocks, the order of refusals, colours and recipes.

mod common;

use common::*;
use reference::block::{
    lay, read_block, write_block, Body, Record, BLOCK, DEVICE_CMYK, DEVICE_GRAY, DEVICE_RGB,
    MOST_BLOCKS,
};
use reference::cie::Answer;
use reference::colour::{evaluate, Colour};
use reference::generate::programs::*;
use reference::generate::{random_component, repair, Rng};
use reference::listing::list;
use reference::numbers::{float_of, limit, ONE};
use reference::page::{block_at, components, name_at, program_at, program_text, spaces, validate};
use reference::program::results;
use reference::recipe::{recipe_of, write, MOST_WORDS};
use reference::records::{named, program, program_run};
use reference::runner::run;
use std::collections::BTreeSet;

/// How many random pages are looked at: fewer where the tests are not built for speed.
const PAGES: usize = if cfg!(debug_assertions) { 30 } else { 300 };

/// A page of a Separation over a program of this text.
fn over(alternate: u16, text: &[u8]) -> Vec<u8> {
    page(&program_run(0, alternate, text))
}

/// A text of just so many bytes that is the identity.
fn identity(length: usize) -> Vec<u8> {
    let mut text = b"{ }".to_vec();
    text.resize(length, b' ');
    text
}

/// A Separation with exponent 0 in block 0 and these program blocks after it.
fn with_blocks(blocks: &[&[u8]]) -> Vec<Record> {
    let mut records = vec![separation(0, DEVICE_GRAY, 0, [0; 4], [0; 4])];
    records.extend((1..).zip(blocks).map(|(at, bytes)| program(at, bytes)));
    records
}

#[test]
fn single_blocks_have_any_text() {
    for bytes in [&b""[..], b"{ }", b"no program", &[255; 504], &[0, 1, 0, 1]] {
        let made = program(127, bytes);
        let mut block = [0xaa; BLOCK];
        assert_eq!(write_block(&made, &mut block), Ok(()));
        assert_eq!(block[0], 7);
        assert_eq!(block[4..4 + bytes.len()], *bytes);
        assert_eq!(read_block(&block), Ok(made));
    }
    let ink = separation(1, 127, 0, [1, 2, 3, 4], [5, 6, 7, 8]);
    let mut block = [0; BLOCK];
    assert_eq!(write_block(&ink, &mut block), Ok(()));
    assert_eq!(read_block(&block), Ok(ink));
    assert_eq!(write_block(&program(128, b"{ }"), &mut block), Err(3));
    let mut rng = Rng::new(71);
    for _ in 0..3_000 {
        let number = rng.below(MOST_BLOCKS) as u16;
        let made = random_lone_program_record(&mut rng, number);
        assert!(matches!(
            made.body,
            Body::Program | Body::Separation { exponent: 0, .. }
        ));
        assert_eq!(write_block(&made, &mut block), Ok(()));
        assert_eq!(read_block(&block), Ok(made));
    }
}

#[test]
fn runs_of_one_to_four_blocks() {
    for length in [3, 503, 504, 505, 1_008, 1_009, 1_512, 1_513, 2_015, 2_016] {
        let page = over(DEVICE_GRAY, &identity(length));
        assert_eq!(page.len() / BLOCK, 1 + length.div_ceil(504));
        assert_eq!(validate(&page), Ok(page.len() / BLOCK));
        assert_eq!(program_text(&page, 0), Some(identity(length)));
        assert_eq!(evaluate(&page, 0, &[ONE / 4]), kept(Answer::Gray(0.25)));
    }
    // A fifth block is stray, whatever it holds.
    for fifth in [&b" "[..], b"", b"{ }"] {
        let mut records = program_run(0, DEVICE_GRAY, &identity(2_016));
        records.push(program(5, fifth));
        assert_eq!(validate(&page(&records)), Err((7, 5)));
    }
    let full = identity(504);
    let mut gap = identity(504);
    gap[100] = 0;
    let mut early = identity(504);
    early[503] = 0;
    for (blocks, expected) in [
        (&[][..], Err((7, 0))),
        (&[&b""[..]], Err((7, 0))),
        (&[b"\0{ }"], Err((7, 0))),
        (&[b"{ }\0 "], Err((7, 0))),
        (&[&gap], Err((7, 0))),
        (&[&early], Ok(2)),
        (&[&early, b" "], Err((7, 0))),
        (&[b"{ }", b"% more"], Err((7, 0))),
        (&[&full, b""], Err((7, 0))),
        (&[&full, b" "], Ok(3)),
        (&[&full, b" ", b""], Err((7, 0))),
        (&[&full, &[b' '; 504], &[b' '; 504], b"%"], Ok(5)),
    ] {
        assert_eq!(
            validate(&page(&with_blocks(blocks))),
            expected,
            "{blocks:?}"
        );
    }
    // A block of another kind ends the run, as the page's end does.
    let mut records = with_blocks(&[b"{ }"]);
    records.push(record(2, Body::Free));
    records.push(program(3, b"{ }"));
    assert_eq!(validate(&page(&records)), Err((7, 3)));
    assert_eq!(validate(&page(&records[..3])), Ok(3));
    // Kind 7 after anything else is stray.
    for other in [
        record(0, Body::Free),
        record(0, cal_gray(ONE)),
        separation(0, DEVICE_GRAY, 1, [0; 4], [0; 4]),
    ] {
        assert_eq!(validate(&page(&[other, program(1, b"{ }")])), Err((7, 1)));
    }
    assert_eq!(validate(&page(&[program(0, b"{ }")])), Err((7, 0)));
}

#[test]
fn refusals_at_the_record_in_order() {
    let refused = |alternate: u16, exponent: u8, text: &[u8], entry: i32| {
        let mut records = program_run(0, alternate, text);
        records[0] = separation(0, alternate, exponent, [0; 4], [0, 0, 0, entry]);
        validate(&records.iter().flat_map(lay).collect::<Vec<u8>>())
    };
    assert_eq!(refused(DEVICE_GRAY, 0, b"{ }", 0), Ok(2));
    assert_eq!(refused(DEVICE_GRAY, 0, b"{ }", 1), Err((7, 0)));
    assert_eq!(refused(DEVICE_GRAY, 0, b"{ dup }", 1), Err((17, 0)));
    assert_eq!(refused(DEVICE_GRAY, 0, b"{ div }", 1), Err((16, 0)));
    assert_eq!(refused(DEVICE_GRAY, 0, b"{ pop pop div }", 0), Err((16, 0)));
    assert_eq!(refused(DEVICE_GRAY, 0, b"{ div \0 }", 1), Err((7, 0)));
    assert_eq!(refused(DEVICE_GRAY, 0, b"", 1), Err((7, 0)));
    assert_eq!(refused(0xff02, 0, b"{ div }", 1), Err((6, 0)));
    assert_eq!(refused(0xff02, 0, b"", 1), Err((6, 0)));
    assert_eq!(refused(0xff02, 5, b"{ div }", 1), Err((5, 0)));
    assert_eq!(refused(DEVICE_GRAY, 1, b"{ div }", 0), Err((7, 1)));
    // Each of the eight numbers counts, within the alternate's count too.
    for k in 0..8 {
        let mut page = over(DEVICE_CMYK, b"{ dup dup dup }");
        assert_eq!(validate(&page), Ok(2));
        page[136 + 4 * k + 3] = 1;
        repair(&mut page, 0);
        assert_eq!(validate(&page), Err((7, 0)));
    }
    // The alternate's count decides what is left.
    for (alternate, text, expected) in [
        (DEVICE_GRAY, &b"{ }"[..], Ok(2)),
        (DEVICE_RGB, b"{ }", Err((17, 0))),
        (DEVICE_RGB, b"{ dup dup }", Ok(2)),
        (DEVICE_CMYK, b"{ dup dup }", Err((17, 0))),
        (DEVICE_CMYK, b"{ dup 2 copy }", Ok(2)),
    ] {
        assert_eq!(validate(&over(alternate, text)), expected);
    }
    // None and All over a program: it is judged.
    for name in [&b"None"[..], b"All"] {
        for (text, expected) in [
            (&b"{ }"[..], Ok(2)),
            (b"{ dup }", Err((17, 0))),
            (b"{ div }", Err((16, 0))),
        ] {
            let mut records = program_run(0, DEVICE_GRAY, text);
            records[0] = named(records[0], name);
            assert_eq!(validate(&page(&records)), expected);
        }
    }
}

#[test]
fn colours_and_recipes_by_hand() {
    let varnish = over(DEVICE_RGB, b"{ dup 0.5 lt { pop 0 } if dup 2 mul 1.5 }");
    for (v, answer) in [
        (0, kept(Answer::Rgb([0.0, 0.0, 1.0]))),
        (250_000, kept(Answer::Rgb([0.0, 0.0, 1.0]))),
        (500_000, kept(Answer::Rgb([0.5, 1.0, 1.0]))),
    ] {
        // 1.5 is pulled in by the alternate's limit.
        let reply = answer.map(|colour| Colour {
            moved: true,
            ..colour
        });
        assert_eq!(evaluate(&varnish, 0, &[v]), reply);
    }
    let words = [
        1, 12, 3, 14, 25, 1, 500_000, 14, 5, 3, 23, 1, 0, 25, 1, 2_000_000, 9, 1, 1_500_000,
    ];
    let found = recipe_of(&varnish, 0).unwrap();
    assert_eq!(found[..3], words[..3]);
    assert_eq!(found[4..19], words[4..]);
    assert_eq!(found[3], 15);
    assert_eq!(found.len(), 1 + 3 + 15 + 13);
    assert_eq!(list(&varnish), "blocks 2\n0 Separation 1 32\n");
    // The tint that is limited counts; what goes to the nearest in the program does not.
    let gray = over(DEVICE_GRAY, b"{ }");
    assert_eq!(recipe_of(&gray, 0).unwrap(), [1, 12, 1, 0, 1, 0, 0, ONE, 4]);
    assert_eq!(evaluate(&gray, 0, &[ONE]), kept(Answer::Gray(1.0)));
    assert_eq!(evaluate(&gray, 0, &[ONE + 1]), moved(Answer::Gray(1.0)));
    assert_eq!(evaluate(&gray, 0, &[-1]), moved(Answer::Gray(0.0)));
    let saturated = over(DEVICE_GRAY, b"{ 2147 add 2147 add 2147.483647 sub }");
    assert_eq!(evaluate(&saturated, 0, &[ONE]), kept(Answer::Gray(0.0)));
    for count in [0, 2] {
        assert_eq!(evaluate(&gray, 0, &vec![0; count]), Err((9, 0)));
    }
    assert_eq!(evaluate(&gray, 1, &[0]), Err((8, 0)));
    assert_eq!(recipe_of(&gray, 1), Err((8, 0)));
    // None and All: the program is never run.
    let mut records = program_run(0, DEVICE_GRAY, b"{ pop 0 }");
    records[0] = named(records[0], b"None");
    assert_eq!(
        evaluate(&page(&records), 0, &[9 * ONE]),
        kept(Answer::NoMark)
    );
    assert_eq!(recipe_of(&page(&records), 0).unwrap(), [1, 10]);
    records[0] = named(records[0], b"All");
    let every = moved(Answer::EveryInk(1.0));
    assert_eq!(evaluate(&page(&records), 0, &[9 * ONE]), every);
    assert_eq!(
        recipe_of(&page(&records), 0).unwrap(),
        [1, 1, 0, 0, ONE, 11]
    );
    // An Indexed over a program.
    let mut records = vec![
        record(0, Body::Indexed { base: 2, hival: 1 }),
        palette(1, &[0, 51]),
    ];
    records.extend(program_run(2, DEVICE_GRAY, b"{ 1 exch sub }"));
    let nested = page(&records);
    assert_eq!(evaluate(&nested, 0, &[ONE]), kept(Answer::Gray(0.8)));
    assert_eq!(
        recipe_of(&nested, 0).unwrap(),
        [1, 2, 1, 1, 0, 200_000, 12, 1, 4, 1, ONE, 24, 8, 1, 0, 0, ONE, 4]
    );
}

/// Demand 3 on random pages with programs, and what is known of every one of them.
#[test]
fn a_recipe_run_equals_the_colour_on_the_page() {
    let mut rng = Rng::new(72);
    let (mut programs, mut marks, mut found) = (0, 0, [0; 2]);
    for _ in 0..PAGES {
        let page = random_program_page(&mut rng);
        assert_eq!(validate(&page), Ok(page.len() / BLOCK));
        for (number, _) in spaces(&page) {
            let body = block_at(&page, number as usize).and_then(Body::of);
            let Some(Body::Separation {
                alternate,
                exponent: 0,
                ..
            }) = body
            else {
                continue;
            };
            programs += 1;
            let words = recipe_of(&page, number).unwrap();
            assert!(words.len() <= MOST_WORDS);
            let mut lent = vec![7; words.len()];
            assert_eq!(write(&page, number, &mut lent), Ok(words.len()));
            assert_eq!(lent, words);
            for _ in 0..6 {
                let v = random_component(&mut rng);
                let reply = evaluate(&page, number, &[v]);
                assert_eq!(run(&words, &[v]), reply);
                let reply = reply.unwrap();
                let inner = match name_at(&page, number) {
                    Some(b"None") => kept(Answer::NoMark),
                    Some(b"All") => {
                        let answer = Answer::EveryInk(float_of(limit(v, 0, ONE)));
                        kept(answer).map(|all| Colour {
                            moved: !(0..=ONE).contains(&v),
                            ..all
                        })
                    }
                    _ => {
                        let program = program_at(&page, number).unwrap();
                        let left = results(&program, &[limit(v, 0, ONE)]).unwrap();
                        let alternate = u32::from(alternate);
                        assert_eq!(components(&page, alternate), Some(left.len()));
                        let inner = evaluate(&page, alternate, &left).unwrap();
                        let moved = inner.moved || !(0..=ONE).contains(&v);
                        Ok(Colour { moved, ..inner })
                    }
                };
                marks += usize::from(matches!(reply.answer, Answer::NoMark));
                assert_eq!(Ok(reply), inner);
                found[usize::from(reply.moved)] += 1;
            }
        }
    }
    assert!(programs > PAGES && marks > PAGES / 2, "{programs} {marks}");
    assert!(found.iter().all(|count| *count > PAGES), "{found:?}");
}

#[test]
fn every_damage_of_pages_is_met() {
    let mut rng = Rng::new(73);
    for way in 0..PROGRAM_PAGE_WAYS {
        let mut refusals = BTreeSet::new();
        let mut name = "";
        let rounds = 30;
        for _ in 0..rounds {
            let mut page = random_program_page_of(&mut rng, 12);
            while !spaces(&page).any(|(number, _)| program_at(&page, number).is_some()) {
                page = random_program_page_of(&mut rng, 12);
            }
            name = damage_program_page_by(&mut rng, &mut page, way);
            refusals.extend(validate(&page).err().map(|(number, _)| number));
        }
        let expected: &[u32] = match name {
            "exponent 1 to 5 over a program" => &[5, 7],
            "a byte of a text" => &[16],
            "a refused program" | "a refused program, C0 or C1" => &[16, 17],
            "a damaged text" => &[16],
            "another alternate" | "another alternate and no program" => &[6],
            "two blocks of a text exchanged" => &[],
            _ => &[7],
        };
        assert!(
            expected.iter().all(|number| refusals.contains(number)),
            "{name}: {refusals:?}"
        );
        // Nothing is missed on pages that have no room for the damage.
        let mut empty = Vec::new();
        damage_program_page_by(&mut rng, &mut empty, way);
    }
}
