//! Document 02, "DeviceN for two-ink maps": each reading, on pages made by hand and on random ones.

mod common;

use common::{kept, moved};
use reference::block::{
    read_block, write_block, Body, Record, BLOCK, DEVICE_CMYK, DEVICE_GRAY, DEVICE_RGB,
};
use reference::cie::Answer;
use reference::colour::{evaluate, Colour};
use reference::generate::device_n::{
    damage_device_n_by, random_device_n_page_of, random_lone_device_n, DEVICE_N_WAYS,
};
use reference::generate::{random_components, repair, Rng};
use reference::listing::list;
use reference::numbers::{limit, ONE};
use reference::page::{components, leaves_no_mark, program_at, spaces, validate, Family};
use reference::program::results;
use reference::recipe::{recipe_of, write, MOST_WORDS};
use reference::records::{
    cal_gray, changed, device_n, device_n_run, free, indexed_run, lab, page, palette, program,
    separation, USUAL,
};
use reference::runner::run;
use std::collections::BTreeSet;

const MAP: [&[u8]; 2] = [b"Blue", b"Buff"];
const HALF: i32 = ONE / 2;

/// How many random pages are looked at: fewer where the tests are not built for speed.
const PAGES: usize = if cfg!(debug_assertions) { 60 } else { 600 };

/// What writing replies, and reading of the block that it would be.
fn both(record: &Record) -> [Option<u32>; 2] {
    let mut lent = [0x5a; BLOCK];
    let written = write_block(record, &mut lent);
    assert!(written.is_ok() || lent == [0x5a; BLOCK]);
    let read = read_block(&reference::block::lay(record));
    if written.is_ok() {
        assert_eq!(read, Ok(*record));
        assert_eq!(read_block(&lent), Ok(*record));
    }
    [written.err(), read.err()]
}

#[test]
fn names_are_packed_from_byte_8() {
    let record = device_n(3, DEVICE_CMYK, &MAP);
    let mut block = [0; BLOCK];
    write_block(&record, &mut block).unwrap();
    assert_eq!(block[..8], [8, 0, 0, 3, 0xff, 4, 2, 0]);
    assert_eq!(block[8..19], *b"\x04Blue\x04Buff\0");
    assert!(block[18..508].iter().all(|byte| *byte == 0));
    assert_eq!(read_block(&block), Ok(record));
}

#[test]
fn a_count_or_a_length_that_is_bad_is_3() {
    for count in 0..=255 {
        let mut record = device_n(0, DEVICE_GRAY, &MAP);
        record.body = Body::DeviceN {
            alternate: DEVICE_GRAY,
            count,
        };
        let refusal = if count == 2 { None } else { Some(3) };
        assert_eq!(both(&record), [refusal; 2], "count {count}");
    }
    for length in 0..=60 {
        let name = vec![b'a'; length];
        let refusal = if (1..=48).contains(&length) {
            None
        } else {
            Some(3)
        };
        for names in [[&name[..], b"Buff"], [b"Buff", &name]] {
            assert_eq!(both(&device_n(0, DEVICE_GRAY, &names)), [refusal; 2]);
        }
    }
    let eight: Vec<Vec<u8>> = (1..=8).map(|byte| vec![byte; 48]).collect();
    let eight: Vec<&[u8]> = eight.iter().map(Vec::as_slice).collect();
    let full = device_n(0, DEVICE_GRAY, &eight);
    assert_eq!(both(&full), [None; 2]);
    for place in 0..500 {
        let mut other = full;
        other.bytes[place] = if place < 392 { 0 } else { 1 };
        assert_eq!(both(&other), [Some(3); 2], "place {place}");
    }
    for place in 500..504 {
        let mut other = full;
        other.bytes[place] = 1;
        assert_eq!(write_block(&other, &mut [0; BLOCK]), Err(3));
    }
    let mut block = reference::block::lay(&full);
    block[7] = 1;
    repair(&mut block, 0);
    assert_eq!(read_block(&block), Err(3));
}

#[test]
fn equal_names_and_all_are_4() {
    for (names, refusal) in [
        (&[&b"Blue"[..], b"Blue"][..], Some(4)),
        (&[b"Blue", b"Buff", b"Blue"], Some(4)),
        (&[b"None", b"None"], None),
        (&[b"None", b"Blue", b"None", b"None"], None),
        (&[b"None", b"Blue", b"None", b"Blue"], Some(4)),
        (&[b"none", b"none"], Some(4)),
        (&[b"none", b"None"], None),
        (&[b"All"], Some(4)),
        (&[b"None", b"All"], Some(4)),
        (&[b"All ", b"all", b"ALL", b"Al"], None),
        (&[b"Blue", b"blue", b"Blue ", b"Blu"], None),
    ] {
        assert_eq!(both(&device_n(0, DEVICE_GRAY, names)), [refusal; 2]);
        // 3 before 4, 4 before 6.
        assert_eq!(both(&device_n(128, DEVICE_GRAY, names)), [Some(3); 2]);
        let six = refusal.or(Some(6));
        assert_eq!(both(&device_n(0, 128, names)), [six; 2]);
        let pops = format!("{{ {}0.5 }}", "pop ".repeat(names.len()));
        let page = page(&device_n_run(0, DEVICE_GRAY, names, pops.as_bytes()));
        let expected = refusal.map_or(Ok(2), |number| Err((number, 0)));
        assert_eq!(validate(&page), expected);
    }
}

#[test]
fn an_alternate_is_a_device_space_or_cie_based() {
    let records = |alternate, text: &[u8]| {
        let mut records = device_n_run(0, alternate, &MAP, text);
        records.extend([
            cal_gray(2, ONE),
            lab(3, USUAL),
            separation(4, DEVICE_GRAY, 1, [0; 4], [0; 4]),
        ]);
        records.extend(indexed_run(5, DEVICE_GRAY, 0, &[1]));
        records.extend(device_n_run(7, DEVICE_GRAY, &MAP, b"{ add }"));
        records.push(free(9));
        page(&records)
    };
    for (alternate, text) in [
        (DEVICE_GRAY, &b"{ add }"[..]),
        (DEVICE_RGB, b"{ dup }"),
        (DEVICE_CMYK, b"{ 2 copy }"),
        (2, b"{ add }"),
        (3, b"{ dup }"),
    ] {
        assert_eq!(validate(&records(alternate, text)), Ok(10), "{alternate}");
    }
    for alternate in [0, 1, 4, 5, 6, 7, 8, 9, 10, 127, 0xff02, 0xffff] {
        let page = records(alternate, b"{ add }");
        assert_eq!(validate(&page), Err((6, 0)), "{alternate}");
    }
}

#[test]
fn the_program_takes_all_tints_the_first_deepest() {
    let of = |count: usize, text: &str| {
        let names: Vec<Vec<u8>> = (0..count).map(|k| vec![b'A' + k as u8]).collect();
        let names: Vec<&[u8]> = names.iter().map(Vec::as_slice).collect();
        page(&device_n_run(0, DEVICE_GRAY, &names, text.as_bytes()))
    };
    for count in 1..=8usize {
        let tints: Vec<i32> = (1..=count as i32).map(|k| 100_000 * k).collect();
        for k in 0..count {
            // Take off what stands above tint k, then what stands below it.
            let above = "pop ".repeat(count - 1 - k);
            let below = "exch pop ".repeat(k);
            let page = of(count, &format!("{{ {above}{below}}}"));
            let float = f64::from(tints[k]) / 1_000_000.0;
            assert_eq!(evaluate(&page, 0, &tints), kept(Answer::Gray(float)));
        }
        let sum = of(count, &format!("{{ {}}}", "add ".repeat(count - 1)));
        for wrong in (0..=9).filter(|wrong| *wrong != count) {
            assert_eq!(evaluate(&sum, 0, &vec![0; wrong]), Err((9, 0)));
        }
        // Each tint is limited first, and says so; the sum of all is limited by the alternate.
        for k in 0..count {
            let mut colour = vec![0; count];
            colour[k] = -1;
            assert_eq!(evaluate(&sum, 0, &colour), moved(Answer::Gray(0.0)));
            colour[k] = ONE;
            assert_eq!(evaluate(&sum, 0, &colour), kept(Answer::Gray(1.0)));
            colour[k] = ONE + 1;
            assert_eq!(evaluate(&sum, 0, &colour), moved(Answer::Gray(1.0)));
        }
        for other in [count - 1, count + 1]
            .into_iter()
            .filter(|other| *other > 0)
        {
            let short = of(count, &format!("{{ {}}}", "add ".repeat(other - 1)));
            assert_eq!(validate(&short), Err((17, 0)), "{count} {other}");
        }
    }
}

#[test]
fn the_run_and_the_order_of_refusals() {
    let map = device_n(0, DEVICE_GRAY, &MAP);
    let equal = device_n(0, DEVICE_GRAY, &[b"Blue", b"Blue"]);
    let full = [&b"{ add }"[..], &[b' '; 497]].concat();
    for (records, expected) in [
        (vec![map], Err((7, 0))),
        (vec![map, palette(1, b"{ add }")], Err((7, 0))),
        (vec![map, free(1), program(2, b"{ add }")], Err((7, 0))),
        (vec![map, program(1, b"\0")], Err((7, 0))),
        (vec![map, program(1, b"{ div }\0x")], Err((7, 0))),
        (vec![map, program(1, &full), program(2, b"")], Err((7, 0))),
        (vec![map, program(1, &full), program(2, b" ")], Ok(3)),
        (vec![map, program(1, b"{ pop pop pop div }")], Err((16, 0))),
        (vec![map, program(1, b"{ }")], Err((17, 0))),
        (vec![equal], Err((4, 0))),
        (vec![equal, program(1, b"{ div }")], Err((4, 0))),
        (vec![device_n(0, 9, &MAP)], Err((6, 0))),
        (vec![free(0), program(1, b"{ add }")], Err((7, 1))),
    ] {
        assert_eq!(validate(&page(&records)), expected);
    }
    let long = [&b"{ add }"[..], &[b' '; 5 * 504 - 7]].concat();
    let five = device_n_run(0, DEVICE_GRAY, &MAP, &long);
    assert_eq!(validate(&page(&five)), Err((7, 5)));
    assert_eq!(validate(&page(&five[..5])), Ok(5));
    // A DeviceN made a Separation in the way of its bytes is no DeviceN.
    let page = changed(page(&[map, program(1, b"{ add }")]), 0, |b| b[0] = 5);
    assert_eq!(validate(&page), Err((3, 0)));
}

#[test]
fn all_none_is_no_mark() {
    for count in [1, 2, 8] {
        let names: Vec<&[u8]> = vec![b"None"; count];
        let text = format!("{{ {}0.5 }}", "pop ".repeat(count));
        let mut records = device_n_run(0, DEVICE_GRAY, &names, text.as_bytes());
        records.extend(indexed_run(2, 0, 3, &vec![7; 4 * count]));
        let page = page(&records);
        let words = 3 + 4 * count + 2;
        let listing = format!("blocks 4\n0 DeviceN {count} 2\n2 Indexed 1 {words}\n");
        assert_eq!(list(&page), listing);
        assert_eq!(recipe_of(&page, 0), Ok(vec![count as i32, 10]));
        for v in [0, -1, 2 * ONE, i32::MIN] {
            assert_eq!(evaluate(&page, 0, &vec![v; count]), kept(Answer::NoMark));
        }
        assert_eq!(evaluate(&page, 0, &vec![0; count + 1]), Err((9, 0)));
        assert_eq!(evaluate(&page, 2, &[3_400_000]), kept(Answer::NoMark));
        assert_eq!(evaluate(&page, 2, &[3_500_000]), moved(Answer::NoMark));
        // The program is judged all the same.
        let bad = changed(page, 1, |block| block[4] = b'x');
        assert_eq!(validate(&bad), Err((16, 0)));
    }
    // Some names None: their tints are limited and taken like any other.
    let some = page(&device_n_run(
        0,
        DEVICE_GRAY,
        &[b"None", b"Buff"],
        b"{ add }",
    ));
    assert!(!leaves_no_mark(&some, 0));
    assert_eq!(evaluate(&some, 0, &[2 * ONE, 0]), moved(Answer::Gray(1.0)));
}

#[test]
fn step_13_limits_copies() {
    let colour = [100_000, 2 * ONE, -3 * ONE, 4 * ONE, 5, 6, 7, 9 * ONE];
    let pops = [23; 7];
    let words = [&[8, 13, 8, 1, 7][..], &pops, &[6]].concat();
    assert_eq!(
        run(&words, &colour),
        moved(Answer::Cmyk([0.1, 2.0, -3.0, 4.0]))
    );
    // What it does not take moves nothing.
    let words = [8, 13, 1, 1, 0, 6];
    assert_eq!(
        run(&words, &colour),
        kept(Answer::Cmyk([0.1, 2.0, -3.0, 4.0]))
    );
    // It may take more than the input count: the others are 0.
    let words = [1, 13, 3, 1, 2, 7, 7, 6];
    assert_eq!(
        run(&words, &[HALF]),
        kept(Answer::Cmyk([0.5, 0.0, 0.0, 0.0]))
    );
    for (taken, left, ok) in [
        (0, 1, false),
        (1, 1, true),
        (4, 4, true),
        (5, 5, false),
        (8, 8, false),
        (9, 1, false),
        (1, 0, false),
        (-1, 1, false),
    ] {
        let words = [1, 13, taken, left, 0, 4];
        assert_eq!(run(&words, &[0]).is_ok(), ok, "{taken} {left}");
    }
    assert_eq!(run(&[2, 13, 2, 1, 1, 7, 4], &[0]), Err((9, 0)));
    assert_eq!(run(&[2, 13, 2, 1, 0, 4], &[0]), Err((11, 0)));
}

#[test]
fn a_palette_over_eight_fills_five_blocks() {
    let names: Vec<&[u8]> = b"ABCDEFGH".chunks(1).collect();
    let text = b"{ pop pop pop pop pop pop pop }";
    let made = |hival: u16, blocks: usize| {
        let mut records = device_n_run(0, DEVICE_GRAY, &names, text);
        let bytes: Vec<u8> = (0..8 * (usize::from(hival) + 1)).map(|k| k as u8).collect();
        records.extend(
            indexed_run(2, 0, hival, &bytes)
                .into_iter()
                .take(1 + blocks),
        );
        page(&records)
    };
    assert_eq!(validate(&made(255, 5)), Ok(8));
    assert_eq!(validate(&made(255, 4)), Err((7, 2)));
    assert_eq!(validate(&made(251, 4)), Ok(7));
    assert_eq!(validate(&made(252, 4)), Err((7, 2)));
    let page = made(255, 5);
    let words = recipe_of(&page, 2).unwrap();
    assert_eq!(words.len(), 1 + 3 + 2048 + 4 + 7 + 5);
    for row in 0..256 {
        // Row r begins with byte 8 r, of which the first tint is all that is left.
        let byte = f64::from(8 * row % 256);
        let reply = evaluate(&page, 2, &[row * ONE]).unwrap();
        assert_eq!(run(&words, &[row * ONE]), Ok(reply));
        let Answer::Gray(v) = reply.answer else {
            panic!("{reply:?}")
        };
        assert!((v - byte / 255.0).abs() < 1e-6);
    }
}

#[test]
fn random_device_ns_answer_as_their_program_and_by_their_recipe() {
    let mut rng = Rng::new(81);
    let (mut spaces_seen, mut marks, mut palettes) = (0, 0, 0);
    let mut found = [0; 2];
    for _ in 0..PAGES {
        let blocks = 2 + rng.below(20);
        let page = random_device_n_page_of(&mut rng, blocks);
        assert_eq!(validate(&page), Ok(blocks));
        for (number, family) in spaces(&page) {
            let words = recipe_of(&page, number).unwrap();
            assert!(words.len() <= MOST_WORDS);
            let mut lent = vec![7; words.len()];
            assert_eq!(write(&page, number, &mut lent), Ok(words.len()));
            assert_eq!(lent, words);
            let count = components(&page, number).unwrap();
            assert_eq!(words[0], count as i32);
            palettes += usize::from(family == Family::Indexed && words[2] > 4);
            for round in 0..4 {
                let mut colour = random_components(&mut rng, count);
                if round % 2 == 1 {
                    colour.fill_with(|| rng.between(0, ONE));
                }
                let reply = evaluate(&page, number, &colour);
                assert_eq!(run(&words, &colour), reply);
                let body = reference::page::block_at(&page, number as usize).and_then(Body::of);
                let Some(Body::DeviceN { alternate, .. }) = body else {
                    continue;
                };
                spaces_seen += 1;
                let reply = reply.unwrap();
                if leaves_no_mark(&page, number) {
                    marks += 1;
                    assert_eq!(Ok(reply), kept(Answer::NoMark));
                    continue;
                }
                let tints: Vec<i32> = colour.iter().map(|v| limit(*v, 0, ONE)).collect();
                let left = results(&program_at(&page, number).unwrap(), &tints).unwrap();
                let inner = evaluate(&page, u32::from(alternate), &left).unwrap();
                let moved = inner.moved || tints != colour;
                assert_eq!(reply, Colour { moved, ..inner });
                found[usize::from(moved)] += 1;
            }
        }
    }
    assert!(spaces_seen > 4 * PAGES && marks > PAGES / 4 && palettes > PAGES / 20);
    assert!(found.iter().all(|count| *count > PAGES / 2), "{found:?}");
}

#[test]
fn every_damage_of_device_n_is_met() {
    let mut rng = Rng::new(82);
    for way in 0..DEVICE_N_WAYS {
        let mut refusals = BTreeSet::new();
        let mut name = "";
        for _ in 0..60 {
            let mut page = random_device_n_page_of(&mut rng, 12);
            while !page.chunks(BLOCK).any(|block| block[0] == 8) {
                page = random_device_n_page_of(&mut rng, 12);
            }
            name = damage_device_n_by(&mut rng, &mut page, way);
            refusals.insert(validate(&page).err().map_or(0, |(number, _)| number));
        }
        let expected: &[u32] = match name {
            "two equal names" | "All among the names" => &[4],
            "None for a name" | "None for every name" => &[0],
            "names nearly equal" => &[0],
            "one name more or less" => &[3, 17],
            "an alternate of the wrong kind" => &[6],
            "an alternate of another count" => &[0, 17],
            "a program of other tints" => &[17],
            "a Separation in its place" => &[17],
            "equal names and a bad alternate" => &[4],
            _ => &[3],
        };
        assert!(
            expected.iter().all(|number| refusals.contains(number)),
            "{name}: {refusals:?}"
        );
        // Nothing is missed on pages that have none.
        damage_device_n_by(&mut rng, &mut Vec::new(), way);
    }
    for _ in 0..2_000 {
        let record = random_lone_device_n(&mut rng, 127);
        assert_eq!(both(&record), [None; 2]);
    }
}
