//! The cases are well-formed, say what the paper says, and reach every refusal.

mod calculators;
mod devices;

use super::format::{answer_text, bytes_of, decimal, numbers_of, reply_text};
use super::interpreter::{record_of, words_of};
use super::*;
use crate::block::{BLOCK, BODY, MOST_BLOCKS};
use crate::cie::Answer;
use crate::colour::Colour;
use crate::text::readings;
use std::collections::{BTreeSet, HashMap, HashSet};

/// The most bytes of a line that the program reads: those of two pages.
const LINE: usize = 2 * MOST_BLOCKS * BLOCK;

fn reply(label: &str) -> String {
    let case = all().into_iter().find(|case| case.label == label);
    case.and_then(|case| case.result()).unwrap()
}

/// The reply of a case of this operation.
fn reply_of(op: u32, label: &str) -> String {
    let mut cases = all().into_iter();
    let case = cases.find(|case| case.op == op && case.label == label);
    case.and_then(|case| case.result()).expect(label)
}

fn ops(cases: &[Case]) -> Vec<u32> {
    let ops: BTreeSet<u32> = cases.iter().map(|case| case.op).collect();
    ops.into_iter().collect()
}

#[test]
fn the_cases_are_well_formed() {
    let cases = all();
    let mut labels = HashSet::new();
    for case in &cases {
        assert!(!case.label.is_empty() && case.label.len() <= 100);
        assert!(!case.label.contains([':', '\n']));
        assert!(labels.insert(case.label.clone()), "{}", case.label);
        assert!(case.result().is_some(), "{}", case.label);
        assert!(case.args.len() <= 23, "{}", case.label);
        assert!(case.input_line().len() < LINE, "{}", case.label);
        assert!(case.output_line().len() < LINE, "{}", case.label);
    }
    assert_eq!(ops(&paper::cases()), [30, 31, 32, 33, 34]);
    assert_eq!(ops(&numbers::cases()), (1..=13).collect::<Vec<_>>());
    assert_eq!(ops(&blocks::cases()), [20, 21]);
    assert_eq!(ops(&forms::cases()), [20, 21]);
    assert_eq!(ops(&pages::cases()), [30, 34]);
    assert_eq!(ops(&colours::cases()), [31, 33]);
    assert_eq!(ops(&recipes::cases()), [31, 32, 33]);
    assert_eq!(ops(&runs::cases()), [33]);
    assert_eq!(ops(&marks::cases()), [30, 31, 32, 33, 34]);
    assert_eq!(ops(&moved::cases()), [31, 33]);
    assert_eq!(ops(&inks::cases()), [35]);
    assert_eq!(ops(&texts::cases()), [36]);
    assert_eq!(ops(&program_texts::cases()), [30, 31, 33, 34]);
    assert_eq!(ops(&programs::cases()), [30, 31, 32, 33, 34]);
    assert_eq!(ops(&program_pages::cases()), [20, 21, 30, 31, 32, 33, 34]);
    assert_eq!(ops(&flat::cases()), [33]);
    assert_eq!(ops(&devicen::cases()), [20, 21, 30, 31, 32, 33, 34]);
    assert_eq!(ops(&taking::cases()), [33]);
    assert_eq!(input_text(&cases).lines().count(), cases.len());
    assert_eq!(output_text(&cases).lines().count(), cases.len());
}

/// A line's case, read as the program reads it.
fn parse(line: &str) -> Case {
    let (label, rest) = line.split_once(": ").unwrap();
    let mut words = rest.split(' ');
    let op = words.next().unwrap().parse().unwrap();
    let (mut args, mut bytes) = (Vec::new(), None);
    for word in words {
        assert_eq!(bytes, None);
        match word.strip_prefix('x') {
            None => args.push(word.parse().unwrap()),
            Some(text) => {
                let mut text = text.chars();
                let mut read = Vec::new();
                while let Some(first) = text.next() {
                    if first == '.' {
                        read.push(0);
                        continue;
                    }
                    let digits = [first, text.next().unwrap()];
                    let [high, low] = digits.map(|digit| digit.to_digit(16).unwrap() as u8);
                    read.push(16 * high + low);
                }
                bytes = Some(read);
            }
        }
    }
    let label = label.to_string();
    Case {
        label,
        op,
        args,
        bytes,
    }
}

#[test]
fn lines_are_read_back() {
    for case in all() {
        assert_eq!(parse(&case.input_line()), case);
    }
    let both = parse("a label: 30 x.0000.ff.0a");
    assert_eq!(both.bytes, Some(vec![0, 0, 0, 0, 255, 0, 10]));
}

#[test]
fn every_refusal_is_reached() {
    let cases = all();
    let replies: Vec<(u32, String)> = cases
        .iter()
        .map(|case| (case.op, case.result().unwrap()))
        .collect();
    let met = |op: u32, number: u32| {
        let text = format!("refused {number}");
        let is = |reply: &str| reply == text || reply.starts_with(&format!("{text} "));
        replies.iter().any(|(of, reply)| *of == op && is(reply))
    };
    for (op, expected) in [
        (20, &[2, 3, 4, 5, 6, 10][..]),
        (21, &[3, 4, 5, 6]),
        (30, &[1, 2, 3, 4, 5, 6, 7, 16, 17]),
        (31, &[1, 2, 6, 7, 8, 9, 16, 17]),
        (32, &[1, 2, 6, 7, 8, 10, 16, 17]),
        (33, &[9, 11]),
        (34, &[1, 2, 4, 7, 16, 17]),
        (35, &[1, 3, 8]),
        (36, &[4, 5, 6, 7, 10, 12, 13, 14, 15]),
    ] {
        let found: Vec<u32> = (1..=17).filter(|number| met(op, *number)).collect();
        assert_eq!(found, expected, "operation {op}");
    }
    // A refusal of writing keeps every byte and word.
    for (op, reply) in &replies {
        if *op == 21 && reply.starts_with("refused") {
            assert!(reply.ends_with(" kept"), "{reply}");
        }
        if *op == 32 || *op == 36 {
            assert!(reply.contains(" kept"), "{reply}");
        }
    }
}

#[test]
fn texts_reply_as_was_worked_by_hand() {
    let cases = texts::cases();
    let table = readings::table();
    assert_eq!(cases.len(), texts::CUTS.len() * table.len());
    for (line, cases) in table.iter().zip(cases.chunks(texts::CUTS.len())) {
        let expected = match &line.reply {
            Ok(page) => format!("page {} x{} kept", page.len() / 512, dotted(page)),
            Err((number, at)) => format!("refused {number} at {at} kept"),
        };
        for case in cases {
            assert_eq!(case.bytes.as_ref(), Some(&line.text), "{}", case.label);
            assert_eq!(case.args[0], line.room as i32, "{}", case.label);
            assert_eq!(case.result().as_ref(), Some(&expected), "{}", case.label);
        }
    }
}

#[test]
fn a_recipe_replies_what_its_page_replies() {
    let cases = all();
    let mut compared = 0;
    let on_pages: HashMap<&str, &Case> = cases
        .iter()
        .filter(|case| case.op == 31)
        .map(|case| (case.label.as_str(), case))
        .collect();
    for case in cases.iter().filter(|case| case.op == 33) {
        if let Some(label) = case.label.strip_suffix(", by its recipe") {
            assert_eq!(case.result(), on_pages[label].result(), "{label}");
            compared += 1;
        }
    }
    assert!(compared > 100, "{compared}");
}

#[test]
fn group_replies_worked_by_hand() {
    let white = answer_text(&Answer::Xyz([0.9505, 1.0, 1.089]));
    let zeros = answer_text(&Answer::Xyz([0.0; 3]));
    let zeros_moved = format!("{zeros} moved");
    for (op, label, expected) in [
        (20, "an all-zero block 0", "0 0"),
        (20, "free block 5 has check 5 and 2525, read", "5 0"),
        (
            20,
            "CalGray block 0, white 0.9505 1 1.089, black 0, gamma 1, read",
            "0 1 950500 1000000 1089000 0 0 0 1000000",
        ),
        (
            20,
            "CalGray gamma 4 is fine, read",
            "0 1 950500 1000000 1089000 0 0 0 4000000",
        ),
        (
            20,
            "CalGray gamma 1.8 is fine, read",
            "0 1 950500 1000000 1089000 0 0 0 1800000",
        ),
        (20, "CalGray gamma 1.85 gives 5, read", "refused 5"),
        (21, "CalGray gamma 1.85 gives 5, written", "refused 5 kept"),
        (21, "CalGray gamma -0.1, written", "refused 4 kept"),
        (21, "CalRGB gammas -0.1, written", "refused 5 kept"),
        (21, "CalGray gamma 0 gives 4, written", "refused 4 kept"),
        (21, "CalRGB gamma 0 gives 5, written", "refused 5 kept"),
        (21, "hival 256 gives 4, written", "refused 4 kept"),
        (20, "free block 127, read", "127 0"),
        (20, "free block 128, read", "refused 3"),
        (21, "free block 128, written", "refused 3 kept"),
        (20, "Indexed base 64, read", "1 4 64 9"),
        (20, "Indexed base 127, read", "1 4 127 9"),
        (20, "Indexed base 128, read", "refused 6"),
        (21, "Indexed base 128, written", "refused 6 kept"),
        (
            20,
            "FFFF stored where the sum's check 0 is due",
            "refused 2",
        ),
        (30, "129 blocks give 1", "refused 1 block 0"),
        (30, "128 blocks are judged", "accepted"),
        (30, "128 blocks and a byte", "refused 1 block 0"),
        (30, "65 blocks are judged", "accepted"),
        (
            30,
            "a fault for 7 in block 1 and one for 2 in block 3",
            "refused 2 block 3",
        ),
        (
            30,
            "a fault for 7 in block 1 and one for 4 in block 3",
            "refused 7 block 1",
        ),
        (
            30,
            "a fault for 3 in block 1 and one for 2 in block 3",
            "refused 3 block 1",
        ),
        (
            30,
            "a short run is the Indexed block's fault",
            "refused 7 block 2",
        ),
        (
            30,
            "a spare byte is the Indexed block's fault",
            "refused 7 block 2",
        ),
        (30, "a palette block after a full run", "refused 7 block 2"),
        (
            30,
            "a reference to a block that is faulty",
            "refused 5 block 1",
        ),
        (30, "a reference from block 0 to block 127", "accepted"),
        (
            30,
            "a reference from block 0 to block 128 of 128",
            "refused 6 block 0",
        ),
        (
            34,
            "the CalGray page of the paper, listed",
            "blocks 1; 0 CalGray 1 9",
        ),
        (
            34,
            "the CalGray page with a wrong check, listed",
            "refused 2 block 0",
        ),
        (
            34,
            "hival 255 over CMYK, 1024 palette bytes, three blocks, listed",
            "blocks 4; 0 Indexed 1 1045",
        ),
        (
            31,
            "CalGray, its colour 1 gives the white point's floats",
            &white,
        ),
        (31, "CalGray, -3 gives zeros", &zeros_moved),
        (30, "Gamma 1.8 is fine", "accepted"),
        (30, "Gamma 1.85 gives 5", "refused 5 block 0"),
        (31, "CalGray 1 with gamma 1.8", &white),
        (31, "CalGray -3 with gamma 2.2", &zeros_moved),
        (31, "CalGray 0.000049 with gamma 0.1", &zeros),
        (33, "CalGray closing, gamma 1.8, past 1", &white),
        (33, "CalGray closing, gamma 1.8, past 0", &zeros),
        (
            33,
            "ill-formed, CalGray closing with gamma 1.85",
            "refused 11 block 0",
        ),
        (
            32,
            "recipe of CalGray 9, gamma 2.2, just enough",
            "words 9 kept 1 1 0 0 1000000 7 950500 1089000 2200000",
        ),
        (
            33,
            "Lab (100,0,0), the white point's floats, by its recipe",
            &white,
        ),
        (33, "Lab (0,0,0), zeros, by its recipe", &zeros),
        (
            31,
            "tint 0.375 of -1 to 3, the result is limited, not C0 and C1",
            "Gray 3fe0000000000000",
        ),
        (31, "5 components for DeviceCMYK", "refused 9 block 0"),
        (31, "the page's refusal before 8", "refused 2 block 4"),
        (
            32,
            "recipe of Gray 6, a word short",
            "refused 10 block 0 kept",
        ),
        (
            32,
            "recipe of Gray 6, a word more",
            "words 6 kept 1 1 0 0 1000000 4",
        ),
        (33, "no step at all is well-formed", "Gray c01c000000000000"),
        (31, "Separation None, tint the least number", "NoMark"),
        (31, "Separation All, tint 0.25", "EveryInk 3fd0000000000000"),
        (
            31,
            "Separation All, tint 2",
            "EveryInk 3ff0000000000000 moved",
        ),
        (
            31,
            "Separation All, tint -0.000001",
            "EveryInk 0000000000000000 moved",
        ),
        (
            31,
            "Separation none, tint 1",
            "CMYK 0000000000000000 3fe0000000000000 3ff0000000000000 3fd0000000000000",
        ),
        (
            31,
            "Indexed over Separation None, index 3.5",
            "NoMark moved",
        ),
        (31, "Indexed over Separation None, index 3", "NoMark"),
        (
            31,
            "Indexed over Separation All, index 1",
            "EveryInk 3fc999999999999a",
        ),
        (31, "2 components for None", "refused 9 block 0"),
        (30, "None with an alternate FF02", "refused 6 block 0"),
        (
            30,
            "All with a second C0 entry over Gray",
            "refused 7 block 0",
        ),
        (30, "None with no fault", "accepted"),
        (
            32,
            "recipe of Separation None, 2 words, a word more",
            "words 2 kept 1 10",
        ),
        (
            32,
            "recipe of Separation All, 6 words, just enough",
            "words 6 kept 1 1 0 0 1000000 11",
        ),
        (
            32,
            "recipe of Indexed over Separation None, 9 words, just enough",
            "words 9 kept 1 2 1 3 0 200000 709804 1000000 10",
        ),
        (
            32,
            "recipe of Separation None, 2 words, a word short",
            "refused 10 block 0 kept",
        ),
        (
            34,
            "Separations None, All, none, Non, Nones, ALL and an Indexed over each, listed",
            "blocks 18; 0 Separation 1 2; 1 Separation 1 6; 2 Separation 1 29; 3 Separation 1 29; \
             4 Separation 1 29; 5 Separation 1 29; 6 Indexed 1 8; 8 Indexed 1 12; 10 Indexed 1 35; \
             12 Indexed 1 35; 14 Indexed 1 35; 16 Indexed 1 35",
        ),
        (33, "3 components, no step, then 10", "NoMark"),
        (
            33,
            "4 components, no step, then 11",
            "EveryInk c01c000000000000",
        ),
        (
            33,
            "ill-formed, 10 with a word after it",
            "refused 11 block 0",
        ),
        (
            33,
            "a run of 2878 words, the most being 2877",
            "refused 11 block 0",
        ),
        (
            33,
            "a run of 2877 words, the most being 2877",
            "Gray 3ed4f8b588e368f1",
        ),
        (
            35,
            "an ink on both pages is the job's",
            "found job block 1 byte 520 x476f6c64",
        ),
        (
            35,
            "a palette like an ink is passed over",
            "found house block 0 byte 8 x476f6c64",
        ),
        (
            35,
            "no ink, the house page broken",
            "refused 3 house block 3",
        ),
        (35, "an ink on neither page", "refused 8 neither block 0"),
    ] {
        assert_eq!(reply_of(op, label), expected, "{label}");
    }
    // The check of the paper's CalGray block: 1066 and 3030.
    let gray = "CalGray block 0, white 0.9505 1 1.089, black 0, gamma 1, written";
    assert!(reply_of(21, gray).ends_with(".042a0bd6"));
    assert!(reply_of(21, "free block 5 has check 5 and 2525, written").ends_with("...0509dd"));
    let byte = "byte B5 over 0..1 gives 709804, on a page";
    assert_eq!(reply_of(31, byte), answer_text(&Answer::Gray(0.709804)));
    let room = "hival 255 over CMYK, 1045 words into 1046";
    assert!(reply_of(32, room).starts_with("words 1045 kept 1 2 4 255 0 "));
}

/// Whether something was moved, worked by hand: the label of a case of operation 31, and of its recipe's run, or of a run.
#[test]
fn what_moves_by_hand() {
    for (label, moved) in [
        ("DeviceGray at its low ends", false),
        ("DeviceGray at its high ends", false),
        (
            "DeviceGray at its low ends but component 0, -0.000001",
            true,
        ),
        (
            "DeviceGray at its high ends but component 0, 1.000001",
            true,
        ),
        (
            "DeviceCMYK at its high ends but component 3, 1.000001",
            true,
        ),
        (
            "CalRGB 1.8 at its low ends but component 2, -0.000001",
            true,
        ),
        ("Lab at its low ends", false),
        ("Lab at its high ends", false),
        ("Lab at its low ends but component 1, -7.000001", true),
        ("Lab at its high ends but component 2, 0.000007", true),
        ("Lab ranges of one, on it", false),
        ("Lab ranges of one, b* below", true),
        ("Lab ranges of all numbers, at the ends", false),
        ("hival 3, limiting index 3.4", false),
        ("hival 3, limiting index 3.499999", false),
        ("hival 3, limiting index 3.5", true),
        ("hival 3, limiting index -0.5", false),
        ("hival 3, limiting index -0.500001", true),
        ("hival 0, limiting index 0.499999", false),
        ("hival 0, limiting index 0.5", true),
        ("limiting tint 0 of 0.25 to 0.75", false),
        ("limiting tint 1 of 0.25 to 0.75", false),
        ("limiting tint 1.000001 of 0.25 to 0.75", true),
        ("limiting tint 0 of -1 to 3", true),
        ("limiting tint 0.25 of -1 to 3", false),
        ("limiting tint 0.5 of -1 to 3", false),
        ("limiting tint 0.500001 of -1 to 3", true),
        ("the last of CMYK to 1.000004, tint 0.353552", false),
        ("the last of CMYK to 1.000004, tint 0.353553", true),
        ("a tint over Lab of -100..100, tint 1", false),
        ("a tint over Lab of 0..50 and -100..0, tint 0.5", false),
        ("a tint over Lab of 0..50 and -100..0, tint 0.500001", true),
        ("Indexed over tints of 0.4 then 2, index 0", false),
        ("Indexed over tints of 0.4 then 2, index -1", true),
        ("Indexed over tints of 0.4 then 2, index 1", true),
        ("Indexed over tints of 2 then 0.4, index 1.499999", false),
        ("Indexed over tints of 2 then 0.4, index 1.5", true),
        ("limiting an index over Lab, index 3", false),
        ("limiting an index over Lab, index 3.5", true),
        ("limiting None, tint the greatest number", false),
        ("limiting All, tint 1", false),
        ("limiting All, tint 1.000001", true),
        ("limiting an index over None, index 3.4", false),
        ("limiting an index over None, index 3.5", true),
        ("limiting an index over All, index -0.5", false),
        ("limiting an index over All, index -0.500001", true),
    ] {
        let on_page = reply_of(31, label);
        assert_eq!(on_page.ends_with(" moved"), moved, "{label}");
        assert!(!on_page.starts_with("refused"), "{label}");
        let by_recipe = reply_of(33, &format!("{label}, by its recipe"));
        assert_eq!(by_recipe, on_page, "{label}");
    }
    for (label, moved) in [
        ("limiting, no step", false),
        ("limiting, a limit at its high end", false),
        ("limiting, a limit above", true),
        ("limiting, a limit of a value not given, 0 within", false),
        ("limiting, a limit of a value not given, 0 below", true),
        ("limiting, two limits, the first moves", true),
        ("limiting, two limits, there and back", true),
        ("limiting, a limit that moves, then rows that do not", true),
        (
            "limiting, a limit that does not, then rows that do not",
            false,
        ),
        ("limiting, rows of one and 0.499999", false),
        ("limiting, rows of one and 0.5", true),
        ("limiting, a tint at 1, its result beyond", false),
        ("limiting, a tint above 1", true),
        ("limiting, a limit that moves, then no mark", true),
        ("limiting, every ink as it stands", false),
        ("no limiting by gamma 1.8, 1.000001", false),
        ("no limiting by gamma 2, the least number", false),
        ("a limit before gamma 1.8, 1.000001", true),
        ("a limit before gamma 1.8, 1", false),
        ("no limiting by gammas 1.8 2.2 0.1", false),
        ("no limiting by Lab's closing step", false),
        ("nothing moved by 11", false),
    ] {
        assert_eq!(reply_of(33, label).ends_with(" moved"), moved, "{label}");
    }
    // A refusal carries nothing.
    for case in all() {
        let reply = case.result().unwrap();
        assert!(!(reply.starts_with("refused") && reply.ends_with("moved")));
        assert!([31, 33].contains(&case.op) || !reply.contains("moved"));
    }
}

#[test]
fn records_are_their_numbers_and_bytes() {
    let mut rng = crate::generate::Rng::new(14);
    for _ in 0..500 {
        let number = rng.below(MOST_BLOCKS) as u16;
        let record = crate::generate::random_lone_record(&mut rng, number);
        let mut args = vec![i32::from(number), i32::from(record.body.kind())];
        args.extend(numbers_of(&record.body));
        assert_eq!(record_of(&args, &record.bytes), Some(record));
        assert_eq!(record_of(&args[..1], &record.bytes), None);
        args.push(0);
        assert_eq!(record_of(&args, &record.bytes), None);
    }
    assert_eq!(record_of(&[0, 0], &[0; BODY + 1]), None);
    assert_eq!(record_of(&[-1, 0], &[]), None);
    assert_eq!(record_of(&[0, 8], &[]), None);
    let words = [1, -2, i32::MIN, i32::MAX];
    assert_eq!(words_of(&bytes_of(&words)), Some(words.to_vec()));
    assert_eq!(words_of(&[0; 5]), None);
    for (v, text) in [
        (0, "0"),
        (1_800_000, "1.8"),
        (-1, "-0.000001"),
        (40_000_000, "40"),
        (-100, "-0.0001"),
    ] {
        assert_eq!(decimal(v), text);
    }
}

#[test]
fn replies_worked_by_hand() {
    for (label, expected) in [
        ("index 2.5, hival 3, picks row 3", "3"),
        ("index -0.5 picks row 0", "0"),
        ("index 254.5 with hival 254 picks 254", "254"),
        ("byte B5 over 0..1 gives 709804", "709804"),
        ("byte B5 over the falling range 1..0", "290196"),
        ("byte 55 over -2..-1 millionths", "-2"),
        ("byte AA over -2..-1 millionths", "-1"),
        ("byte 33 over the falling range 0..-3 millionths", "-1"),
        ("tint 0.5 to exponent 4", "62500"),
        ("tint 0.999999 to exponent 3", "999997"),
        ("tint 1 gives C1", "750000"),
        ("tint 0 gives C0", "-250000"),
        ("half of the way from 0 to -1 millionth rounds up", "0"),
        ("half of the way from -3 to -4 millionths rounds up", "-3"),
        ("half of the way from -4 to -3 millionths rounds up", "-3"),
        ("just past half from 0 to -1 millionth", "-1"),
        ("from the least to the greatest number by 0.5", "0"),
        ("from the greatest to the least number by 0.5", "0"),
        ("the two bytes FF04, DeviceCMYK's code", "65284"),
        ("the four bytes FFFFFFFE", "-2"),
        ("the bytes of 1000000", "000f4240"),
        ("the bytes of the least number", "80000000"),
        ("the float of 0", "0000000000000000"),
        ("0.00005 decoded by gamma 2.2", "0000000000000000"),
        ("0.25 decoded by gamma 0.5", "3fe0000000000000"),
        ("0.999949 decoded by gamma 0.1", "3fefff2e48e8a71e"),
        ("0.99995 decoded by gamma 3.9", "3ff0000000000000"),
        (
            "the greatest number decoded by gamma 1.8",
            "3ff0000000000000",
        ),
        (
            "CalGray negative zero by a white point below 0",
            "XYZ 8000000000000000 0000000000000000 8000000000000000",
        ),
        (
            "CalRGB one negative zero of three",
            "XYZ 8000000000000000 0000000000000000 0000000000000000",
        ),
        (
            "Lab (0,0,0) gives zeros",
            "XYZ 0000000000000000 0000000000000000 0000000000000000",
        ),
    ] {
        assert_eq!(reply(label), expected, "{label}");
    }
    assert_eq!(
        reply("Lab (100,0,0) gives the white point's floats"),
        answer_text(&Answer::Xyz([0.9505, 1.0, 1.089]))
    );
}

#[test]
fn lines_have_the_agreed_form() {
    let case = Case {
        label: "a label".to_string(),
        op: 8,
        args: vec![],
        bytes: Some(vec![0xff, 0xff, 0xff, 0x0a]),
    };
    assert_eq!(case.input_line(), "a label: 8 xffffff0a");
    assert_eq!(case.output_line(), "a label: -246");
    assert!(input_text(&all()).contains("limit -1 to 0..10: 1 -1 0 10\n"));
    assert!(output_text(&all()).contains("limit -1 to 0..10: 0\n"));
    assert_eq!(reply_text(&Err((7, 127))), "refused 7 block 127");
    let answer = Answer::Gray(1.0);
    for (moved, text) in [
        (false, "Gray 3ff0000000000000"),
        (true, "Gray 3ff0000000000000 moved"),
    ] {
        assert_eq!(reply_text(&Ok(Colour { answer, moved })), text);
    }
    assert_eq!(answer_text(&Answer::Gray(1.0)), "Gray 3ff0000000000000");
    assert_eq!(answer_text(&Answer::NoMark), "NoMark");
    let every = answer_text(&Answer::EveryInk(1.0));
    assert_eq!(every, "EveryInk 3ff0000000000000");
    let odd = Case {
        op: 2,
        args: vec![1, 256],
        bytes: None,
        ..case
    };
    assert_eq!(odd.result(), None);
}
