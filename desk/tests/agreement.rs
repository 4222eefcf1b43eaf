//! On random input the program says what the second implementation says, and what it writes reads back.

mod common;

use common::{answer_text, desk, turns, typed, Folder};
use reference::block::BLOCK;
use reference::generate::device_n::{random_device_n_page_of, random_lone_device_n};
use reference::generate::programs::{
    random_lone_program_record, random_program_page_of, random_program_recipe,
};
use reference::generate::{
    damage, random_components, random_lone_record, random_page, random_recipe, Rng,
};
use reference::page::{components, spaces};
use std::collections::BTreeSet;

/// How many random inputs each test tries; `DESK_TURNS` names another count.
fn tries() -> u64 {
    turns("DESK_TURNS", 120)
}

/// An accepted page: with programs on it, with DeviceN spaces, or without either.
fn some_page(rng: &mut Rng) -> Vec<u8> {
    let blocks = 2 + rng.below(10);
    match rng.below(3) {
        0 => random_page(rng),
        1 => random_program_page_of(rng, blocks),
        _ => random_device_n_page_of(rng, blocks),
    }
}

/// The numbers that a page's spaces are asked for by, and the device codes.
fn numbers_of(page: &[u8]) -> Vec<u32> {
    let own = spaces(page).map(|(number, _)| number);
    own.chain([0xff01, 0xff03, 0xff04]).collect()
}

#[test]
fn the_plain_list_is_the_listing() {
    let rng = &mut Rng::new(1);
    for turn in 0..4 * tries() {
        let mut page = some_page(rng);
        if turn % 2 == 1 {
            damage(rng, &mut page);
        }
        let ran = desk(&["list", "--plain", "-"], &page);
        let listing = reference::listing::list(&page);
        assert_eq!(ran.text(), listing);
        let status = u8::from(listing.starts_with("refused"));
        assert_eq!(ran.status, status, "{}", ran.errors);
        assert_eq!(desk(&["check", "-"], &page).status, status);
    }
}

#[test]
fn colours_and_runs_are_those_of_the_second_implementation() {
    let rng = &mut Rng::new(2);
    let folder = Folder::new();
    for _ in 0..tries() {
        let page = some_page(rng);
        let numbers = numbers_of(&page);
        let number = rng.pick(&numbers, 0xff01);
        let space = number.to_string();
        let file = folder.with("page", &page);
        let text = folder.file("recipe.txt");
        let binary = folder.file("recipe.bin");
        desk(&["recipe", &file, &space, "-o", &text], b"").done();
        desk(&["recipe", "--binary", &file, &space, "-o", &binary], b"").done();
        let count = components(&page, number).unwrap();
        let mut lines = String::new();
        let mut answers = String::new();
        for _ in 0..8 {
            let colour = random_components(rng, count);
            let reply = reference::colour::evaluate(&page, number, &colour);
            let expected = answer_text(&reply).unwrap();
            let words: Vec<String> = colour.iter().map(|v| typed(*v)).collect();
            let words: Vec<&str> = words.iter().map(String::as_str).collect();
            let asked = |head: &[&str]| desk(&[head, &words[..]].concat(), b"").done();
            assert_eq!(asked(&["colour", &file, &space]), expected.as_bytes());
            assert_eq!(asked(&["run", &text]), expected.as_bytes());
            assert_eq!(asked(&["run", &binary]), expected.as_bytes());
            lines += &(words.join(" ") + "\n");
            answers += &expected;
        }
        let bulk = |head: &[&str]| desk(head, lines.as_bytes()).done();
        assert_eq!(bulk(&["colour", &file, &space, "-"]), answers.as_bytes());
        assert_eq!(bulk(&["run", &text, "-"]), answers.as_bytes());
        assert_eq!(bulk(&["run", &binary, "-"]), answers.as_bytes());
    }
}

#[test]
fn steps_there_and_back_are_the_same_words() {
    let rng = &mut Rng::new(3);
    for turn in 0..4 * tries() {
        let words = match turn % 2 {
            0 => random_recipe(rng),
            _ => random_program_recipe(rng),
        };
        let binary: Vec<u8> = words.iter().flat_map(|word| word.to_be_bytes()).collect();
        let steps = desk(&["steps", "-"], &binary).done();
        assert_eq!(desk(&["steps", "-"], &steps).done(), steps);
        assert_eq!(desk(&["steps", "--binary", "-"], &steps).done(), binary);
        let plain = desk(&["steps", "--plain", "-"], &steps).done();
        assert_eq!(desk(&["steps", "--binary", "-"], &plain).done(), binary);
        assert!(!String::from_utf8_lossy(&steps).contains("not known"));
    }
}

#[test]
fn blocks_there_and_back_are_the_same_bytes() {
    let rng = &mut Rng::new(4);
    let mut accepted = 0;
    for turn in 0..8 * tries() {
        let number = (turn % 128) as u16;
        let record = match turn % 4 {
            0 => random_lone_program_record(rng, number),
            1 => random_lone_device_n(rng, number),
            _ => random_lone_record(rng, number),
        };
        let mut block = [0; BLOCK];
        if reference::block::write_block(&record, &mut block).is_err() {
            continue;
        }
        accepted += 1;
        let text = desk(&["block", "-", "0"], &block).done();
        assert_eq!(desk(&["block", "-"], &text).done(), block);
    }
    assert!(accepted > tries(), "{accepted} records were accepted");
}

/// The recipes of a page's spaces.
fn recipes_of(page: &[u8]) -> BTreeSet<Vec<i32>> {
    let recipe = |(number, _)| reference::recipe::recipe_of(page, number).unwrap();
    spaces(page).map(recipe).collect()
}

#[test]
fn what_is_read_of_what_is_spelled_answers_as_before() {
    let rng = &mut Rng::new(5);
    let (mut whole, mut single) = (0, 0);
    for _ in 0..4 * tries() {
        let page = random_page(rng);
        let spelled = desk(&["spell", "-"], &page);
        if spelled.status == 0 {
            let back = desk(&["read", "-"], &spelled.output).done();
            // The recipe answers every colour of a space.
            assert_eq!(recipes_of(&back), recipes_of(&page));
            whole += 1;
        } else {
            // Too many blocks, or no space at all.
            let told = &spelled.errors;
            assert!(
                told.contains("refused 15") || told.contains("no space"),
                "{told}"
            );
        }
        let Some((number, _)) = spaces(&page).last() else {
            continue;
        };
        let text = desk(&["spell", "-", &number.to_string()], &page).done();
        let back = desk(&["read", "-"], &text).done();
        let (outer, _) = spaces(&back).last().unwrap();
        let recipe = |page: &[u8], number| reference::recipe::recipe_of(page, number);
        assert_eq!(recipe(&back, outer), recipe(&page, number));
        single += 1;
    }
    assert!(whole > tries() && single > tries(), "{whole} and {single}");
}
