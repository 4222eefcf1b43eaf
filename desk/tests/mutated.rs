//! Files of every sort, mutated: each gives status 0, 1 or 2, says why it is not 0, and never a panic.

mod common;

use common::{desk, root, turns, Folder};
use reference::generate::device_n::random_device_n_page_of;
use reference::generate::programs::random_program_page_of;
use reference::generate::{random_page, random_recipe, Rng};
use reference::text::generate::{damage_text, random_text};

/// A sort of file, and the commands that read it: `-` is the file, `PAGE` a page that is accepted.
struct Sort {
    make: fn(&mut Rng) -> Vec<u8>,
    commands: &'static [&'static str],
}

/// The sorts of files.
const SORTS: [Sort; 6] = [
    Sort {
        make: some_page,
        commands: &[
            "check -",
            "check --plain --json -",
            "list -",
            "list --json -",
            "list --plain -",
            "show - 0",
            "show --json - 1",
            "colour - 0 0.5",
            "colour - cmyk 0 0.5 1 2",
            "colour --strict - /Gold 50%",
            "recipe - 0",
            "recipe --c ink - 2",
            "spell -",
            "spell - 1",
            "ink Gold - PAGE",
            "ink Gold PAGE -",
            "block - 0",
            "block --json - 1",
        ],
    },
    Sort {
        make: binary_recipe,
        commands: &[
            "steps -",
            "run - 0.5",
            "steps --c ink -",
            "run --json - 0 0 0",
        ],
    },
    Sort {
        make: text_recipe,
        commands: &["steps -", "run - 0.5", "steps --binary -", "steps --json -"],
    },
    Sort {
        make: some_text,
        commands: &["read -", "read --json -"],
    },
    Sort {
        make: record_text,
        commands: &["block -"],
    },
    Sort {
        make: colours,
        commands: &[
            "colour PAGE gray -",
            "colour --json PAGE cmyk -",
            "colour --plain PAGE 0 -",
        ],
    },
];

fn some_page(rng: &mut Rng) -> Vec<u8> {
    let blocks = 1 + rng.below(8);
    match rng.below(4) {
        0 => random_page(rng),
        1 => random_device_n_page_of(rng, blocks),
        _ => random_program_page_of(rng, blocks),
    }
}

fn binary_recipe(rng: &mut Rng) -> Vec<u8> {
    let words = random_recipe(rng);
    words.iter().flat_map(|word| word.to_be_bytes()).collect()
}

fn text_recipe(rng: &mut Rng) -> Vec<u8> {
    desk(&["steps", "-"], &binary_recipe(rng)).done()
}

fn some_text(rng: &mut Rng) -> Vec<u8> {
    if rng.once_in(4) {
        std::fs::read(root().join("samples/deck.txt")).expect("a sample")
    } else {
        random_text(rng)
    }
}

fn record_text(rng: &mut Rng) -> Vec<u8> {
    let page = some_page(rng);
    let number = rng.below(page.len() / 512).to_string();
    desk(&["block", "-", &number], &page).done()
}

fn colours(rng: &mut Rng) -> Vec<u8> {
    let mut text = String::new();
    for _ in 0..rng.below(8) {
        let count = rng.below(6);
        let words = (0..count).map(|_| common::typed(reference::generate::random_component(rng)));
        text += &(words.collect::<Vec<_>>().join(" ") + "\n");
    }
    text.into_bytes()
}

/// Damages a file: as texts are damaged, or a bit, a byte, a block or the length of it.
fn mutate(rng: &mut Rng, bytes: &mut Vec<u8>) {
    let at = rng.below(bytes.len().max(1));
    match rng.below(8) {
        0 | 1 => damage_text(rng, bytes),
        2 => bytes.truncate(at),
        3 => bytes.extend(vec![rng.next() as u8; 1 + rng.below(600)]),
        4 => bytes.iter_mut().skip(at).take(4).for_each(|b| *b = 0xff),
        5 => bytes
            .iter_mut()
            .skip(at / 512 * 512)
            .take(512)
            .for_each(|b| *b ^= 0x40),
        _ => {
            let bit = 1 << rng.below(8);
            bytes.iter_mut().skip(at).take(1).for_each(|b| *b ^= bit);
        }
    }
    // A page whose checks are right again is refused further on.
    if bytes.len().is_multiple_of(512) && rng.once_in(2) {
        for number in 0..bytes.len() / 512 {
            reference::generate::repair(bytes, number);
        }
    }
}

#[test]
fn any_file_gives_a_status() {
    let rng = &mut Rng::new(6);
    let folder = Folder::new();
    let page = std::fs::read(root().join("samples/nested.page")).expect("a sample");
    let page = folder.with("accepted.page", &page);
    let mut statuses = [0_u64; 3];
    for turn in 0..turns("DESK_MUTATED", 5_000) {
        let sort = &SORTS[turn as usize % SORTS.len()];
        let mut file = (sort.make)(rng);
        for _ in 0..rng.below(4) {
            mutate(rng, &mut file);
        }
        let command = sort.commands[rng.below(sort.commands.len())];
        let command = command.replace("PAGE", &page);
        let words: Vec<&str> = command.split(' ').collect();
        let ran = desk(&words, &file);
        assert!(ran.status <= 3, "{command}: status {}", ran.status);
        let strict = ran.status == 3;
        assert!(!strict || command.contains("--strict"), "{command}");
        let silent = ran.errors.is_empty() && !command.contains("--json");
        assert!(
            ran.status == 0 || strict || !silent,
            "{command}: nothing said"
        );
        statuses[usize::from(ran.status % 3)] += 1;
    }
    assert!(statuses.iter().all(|count| *count > 0), "{statuses:?}");
}

/// Words of the command line, right and wrong; the last is empty.
const PARTS: &str = "check list show colour recipe steps run read spell ink block new explain \
    - -- -x --json --plain --house --all --strict --binary --c --help --version -h \
    0 1 -1 0.5 50% gray /Gold /# 99999999999 \u{e9} --house=x --json=1 -5 3 ";

#[test]
fn any_words_give_a_status() {
    let rng = &mut Rng::new(7);
    let folder = Folder::new();
    let page = folder.with("a.page", &[0; 512]);
    let parts: Vec<&str> = PARTS.split(' ').collect();
    for _ in 0..turns("DESK_MUTATED", 5_000) {
        let mut words: Vec<&str> = (0..rng.below(6)).map(|_| rng.pick(&parts, "")).collect();
        words.insert(rng.below(words.len() + 1), &page);
        let ran = desk(&words, b"[/CalGray<</WhitePoint[1 1 1]>>]");
        assert!(ran.status <= 3, "{words:?}");
        assert!(ran.status != 2 || !ran.errors.is_empty(), "{words:?}");
    }
}
