//! The samples on disk are the ones that are written today, and show what they say.

use reference::block::{BLOCK, MOST_BLOCKS};
use reference::listing::list;
use reference::page::{spaces, validate};
use reference::samples::{all, colours, inks, readme, TEXTS};
use std::path::Path;

#[test]
fn the_files_are_fresh() {
    let folder = Path::new(env!("CARGO_MANIFEST_DIR")).join("../samples");
    for sample in all() {
        let page = std::fs::read(folder.join(format!("{}.page", sample.name))).unwrap();
        assert!(page == sample.page, "{}.page is stale", sample.name);
        let listing = std::fs::read_to_string(folder.join(format!("{}.txt", sample.name))).unwrap();
        assert_eq!(listing, list(&sample.page), "{}.txt is stale", sample.name);
    }
    for text in TEXTS {
        let name = format!("{}.lst", text.name);
        let found = std::fs::read_to_string(folder.join(&name)).unwrap();
        assert_eq!(found, text.listing(), "{name} is stale");
    }
    for (name, text) in [
        ("colours.txt", colours()),
        ("inks.txt", inks()),
        ("README.md", readme()),
    ] {
        let found = std::fs::read_to_string(folder.join(name)).unwrap();
        assert!(found == text, "{name} is stale");
    }
}

#[test]
fn all_but_the_damaged_one_are_accepted() {
    let mut families = std::collections::BTreeSet::new();
    for sample in all() {
        let expected = match sample.name {
            "damaged" => Err((2, 0)),
            _ => Ok(sample.page.len() / BLOCK),
        };
        assert_eq!(validate(&sample.page), expected, "{}", sample.name);
        if sample.name == "full" {
            assert_eq!(expected, Ok(MOST_BLOCKS));
            families.extend(spaces(&sample.page).map(|(_, family)| family.name()));
        }
    }
    assert_eq!(families.len(), 5);
}

/// Both listings as they were worked out by hand.
#[test]
fn the_designers_texts_show_what_they_say() {
    let [deck, refused] = TEXTS;
    let spaces = [
        "0 CalGray 1 9",
        "1 CalRGB 3 26",
        "2 Lab 3 16",
        "3 Lab 3 16",
        "4 Separation 1 25",
        "5 Indexed 1 36",
        "7 Separation 1 29",
        "8 Separation 1 11",
        "9 Indexed 1 29",
    ];
    assert_eq!(
        deck.listing(),
        format!("blocks 11\n{}\n", spaces.join("\n"))
    );
    let comma = refused.text.windows(4).position(|four| four == b"1,8 ");
    let at = comma.expect("a number with a comma");
    assert_eq!(refused.listing(), format!("refused 12 at {at}\n"));
}
