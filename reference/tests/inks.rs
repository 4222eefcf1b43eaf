//! Change request 2026-12: an ink by its name, on the job's page or else on the house page.

mod common;

use common::{page, page_with, palette, record, separation};
use reference::block::{Body, Record, BLOCK};
use reference::inks::{find, Ink, Refused, Which};
use reference::records::{free, indexed, named};

const GRAY: u16 = 0xff01;

/// A Separation of this name over DeviceGray.
fn ink(number: u16, name: &[u8]) -> Record {
    named(separation(number, GRAY, 1, [0; 4], [0; 4]), name)
}

/// A page of inks of these names, from block 0 on; a name of no bytes stands for a free block.
fn inks(names: &[&[u8]]) -> Vec<u8> {
    let record = |(number, name): (u16, &&[u8])| match name.len() {
        0 => free(number),
        _ => ink(number, name),
    };
    page(&(0..).zip(names).map(record).collect::<Vec<_>>())
}

/// Where an ink is found, with the place of its name on that page.
fn place(job: &[u8], house: &[u8], name: &[u8]) -> Result<(Which, u32, usize), Refused> {
    find(job, house, name).map(|ink| {
        assert_eq!(ink.name, name);
        let page = match ink.page {
            Which::Job => job,
            _ => house,
        };
        let from = ink.name.as_ptr() as usize - page.as_ptr() as usize;
        assert!(from + name.len() <= page.len(), "of the page that is named");
        (ink.page, ink.block, from)
    })
}

const NOWHERE: Refused = Refused {
    number: 8,
    page: Which::Neither,
    block: 0,
};

#[test]
fn the_job_comes_first_and_the_lowest_block_wins() {
    let job = inks(&[b"", b"Gold", b"Buff", b"Gold"]);
    let house = inks(&[b"Gold", b"Buff", b"Varnish", b"", b"Varnish"]);
    let found = |name| place(&job, &house, name);
    assert_eq!(found(b"Gold"), Ok((Which::Job, 1, BLOCK + 8)));
    assert_eq!(found(b"Buff"), Ok((Which::Job, 2, 2 * BLOCK + 8)));
    assert_eq!(found(b"Varnish"), Ok((Which::House, 2, 2 * BLOCK + 8)));
    assert_eq!(found(b"Silver"), Err(NOWHERE));
    assert_eq!(
        find(&house, &job, b"Gold"),
        Ok(Ink {
            page: Which::Job,
            block: 0,
            name: b"Gold"
        })
    );
}

#[test]
fn one_page_may_be_both() {
    let both = inks(&[b"", b"Gold"]);
    assert_eq!(place(&both, &both, b"Gold"), Ok((Which::Job, 1, BLOCK + 8)));
}

#[test]
fn names_are_compared_byte_by_byte_and_with_the_length() {
    let longest = [b'x'; 127];
    let names: [&[u8]; 6] = [b"Gold", b"None", b"All", b"G", b"\x80\xff\x01", &longest];
    let house = inks(&names);
    let job = inks(&[b""]);
    for (number, name) in (0..).zip(names) {
        let from = number as usize * BLOCK + 8;
        assert_eq!(place(&job, &house, name), Ok((Which::House, number, from)));
    }
    let others: [&[u8]; 12] = [
        b"",
        b"Gol",
        b"Goldx",
        b"gold",
        b"GOLD",
        b"Gold ",
        b"Gold\0",
        b"\0Gold",
        b"old",
        b"\x80\xff",
        &longest[1..],
        &[b'x'; 128],
    ];
    for name in others {
        assert_eq!(place(&job, &house, name), Err(NOWHERE), "{name:?}");
    }
    assert_eq!(place(&job, &house, &[b'x'; 70_000]), Err(NOWHERE));
    assert_eq!(place(&job, &house, &[0; 127]), Err(NOWHERE));
}

#[test]
fn only_separations_count() {
    // A palette block whose bytes are those of a Separation named Gold.
    let gold = common::block(&ink(1, b"Gold"));
    let job = page(&[indexed(0, GRAY, 255), palette(1, &gold[4..508])]);
    let house = page(&[free(0), ink(1, b"Gold")]);
    assert_eq!(
        place(&job, &house, b"Gold"),
        Ok((Which::House, 1, BLOCK + 8))
    );
    assert_eq!(place(&job, &job, b"Gold"), Err(NOWHERE));
}

#[test]
fn both_pages_are_judged_first() {
    let gold = inks(&[b"Gold"]);
    let damaged = page_with(&[ink(0, b"Gold"), free(1)], 1, |block| block[1] = 1);
    let refused = |number, page, block| {
        Err(Refused {
            number,
            page,
            block,
        })
    };
    assert_eq!(place(&damaged, &gold, b"Gold"), refused(3, Which::Job, 1));
    assert_eq!(place(&gold, &damaged, b"Gold"), refused(3, Which::House, 1));
    assert_eq!(
        place(&gold, &damaged, b"Silver"),
        refused(3, Which::House, 1)
    );
    assert_eq!(
        place(&damaged, &damaged, b"Silver"),
        refused(3, Which::Job, 1)
    );
    assert_eq!(place(&[], &[], b""), refused(1, Which::Job, 0));
    assert_eq!(place(&gold, &[], b"Gold"), refused(1, Which::House, 0));
    let stray = page(&[record(0, Body::Palette)]);
    assert_eq!(place(&gold, &stray, b"Gold"), refused(7, Which::House, 0));
}
