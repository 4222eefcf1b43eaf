//! Cases of inks by name: operation 35.

use super::format::Case;
use super::maker::Maker;
use super::pages::LAST;
use crate::block::{lay, Record, BLOCK, DEVICE_GRAY};
use crate::records::{changed, free, indexed_run, named, page, separation};

/// A Separation of this name over DeviceGray.
fn ink(number: u16, name: &[u8]) -> Record {
    named(separation(number, DEVICE_GRAY, 1, [0; 4], [0; 4]), name)
}

/// The job's page: Gold twice, and Buff.
fn job() -> Vec<u8> {
    page(&[free(0), ink(1, b"Gold"), ink(2, b"Buff"), ink(3, b"Gold")])
}

/// The house page: Gold, Varnish twice, None, All and a name of bytes past 127.
fn house() -> Vec<u8> {
    page(&[
        ink(0, b"Gold"),
        free(1),
        ink(2, b"Varnish"),
        ink(3, b"Varnish"),
        ink(4, b"None"),
        ink(5, b"All"),
        ink(6, b"\x80\xff\x01"),
    ])
}

/// The cases of this group.
pub(super) fn cases() -> Vec<Case> {
    let mut maker = Maker::default();
    which_block(&mut maker);
    names(&mut maker);
    palettes(&mut maker);
    refusals(&mut maker);
    maker.cases
}

/// The job's page first, and the lowest block.
fn which_block(maker: &mut Maker) {
    let (job, house) = (job(), house());
    maker.ink("an ink on both pages is the job's", &job, &house, b"Gold");
    maker.ink("an ink on the job's page alone", &job, &house, b"Buff");
    maker.ink("an ink on the house page alone", &job, &house, b"Varnish");
    maker.ink("the pages exchanged", &house, &job, b"Gold");
    maker.ink("one page as both", &house, &house, b"Varnish");
    let mut far: Vec<Record> = (0..LAST).map(free).collect();
    far.push(ink(LAST, b"Far"));
    let label = format!("an ink in block {LAST}");
    maker.ink(&label, &page(&far), &house, b"Far");
}

/// Names that are there, and names that nearly are.
fn names(maker: &mut Maker) {
    let (job, house) = (job(), house());
    for (label, name) in [
        ("an ink named None", &b"None"[..]),
        ("an ink named All", b"All"),
        ("an ink whose name has bytes past 127", b"\x80\xff\x01"),
        ("an ink, its name a byte short", b"Varnis"),
        ("an ink, its name a byte long", b"Goldx"),
        ("an ink, its name with a zero byte more", b"Gold\0"),
        ("an ink, its name in another case", b"gold"),
        ("an ink of no name", b""),
        ("an ink of a name of 128 bytes", &[b'x'; 128]),
    ] {
        maker.ink(label, &job, &house, name);
    }
    let longest = [b'x'; 127];
    let long = page(&[free(0), ink(1, &longest)]);
    maker.ink("an ink of a name of 127 bytes", &job, &long, &longest);
    let shorter = &longest[1..];
    maker.ink("an ink of a name of 126 bytes", &job, &long, shorter);
}

/// A palette block whose bytes are those of an ink.
fn palettes(maker: &mut Maker) {
    let like = lay(&ink(1, b"Gold"));
    let job = page(&indexed_run(0, DEVICE_GRAY, 255, &like[4..260]));
    let label = "a palette like an ink is passed over";
    maker.ink(label, &job, &house(), b"Gold");
    maker.ink("a palette like an ink, twice", &job, &job, b"Gold");
}

/// The job's page is judged, then the house page, then the name is looked for.
fn refusals(maker: &mut Maker) {
    let (job, house) = (job(), house());
    let broken = changed(house.clone(), 3, |block| block[1] = 1);
    maker.ink("an ink, the job's page broken", &broken, &house, b"Gold");
    maker.ink("an ink, the house page broken", &job, &broken, b"Gold");
    maker.ink("no ink, the house page broken", &job, &broken, b"Silver");
    maker.ink("an ink, no page at all", &[], &[], b"Gold");
    maker.ink("an ink, no house page", &job, &[], b"Gold");
    let cut = &house[..BLOCK - 1];
    maker.ink("an ink, the house page cut", &job, cut, b"Gold");
    maker.ink("an ink on neither page", &job, &house, b"Silver");
}
