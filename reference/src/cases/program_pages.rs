//! Cases of document 02's program blocks: by themselves, in runs of one to five, stray, and the order of refusals.

use super::format::Case;
use super::maker::Maker;
use super::pages::{LAST, MOST};
use super::programs::over;
use crate::block::{lay, Body, Record, BODY, DEVICE_CMYK, DEVICE_GRAY, DEVICE_RGB};
use crate::numbers::ONE;
use crate::records::{
    cal_gray, changed, free, indexed_run, lab, named, page, palette, program, program_run,
    separation, USUAL,
};

/// The cases of this group.
pub(super) fn cases() -> Vec<Case> {
    let mut maker = Maker::default();
    alone(&mut maker);
    lengths(&mut maker);
    filled(&mut maker);
    stray(&mut maker);
    orders(&mut maker);
    entries(&mut maker);
    elsewhere(&mut maker);
    maker.cases
}

/// The identity, filled up with spaces to so many bytes.
fn identity(length: usize) -> Vec<u8> {
    let mut text = b"{ }".to_vec();
    text.resize(length, b' ');
    text
}

/// Single blocks: "exponent 0 and kind 7 are fine there, whatever their text".
fn alone(maker: &mut Maker) {
    for (label, bytes) in [
        ("no text", &b""[..]),
        ("a program", b"{ dup mul }"),
        ("no program", b"no program at all"),
        ("a text after a zero", b"\0{ }"),
        ("bytes FF to its end", &[255; BODY]),
        ("a zero within", b"{ \0 }"),
    ] {
        maker.both(&format!("a program block of {label}"), &program(0, bytes));
    }
    for number in [LAST, MOST] {
        let label = format!("program block {number}");
        maker.both(&label, &program(number, b"{ }"));
    }
    let block = changed(lay(&program(0, b"{ }")).to_vec(), 0, |block| block[1] = 1);
    maker.read("a program block with byte 1", &block);
    let mut block = lay(&program(0, b"{ }"));
    block[5] ^= 1;
    maker.read("a program block with a wrong check", &block);
    let any = [1, -2, i32::MIN, i32::MAX];
    for (label, record) in [
        (
            "over DeviceGray",
            separation(0, DEVICE_GRAY, 0, [0; 4], [0; 4]),
        ),
        ("with C0 and C1", separation(0, DEVICE_GRAY, 0, any, any)),
        (
            &format!("over block {LAST}"),
            separation(0, LAST, 0, [0; 4], [0; 4]),
        ),
        (
            &format!("over block {MOST}"),
            separation(0, MOST, 0, [0; 4], [0; 4]),
        ),
        (
            "named None",
            named(separation(0, DEVICE_RGB, 0, [0; 4], [0; 4]), b"None"),
        ),
        (
            "of no name",
            named(separation(0, DEVICE_RGB, 0, [0; 4], [0; 4]), b""),
        ),
    ] {
        maker.both(&format!("a Separation with exponent 0 {label}"), &record);
    }
}

/// Runs of one to four blocks, and a fifth.
fn lengths(maker: &mut Maker) {
    for length in [
        3, 503, 504, 505, 1008, 1009, 1512, 1513, 2015, 2016, 2017, 2520,
    ] {
        let page = over(DEVICE_GRAY, &identity(length));
        let blocks = length.div_ceil(BODY);
        let label = format!("a program of {length} bytes in {blocks} blocks");
        maker.validate_and_list(&label, &page);
        maker.colour(&format!("{label}, tint 0.25"), &page, 0, &[ONE / 4]);
    }
    for (label, fifth) in [
        ("of text", &b"%"[..]),
        ("of zeros", b""),
        ("with its own program", b"{ }"),
    ] {
        let mut records = program_run(0, DEVICE_GRAY, &identity(2016));
        records.push(program(5, fifth));
        records.push(free(6));
        maker.validate(&format!("a fifth program block {label}"), &page(&records));
    }
    // The text goes on from block to block within a token.
    let mut text = identity(502);
    text.truncate(2);
    text.resize(502, b' ');
    text.extend_from_slice(b"neg abs 0.25 add }");
    maker.colour(
        "a token that two blocks share",
        &over(DEVICE_GRAY, &text),
        0,
        &[ONE / 4],
    );
}

/// A Separation with exponent 0 and these program blocks after it.
fn with_blocks(blocks: &[&[u8]]) -> Vec<Record> {
    let mut records = vec![separation(0, DEVICE_GRAY, 0, [0; 4], [0; 4])];
    records.extend((1..).zip(blocks).map(|(at, bytes)| program(at, bytes)));
    records
}

/// Runs that are missing or ill filled: 7 at the record, and no 16 or 17.
fn filled(maker: &mut Maker) {
    let full = identity(BODY);
    let mut early = identity(BODY);
    early[BODY - 1] = 0;
    let mut within = identity(BODY);
    within[BODY - 2] = 0;
    for (label, blocks) in [
        ("no block", &[][..]),
        ("a block of zeros", &[&b""[..]]),
        ("a zero before the text", &[b"\0{ }"]),
        ("a byte straight after the first zero", &[b"{ }\0 "]),
        ("a byte later after the first zero", &[b"{ }\0\0\0 "]),
        ("a zero before the last byte", &[&within]),
        ("a zero as the last byte", &[&early]),
        ("a zero as the last byte and a block more", &[&early, b" "]),
        ("a text that ends and a block more", &[b"{ }", b"% more"]),
        ("a text that ends and a block of zeros", &[b"{ }", b""]),
        ("a full block", &[&full]),
        ("a full block and one of zeros", &[&full, b""]),
        ("a full block and one of a byte", &[&full, b" "]),
        (
            "a full block, one of a byte and one of zeros",
            &[&full, b" ", b""],
        ),
        (
            "a full block, one of zeros and one of a byte",
            &[&full, b"", b" "],
        ),
        ("a bad text and a byte after its end", &[b"{ div }\0 "]),
        ("a bad text and a block of zeros", &[b"{ dup }", b""]),
        ("a bad text", &[b"{ div }"]),
        ("white space alone", &[b" "]),
    ] {
        maker.validate(&format!("a run of {label}"), &page(&with_blocks(blocks)));
    }
    let mut records = with_blocks(&[b"{ }"]);
    records.push(free(2));
    maker.validate("a run that a free block ends", &page(&records));
    records.push(program(3, b"{ }"));
    maker.validate("a program block after a free one", &page(&records));
    records[1] = free(1);
    maker.validate(
        "a free block where the program should be",
        &page(&records[..3]),
    );
    records[1] = palette(1, b"{ }");
    maker.validate(
        "a palette block where the program should be",
        &page(&records[..3]),
    );
    records[1] = separation(1, DEVICE_GRAY, 0, [0; 4], [0; 4]);
    records[2] = program(2, b"{ }");
    maker.validate("two records, one program", &page(&records[..3]));
}

/// Program blocks outside a run: 7 at their own number.
fn stray(maker: &mut Maker) {
    let text = b"{ }";
    maker.validate("a program block alone", &page(&[program(0, text)]));
    maker.validate("a program block of zeros alone", &page(&[program(0, b"")]));
    for (label, record) in [
        ("a free block", free(0)),
        ("CalGray", cal_gray(0, ONE)),
        ("Lab", lab(0, USUAL)),
        (
            "a Separation with exponent 1",
            separation(0, DEVICE_GRAY, 1, [0; 4], [0; 4]),
        ),
        (
            "a Separation with exponent 4",
            separation(0, DEVICE_GRAY, 4, [0; 4], [0; 4]),
        ),
        (
            "a Separation with exponent 5",
            separation(0, DEVICE_GRAY, 5, [0; 4], [0; 4]),
        ),
    ] {
        maker.validate(
            &format!("a program block after {label}"),
            &page(&[record, program(1, text)]),
        );
    }
    let mut records = indexed_run(0, DEVICE_GRAY, 3, &[1, 2, 3, 4]);
    records.push(program(2, text));
    maker.validate("a program block after a palette", &page(&records));
    records[1] = program(1, &[1, 2, 3, 4]);
    maker.validate(
        "a program block where the palette should be",
        &page(&records[..2]),
    );
    let mut records = program_run(0, DEVICE_GRAY, text);
    records.push(palette(2, &[1]));
    maker.validate("a palette block after a program", &page(&records));
}

/// Which refusal comes first at one record, and along the page.
fn orders(maker: &mut Maker) {
    let with = |alternate, exponent, text: &[u8], entry| {
        let mut records = program_run(0, alternate, text);
        records[0] = separation(0, alternate, exponent, [0; 4], [entry, 0, 0, 0]);
        records
    };
    for (label, records) in [
        ("5 before 6", with(0xff02, 5, b"{ div }", 1)),
        ("6 before 7 of a missing run", with(0xff02, 0, b"", 1)),
        (
            "6 before 7 of a run ill filled",
            with(0xff02, 0, b"{ }\0 ", 1),
        ),
        ("6 before 16", with(0xff02, 0, b"{ div }", 1)),
        ("6 before 17", with(0xff02, 0, b"{ dup }", 1)),
        (
            "7 of a missing run before 7 of C1",
            with(DEVICE_GRAY, 0, b"", 1),
        ),
        (
            "7 of a run ill filled and no 16",
            with(DEVICE_GRAY, 0, b"{ div }\0 ", 1),
        ),
        (
            "7 of a run ill filled and no 17",
            with(DEVICE_GRAY, 0, b"{ dup }\0 ", 0),
        ),
        ("16 before 17", with(DEVICE_GRAY, 0, b"{ pop pop div }", 0)),
        ("16 before 7 of C1", with(DEVICE_GRAY, 0, b"{ div }", 1)),
        ("17 before 7 of C1", with(DEVICE_GRAY, 0, b"{ dup }", 1)),
        ("7 of C1 alone", with(DEVICE_GRAY, 0, b"{ }", 1)),
        ("nothing", with(DEVICE_GRAY, 0, b"{ }", 0)),
    ] {
        maker.validate(&format!("of a program, {label}"), &page(&records));
    }
    let mut records = program_run(0, DEVICE_GRAY, b"{ div }");
    records.push(cal_gray(2, 0));
    maker.validate("16 in block 0 before 4 in block 2", &page(&records));
    let mut late = page(&records);
    late[2 * 512 + 511] ^= 1;
    maker.validate("2 in block 2 before 16 in block 0", &late);
    let form = changed(page(&records), 1, |block| block[1] = 1);
    maker.validate("3 in a program block before 16 of it", &form);
    let mut records = vec![cal_gray(0, 0)];
    records.extend(program_run(1, DEVICE_GRAY, b"{ div }"));
    maker.validate("4 in block 0 before 16 in block 1", &page(&records));
    let mut records = program_run(0, DEVICE_GRAY, b"{ }");
    records.extend(program_run(2, DEVICE_RGB, b"{ }"));
    maker.validate(
        "17 in block 2, the first program being fine",
        &page(&records),
    );
    let broken = page(&records);
    maker.evaluate(
        "a colour of a good program on a refused page",
        &broken,
        0,
        &[0],
    );
    maker.write_recipe(
        "a recipe of a good program on a refused page",
        &broken,
        0,
        30,
    );
}

/// C0 and C1 over a program: all eight numbers are zero, whatever the alternate's count.
fn entries(maker: &mut Maker) {
    for k in 0..8 {
        let mut records = program_run(0, DEVICE_CMYK, b"{ dup 2 copy }");
        if let Body::Separation { c0, c1, .. } = &mut records[0].body {
            *if k < 4 { &mut c0[k] } else { &mut c1[k - 4] } = -1;
        }
        let (entry, place) = if k < 4 { ("C0", k) } else { ("C1", k - 4) };
        maker.validate(
            &format!("{entry} entry {place} over a program"),
            &page(&records),
        );
    }
    maker.validate(
        "no entry over a program",
        &over(DEVICE_CMYK, b"{ dup 2 copy }"),
    );
}

/// The alternate's count decides what a program leaves; references and listings.
fn elsewhere(maker: &mut Maker) {
    for (name, alternate, count) in [
        ("Gray", DEVICE_GRAY, 1),
        ("RGB", DEVICE_RGB, 3),
        ("CMYK", DEVICE_CMYK, 4),
    ] {
        for left in 0..6 {
            let dups = "dup ".repeat(left);
            let text = format!("{{ {dups}pop }}");
            let label = format!("{left} numbers left over {name}, which has {count}");
            maker.validate(&label, &over(alternate, text.as_bytes()));
        }
    }
    let mut records = program_run(0, DEVICE_GRAY, b"{ }");
    records.push(separation(2, 1, 1, [0; 4], [0; 4]));
    maker.validate("a program block as alternate", &page(&records));
    records.truncate(2);
    records.extend(indexed_run(2, 1, 0, &[1]));
    maker.validate("a program block as base", &page(&records));
    records.truncate(2);
    records.extend(indexed_run(2, 0, 0, &[1]));
    maker.validate_and_list("a Separation over a program as base", &page(&records));
    let mut records = program_run(0, 5, b"{ 100 mul 0 0 }");
    records.extend(program_run(2, DEVICE_GRAY, &identity(505)));
    records.push(lab(5, USUAL));
    let page = page(&records);
    maker.validate_and_list("two programs on a page", &page);
    for number in 0..6 {
        maker.evaluate(
            &format!("a colour of block {number} of two programs"),
            &page,
            number,
            &[ONE / 4],
        );
    }
}
