//! Cases of document 02's DeviceN: one block by itself, pages with it, its colours and recipes, and what real documents
//! have.

use super::format::{decimal, Case};
use super::maker::Maker;
use super::pages::{LAST, MOST};
use crate::block::{
    lay, Body, Record, BODY, DEVICE_CMYK, DEVICE_GRAY, DEVICE_RGB, MOST_NAMES, NAMES,
};
use crate::numbers::ONE;
use crate::records::{
    cal_gray, cal_rgb, changed, device_n, device_n_run, free, indexed_run, lab, page, palette,
    program, separation, USUAL,
};

const HALF: i32 = ONE / 2;

/// The two inks of a map.
const MAP: [&[u8]; 2] = [b"Blue", b"Buff"];

/// The cases of this group.
pub(super) fn cases() -> Vec<Case> {
    let mut maker = Maker::default();
    counts(&mut maker);
    lengths(&mut maker);
    names(&mut maker);
    numbers(&mut maker);
    references(&mut maker);
    runs(&mut maker);
    orders(&mut maker);
    palettes(&mut maker);
    colours(&mut maker);
    marks(&mut maker);
    recipes(&mut maker);
    documents(&mut maker);
    maker.cases
}

/// A DeviceN with so many names A, B, C and so on.
fn letters(count: usize) -> Vec<&'static [u8]> {
    let all: [&[u8]; 8] = [b"A", b"B", b"C", b"D", b"E", b"F", b"G", b"H"];
    all[..count].to_vec()
}

/// A text that takes so many tints off and leaves these numbers.
fn drop_all(count: usize, left: &str) -> Vec<u8> {
    format!("{{ {}{left} }}", "pop ".repeat(count)).into_bytes()
}

/// A record with its count of names changed.
fn counted(mut record: Record, names: u8) -> Record {
    if let Body::DeviceN { count, .. } = &mut record.body {
        *count = names;
    }
    record
}

/// A record with a byte in one of its places changed.
fn with_byte(mut record: Record, place: usize, byte: u8) -> Record {
    record.bytes[place] = byte;
    record
}

/// Counts of names on either side of 1 to 8.
fn counts(maker: &mut Maker) {
    for count in 1..=MOST_NAMES {
        let record = device_n(0, DEVICE_GRAY, &letters(count));
        maker.both(&format!("DeviceN of {count} names"), &record);
    }
    let nine: Vec<&[u8]> = b"ABCDEFGHI".chunks(1).collect();
    maker.both("DeviceN of nine names", &device_n(0, DEVICE_GRAY, &nine));
    maker.both("DeviceN of no names", &device_n(0, DEVICE_GRAY, &[]));
    for count in [0, 1, 3, 9, 10, 128, 255] {
        let record = counted(device_n(0, DEVICE_GRAY, &MAP), count);
        maker.both(&format!("DeviceN of two names and count {count}"), &record);
    }
    let none = counted(device_n(0, DEVICE_GRAY, &[]), 1);
    maker.both("DeviceN of count 1 and no name", &none);
}

/// Lengths of names on either side of 1 to 48, zero bytes in them, and bytes after them.
fn lengths(maker: &mut Maker) {
    for length in [1, 2, 47, 48, 49, 127, 255] {
        let name = vec![b'a'; length];
        let first = device_n(0, DEVICE_GRAY, &[&name, b"B"]);
        maker.both(
            &format!("DeviceN with a first name of {length} bytes"),
            &first,
        );
        let last = device_n(0, DEVICE_GRAY, &[b"B", &name]);
        maker.both(
            &format!("DeviceN with a last name of {length} bytes"),
            &last,
        );
    }
    let long: Vec<Vec<u8>> = (0..8).map(|k| vec![b'a' + k; 48]).collect();
    let long: Vec<&[u8]> = long.iter().map(Vec::as_slice).collect();
    let full = device_n(LAST, DEVICE_CMYK, &long);
    maker.both("DeviceN of eight names of 48 bytes", &full);
    for place in [391, 392, NAMES - 1] {
        let more = with_byte(full, place, b'x');
        let label = format!("DeviceN of eight names of 48 bytes, byte {} x", place + 8);
        maker.both(&label, &more);
    }
    let map = device_n(0, DEVICE_GRAY, &MAP);
    for (label, place, byte) in [
        ("a first length 0", 0, 0),
        ("a last length 0", 5, 0),
        ("a first length 49", 0, 49),
        ("a last length 49", 5, 49),
        ("a first length one more", 0, 5),
        ("a first length one less", 0, 3),
        ("a last length one more", 5, 5),
        ("a last length one less", 5, 3),
        ("a zero first in a name", 1, 0),
        ("a zero within a name", 7, 0),
        ("a zero last in a name", 9, 0),
        ("the byte after the names", 10, 1),
        ("a byte far after the names", 300, 1),
        ("the last byte", NAMES - 1, 0x80),
    ] {
        maker.both(&format!("DeviceN, {label}"), &with_byte(map, place, byte));
    }
    for place in NAMES..BODY {
        let label = format!("DeviceN record with a byte in place {place}");
        maker.write(&label, &with_byte(map, place, 1));
    }
    for byte in [1, 2, 255] {
        let block = changed(lay(&map).to_vec(), 0, |block| block[7] = byte);
        maker.read(&format!("DeviceN block with byte 7 of {byte}"), &block);
    }
    let block = changed(lay(&map).to_vec(), 0, |block| block[1] = 1);
    maker.read("DeviceN block with byte 1", &block);
    // "Blue" with a length of 9 is one name "Blue", 4, "Buff".
    let joined = counted(with_byte(map, 0, 9), 1);
    maker.both("DeviceN of one name that holds a length byte", &joined);
}

/// Names that are equal, None, All, and nearly so.
fn names(maker: &mut Maker) {
    let lists: Vec<(&str, Vec<&[u8]>)> = vec![
        ("equal", vec![b"Blue", b"Blue"]),
        (
            "equal, the last two of three",
            vec![b"Buff", b"Blue", b"Blue"],
        ),
        (
            "equal, the first and the last of three",
            vec![b"Blue", b"Buff", b"Blue"],
        ),
        (
            "equal, the first and the last of eight",
            vec![b"A", b"B", b"C", b"D", b"E", b"F", b"G", b"A"],
        ),
        ("equal, of one byte", vec![&[1], &[1]]),
        ("equal, of bytes FF", vec![&[255; 48], &[255; 48]]),
        ("that differ in case", vec![b"Blue", b"blue"]),
        ("that differ in length", vec![b"Blue", b"Blu", b"Blue "]),
        (
            "that differ in the last byte",
            vec![
                &[7; 48],
                &[
                    7, 7, 7, 7, 7, 7, 7, 7, 7, 7, 7, 7, 7, 7, 7, 7, 7, 7, 7, 7, 7, 7, 7, 7, 7, 7,
                    7, 7, 7, 7, 7, 7, 7, 7, 7, 7, 7, 7, 7, 7, 7, 7, 7, 7, 7, 7, 7, 8,
                ],
            ],
        ),
        ("that differ in the order of bytes", vec![b"AB", b"BA"]),
        ("None alone", vec![b"None"]),
        ("None twice", vec![b"None", b"None"]),
        ("None eight times", vec![b"None"; 8]),
        ("None twice and an ink", vec![b"None", b"Blue", b"None"]),
        (
            "None twice and an ink twice",
            vec![b"None", b"Blue", b"None", b"Blue"],
        ),
        ("none and None", vec![b"none", b"None"]),
        ("none twice", vec![b"none", b"none"]),
        ("Nones and Non", vec![b"Nones", b"Non", b"None "]),
        ("All alone", vec![b"All"]),
        ("All the last of two", vec![b"Blue", b"All"]),
        ("All twice", vec![b"All", b"All"]),
        ("All and None", vec![b"All", b"None"]),
        ("All and a space", vec![b"All ", b"Blue"]),
        (
            "all, ALL, Al and Alls",
            vec![b"all", b"ALL", b"Al", b"Alls"],
        ),
        (
            "Cyan, Magenta, Yellow and Black",
            vec![b"Cyan", b"Magenta", b"Yellow", b"Black"],
        ),
    ];
    for (label, list) in lists {
        let record = device_n(0, DEVICE_GRAY, &list);
        maker.both(&format!("DeviceN names {label}"), &record);
        let mut records = vec![record];
        records.push(program(1, &drop_all(list.len(), "0.5")));
        maker.validate_and_list(
            &format!("DeviceN names {label}, on a page"),
            &page(&records),
        );
    }
}

/// Own numbers, references and which refusal comes first, of a block by itself.
fn numbers(maker: &mut Maker) {
    for number in [0, LAST, MOST, 0xffff] {
        let record = device_n(number, DEVICE_GRAY, &MAP);
        maker.both(&format!("DeviceN block {number}"), &record);
    }
    for alternate in [
        0, LAST, MOST, 0x0100, 0xff00, 0xff01, 0xff02, 0xff03, 0xff04, 0xff05, 0xffff,
    ] {
        let record = device_n(0, alternate, &MAP);
        maker.both(&format!("DeviceN alternate {alternate:04X}"), &record);
    }
    let equal: [&[u8]; 2] = [b"Blue"; 2];
    let label = format!("DeviceN block {MOST} with equal names, 3 before 4");
    maker.both(&label, &device_n(MOST, DEVICE_GRAY, &equal));
    let label = format!("DeviceN with equal names over {MOST}, 4 before 6");
    maker.both(&label, &device_n(0, MOST, &equal));
    let label = format!("DeviceN with All over {MOST}, 4 before 6");
    maker.both(&label, &device_n(0, MOST, &[b"All"]));
    let label = format!("DeviceN of count 9 over {MOST}, 3 before 6");
    maker.both(&label, &counted(device_n(0, MOST, &MAP), 9));
    let zero = with_byte(device_n(0, DEVICE_GRAY, &equal), 10, 1);
    maker.both(
        "DeviceN with equal names and a byte after, 3 before 4",
        &zero,
    );
}

/// The records of a page after a DeviceN of two names and its program: one of each kind.
fn others() -> Vec<Record> {
    let mut records = vec![
        free(2),
        cal_gray(3, ONE),
        cal_rgb(4, [ONE; 3]),
        lab(5, USUAL),
        separation(6, DEVICE_RGB, 1, [0; 4], [ONE, 0, ONE, 0]),
    ];
    records.extend(indexed_run(7, DEVICE_GRAY, 0, &[9]));
    records.extend(device_n_run(9, DEVICE_GRAY, &[b"Other"], b"{ }"));
    records
}

/// Alternates and bases of every kind.
fn references(maker: &mut Maker) {
    let kinds = [
        (0, "itself", 1),
        (1, "its own program", 1),
        (2, "a free block", 1),
        (3, "CalGray", 1),
        (4, "CalRGB", 3),
        (5, "Lab", 3),
        (6, "a Separation", 1),
        (7, "an Indexed", 1),
        (8, "a palette", 1),
        (9, "a DeviceN", 1),
        (10, "another's program", 1),
        (11, "no block of the page", 1),
        (0x0103, "block 0103", 1),
        (0xff00, "FF00", 1),
        (0xff01, "FF01", 1),
        (0xff02, "FF02", 1),
        (0xff03, "FF03", 3),
        (0xff04, "FF04", 4),
        (0xff05, "FF05", 1),
        (0xffff, "FFFF", 1),
    ];
    for (alternate, name, m) in kinds {
        let left = ["0.5"; 4][..m].join(" ");
        let text = drop_all(2, &left);
        let mut records = device_n_run(0, alternate, &MAP, &text);
        records.extend(others());
        maker.validate(&format!("DeviceN over {name}"), &page(&records));
    }
    for kind in 0..=9 {
        let over = [
            separation(0, 2, 1, [0; 4], [0; 4]),
            free(1),
            device_n(2, DEVICE_GRAY, &[b"A"]),
            program(3, b"{ }"),
        ];
        let page = changed(page(&over), 2, |block| block[0] = kind);
        maker.validate(&format!("Separation over a block made kind {kind}"), &page);
    }
}

/// The program's run: missing, ill filled, stray, and 16 and 17.
fn runs(maker: &mut Maker) {
    let map = device_n(0, DEVICE_CMYK, &MAP);
    let four = b"{ 2 copy }";
    let full = [&four[..], &[b' '; BODY - 10]].concat();
    let lists: Vec<(&str, Vec<Record>)> = vec![
        ("no block", vec![map]),
        ("a free block", vec![map, free(1)]),
        ("a palette block", vec![map, palette(1, four)]),
        (
            "a free block before it",
            vec![map, free(1), program(2, four)],
        ),
        ("one block", vec![map, program(1, four)]),
        ("a full block", vec![map, program(1, &full)]),
        (
            "a full block and one of zeros",
            vec![map, program(1, &full), program(2, &[])],
        ),
        (
            "a full block and a space",
            vec![map, program(1, &full), program(2, b" ")],
        ),
        ("a block of zeros", vec![map, program(1, &[])]),
        ("a zero first", vec![map, program(1, b"\0{ 2 copy }")]),
        (
            "a byte after a zero",
            vec![map, program(1, b"{ 2 copy }\0 ")],
        ),
        (
            "two blocks, the first not full",
            vec![map, program(1, four), program(2, b" ")],
        ),
    ];
    for (label, records) in lists {
        maker.validate_and_list(&format!("DeviceN, a run of {label}"), &page(&records));
    }
    for blocks in [3, 4, 5] {
        let text = [&four[..], &vec![b' '; blocks * BODY - 10]].concat();
        let records = device_n_run(0, DEVICE_CMYK, &MAP, &text);
        let label = format!("DeviceN, a run of {blocks} full blocks");
        maker.validate_and_list(&label, &page(&records));
    }
    let second = [
        vec![map, program(1, four), device_n(2, DEVICE_CMYK, &MAP)],
        vec![free(3)],
    ];
    maker.validate("a second DeviceN without a run", &page(&second.concat()));
    let stray = [free(0), program(1, four), map];
    let stray: Vec<Record> = (0..)
        .zip(stray)
        .map(|(number, record)| Record { number, ..record })
        .collect();
    maker.validate("a program before its DeviceN", &page(&stray));
    texts(maker);
}

/// Texts over two tints: accepted ones, 16 and 17.
fn texts(maker: &mut Maker) {
    for (text, alternate) in [
        ("{ }", DEVICE_GRAY),
        ("{ pop }", DEVICE_GRAY),
        ("{ add }", DEVICE_GRAY),
        ("{ exch pop }", DEVICE_GRAY),
        ("{ pop pop }", DEVICE_GRAY),
        ("{ pop pop pop }", DEVICE_GRAY),
        ("{ add add }", DEVICE_GRAY),
        ("{ pop pop 0.5 }", DEVICE_GRAY),
        ("{ pop pop true }", DEVICE_GRAY),
        ("{ gt { 0.1 } { 0.9 } ifelse }", DEVICE_GRAY),
        ("{ and }", DEVICE_GRAY),
        ("{ 2 copy }", DEVICE_CMYK),
        ("{ 3 copy }", DEVICE_CMYK),
        ("{ 1 index }", DEVICE_RGB),
        ("{ 2 index }", DEVICE_RGB),
        ("{ 2 1 roll dup }", DEVICE_RGB),
        ("{ 3 1 roll dup }", DEVICE_RGB),
        ("{ add div }", DEVICE_GRAY),
        ("{ add } x", DEVICE_GRAY),
        ("{ pop pop pop div }", DEVICE_GRAY),
        ("{ add 1.0000000 pop }", DEVICE_GRAY),
        ("{ add 2148 pop }", DEVICE_GRAY),
    ] {
        let records = device_n_run(0, alternate, &MAP, text.as_bytes());
        let label = format!("DeviceN of two over {alternate:04X}, program {text}");
        maker.validate_and_list(&label, &page(&records));
    }
    for count in 1..=MOST_NAMES {
        for pops in [count - 1, count] {
            let records = device_n_run(0, DEVICE_GRAY, &letters(count), &drop_all(pops, ""));
            let label = format!("DeviceN of {count} names, {pops} taken off");
            maker.validate(&label, &page(&records));
        }
    }
    // A stack of 100 and of 101 from eight tints.
    for more in [92, 93] {
        let text = format!("{{ {}{}}}", "0 ".repeat(more), "pop ".repeat(more + 7));
        let records = device_n_run(0, DEVICE_GRAY, &letters(8), text.as_bytes());
        let label = format!("DeviceN of eight, a stack of {}", more + 8);
        maker.validate(&label, &page(&records));
    }
}

/// Which refusal comes first on a page.
fn orders(maker: &mut Maker) {
    let equal: [&[u8]; 2] = [b"Blue"; 2];
    let lone =
        |alternate, names: &[&[u8]], text: &[u8]| page(&device_n_run(0, alternate, names, text));
    for (label, page) in [
        ("4 before 6", lone(7, &equal, b"{ add }")),
        ("4 of All before 6", lone(7, &[b"All"], b"{ }")),
        ("4 before 7", page(&[device_n(0, DEVICE_GRAY, &equal)])),
        ("4 before 16", lone(DEVICE_GRAY, &equal, b"{ div }")),
        ("4 before 17", lone(DEVICE_GRAY, &equal, b"{ }")),
        ("6 before 7", page(&[device_n(0, 7, &MAP)])),
        ("6 before 16", lone(7, &MAP, b"{ div }")),
        ("6 before 17", lone(7, &MAP, b"{ }")),
        (
            "7 of a run ill filled and no 16",
            lone(DEVICE_GRAY, &MAP, b"{ div }\0x"),
        ),
        (
            "7 of a run ill filled and no 17",
            lone(DEVICE_GRAY, &MAP, b"{ }\0x"),
        ),
        (
            "16 before 17",
            lone(DEVICE_GRAY, &MAP, b"{ pop pop pop div }"),
        ),
        (
            "3 before 4",
            page(&[
                with_byte(device_n(0, DEVICE_GRAY, &equal), 10, 1),
                program(1, b"{ add }"),
            ]),
        ),
        ("2 before 3", {
            let mut page = page(&[with_byte(device_n(0, DEVICE_GRAY, &MAP), 10, 1)]);
            page[511] ^= 1;
            page
        }),
        (
            "byte 7 on a page",
            changed(lone(DEVICE_GRAY, &MAP, b"{ add }"), 0, |block| block[7] = 1),
        ),
        (
            "a length of 49 on a page",
            changed(lone(DEVICE_GRAY, &MAP, b"{ add }"), 0, |block| {
                block[8] = 49;
            }),
        ),
        (
            "count 0 on a page",
            changed(lone(DEVICE_GRAY, &MAP, b"{ add }"), 0, |block| block[6] = 0),
        ),
        (
            "count 9 on a page",
            changed(lone(DEVICE_GRAY, &MAP, b"{ add }"), 0, |block| block[6] = 9),
        ),
    ] {
        maker.validate(&format!("of a DeviceN, {label}"), &page);
    }
    // Every name is None, and the program is judged all the same.
    for text in ["{ add }", "{ }", "{ div }", "{ add }\0x"] {
        let page = lone(DEVICE_GRAY, &[&b"None"[..]; 2], text.as_bytes());
        let shown = text.replace('\0', " zero ");
        let label = format!("DeviceN of None twice, program {shown}");
        maker.validate_and_list(&label, &page);
        maker.colour(&format!("{label}, a colour"), &page, 0, &[HALF, HALF]);
    }
}

/// An Indexed over a DeviceN of so many names, whose program adds all tints, on a page with the DeviceN first.
fn indexed_over(count: usize, hival: u16, blocks: usize) -> Vec<Record> {
    let sum = format!("{{ {}}}", "add ".repeat(count - 1));
    let mut records = device_n_run(0, DEVICE_GRAY, &letters(count), sum.as_bytes());
    let length = count * (usize::from(hival) + 1);
    let bytes: Vec<u8> = (0..length).map(|place| (place * 7 % 32) as u8).collect();
    let mut run = indexed_run(2, 0, hival, &bytes);
    run.truncate(1 + blocks);
    records.extend(run);
    records
}

/// Indexed spaces over DeviceN, whose palettes fill up to five blocks.
fn palettes(maker: &mut Maker) {
    for count in 1..=MOST_NAMES {
        let page = page(&indexed_over(count, 3, 1));
        let label = format!("an Indexed over a DeviceN of {count}");
        maker.validate_and_list(&label, &page);
        for v in [-ONE, 0, ONE, 2_500_000, 3_400_000, 3_500_000] {
            let label = format!("{label}, index {}", decimal(v));
            maker.colour(&label, &page, 2, &[v]);
        }
    }
    for (hival, blocks) in [(251, 4), (252, 4), (252, 5), (255, 4), (255, 5)] {
        let page = page(&indexed_over(8, hival, blocks));
        let label = format!("an Indexed over eight, hival {hival}, {blocks} blocks");
        maker.validate_and_list(&label, &page);
        for v in [0, 125 * ONE, i32::from(hival) * ONE] {
            let label = format!("{label}, index {}", decimal(v));
            maker.evaluate(&label, &page, 2, &[v]);
        }
    }
    let spare = with_spare(indexed_over(8, 255, 5), 32);
    maker.validate("a spare byte in a fifth palette block", &spare);
    let used = with_spare(indexed_over(8, 255, 5), 31);
    maker.validate("the last byte of a fifth palette block", &used);
    let mut more = indexed_over(8, 255, 5);
    more.push(palette(8, &[]));
    maker.validate("a sixth palette block", &page(&more));
    let mut hival = indexed_over(8, 255, 5);
    hival[2] = Record {
        body: Body::Indexed {
            base: 0,
            hival: 256,
        },
        ..hival[2]
    };
    maker.validate("hival 256 over a DeviceN", &page(&hival));
}

/// A page whose last block has a byte in this place of its body.
fn with_spare(mut records: Vec<Record>, place: usize) -> Vec<u8> {
    if let Some(last) = records.last_mut() {
        last.bytes[place] = 1;
    }
    page(&records)
}

/// Colours over every alternate, tints outside 0..1, and wrong counts.
fn colours(maker: &mut Maker) {
    let with =
        |text: &[u8], alternate| [&device_n_run(0, 2, &MAP, text)[..], &[alternate]].concat();
    for (label, records) in [
        (
            "DeviceGray",
            device_n_run(0, DEVICE_GRAY, &MAP, b"{ 0.5 mul add }"),
        ),
        (
            "DeviceRGB",
            device_n_run(0, DEVICE_RGB, &MAP, b"{ 1 index }"),
        ),
        (
            "DeviceCMYK",
            device_n_run(0, DEVICE_CMYK, &MAP, b"{ 2 copy 4 1 roll }"),
        ),
        ("CalGray", with(b"{ mul }", cal_gray(2, 2_200_000))),
        (
            "CalRGB",
            with(b"{ 2 copy mul }", cal_rgb(2, [1_800_000; 3])),
        ),
        (
            "Lab",
            with(b"{ 50 mul exch -20 mul 100 3 1 roll }", lab(2, USUAL)),
        ),
    ] {
        let page = page(&records);
        maker.list(&format!("DeviceN over {label}, listed"), &page);
        for colour in [
            [0, 0],
            [ONE, ONE],
            [250_000, 750_000],
            [-1, ONE + 1],
            [HALF, i32::MAX],
            [i32::MIN, HALF],
        ] {
            let [a, b] = colour.map(decimal);
            maker.colour(&format!("DeviceN over {label}, {a} {b}"), &page, 0, &colour);
        }
    }
    for count in 1..=MOST_NAMES {
        eight_tints(maker, count);
    }
    let page = page(&device_n_run(0, DEVICE_GRAY, &MAP, b"{ add }"));
    maker.evaluate("a colour of a DeviceN's program", &page, 1, &[0]);
    maker.write_recipe("a recipe of a DeviceN's program", &page, 1, 30);
}

/// A DeviceN of so many names: what each tint is worth, each one outside alone, all outside, and every other count.
fn eight_tints(maker: &mut Maker, count: usize) {
    // The first tint counts most: every step doubles what stands below.
    let text = format!("{{ {}0.001 mul }}", "exch 2 mul add ".repeat(count - 1));
    let page = page(&device_n_run(
        0,
        DEVICE_GRAY,
        &letters(count),
        text.as_bytes(),
    ));
    let label = format!("DeviceN of {count}");
    maker.list(&format!("{label}, listed"), &page);
    let inside: Vec<i32> = (0..count as i32).map(|k| 100_000 * (k + 1)).collect();
    maker.colour(&format!("{label}, all within"), &page, 0, &inside);
    for k in 0..count {
        for v in [-1, ONE + 1] {
            let mut colour = inside.clone();
            colour[k] = v;
            let label = format!("{label}, tint {k} is {}", decimal(v));
            maker.colour(&label, &page, 0, &colour);
        }
    }
    maker.colour(
        &format!("{label}, all below"),
        &page,
        0,
        &vec![i32::MIN; count],
    );
    maker.colour(
        &format!("{label}, all above"),
        &page,
        0,
        &vec![i32::MAX; count],
    );
    for other in (0..=9).filter(|other| *other != count) {
        let label = format!("{label}, {other} components");
        maker.colour(&label, &page, 0, &vec![HALF; other]);
    }
}

/// Names None: some of them, all of them, and an Indexed over that.
fn marks(maker: &mut Maker) {
    let some = page(&device_n_run(
        0,
        DEVICE_GRAY,
        &[b"None", b"Buff"],
        b"{ pop }",
    ));
    for colour in [[HALF, 0], [2 * ONE, 0], [HALF, 2 * ONE]] {
        let [a, b] = colour.map(decimal);
        maker.colour(
            &format!("DeviceN of None and Buff, {a} {b}"),
            &some,
            0,
            &colour,
        );
    }
    for count in [1, 2, 8] {
        let names: Vec<&[u8]> = vec![b"None"; count];
        let mut records = device_n_run(0, DEVICE_GRAY, &names, &drop_all(count, "0.5"));
        let bytes: Vec<u8> = (0..4 * count).map(|place| place as u8).collect();
        records.extend(indexed_run(2, 0, 3, &bytes));
        let page = page(&records);
        let label = format!("DeviceN of None {count} times");
        maker.validate_and_list(&label, &page);
        for v in [0, HALF, 2 * ONE, i32::MIN] {
            let label = format!("{label}, every tint {}", decimal(v));
            maker.colour(&label, &page, 0, &vec![v; count]);
        }
        for other in [0, count + 1] {
            let label = format!("{label}, {other} components");
            maker.colour(&label, &page, 0, &vec![0; other]);
        }
        for v in [0, 3_400_000, 3_500_000, -ONE] {
            let label = format!("an Indexed over {label}, index {}", decimal(v));
            maker.colour(&label, &page, 2, &[v]);
        }
        for number in [0, 2] {
            for room in [1, 2, 40] {
                let label = format!("{label}, recipe of {number} into {room}");
                maker.write_recipe(&label, &page, number, room);
            }
        }
    }
    for name in [&b"none"[..], b"None ", b"Non"] {
        let names = [name, b"None"];
        let page = page(&device_n_run(0, DEVICE_GRAY, &names, b"{ add }"));
        let label = format!("DeviceN of {} and None", String::from_utf8_lossy(name));
        maker.colour(&label, &page, 0, &[250_000, 2 * ONE]);
    }
}

/// Recipes with step 13, into room that is short, right and long.
fn recipes(maker: &mut Maker) {
    let lists: [(&str, Vec<Record>, u32, usize); 5] = [
        (
            "no items",
            device_n_run(0, DEVICE_GRAY, &[b"A"], b"{ }"),
            0,
            10,
        ),
        (
            "two to Gray",
            device_n_run(0, DEVICE_GRAY, &MAP, b"{ add }"),
            0,
            11,
        ),
        (
            "two to CMYK",
            device_n_run(0, DEVICE_CMYK, &MAP, b"{ 2 copy }"),
            0,
            24,
        ),
        (
            "eight to Gray",
            device_n_run(0, DEVICE_GRAY, &letters(8), &drop_all(7, "")),
            0,
            17,
        ),
        ("an Indexed over eight", indexed_over(8, 3, 1), 2, 52),
    ];
    for (name, records, number, count) in lists {
        let page = page(&records);
        for (room, length) in [
            ("a word short", count - 1),
            ("just enough", count),
            ("a word more", count + 1),
        ] {
            let label = format!("recipe of a DeviceN, {name}, {room}");
            maker.write_recipe(&label, &page, number, length);
        }
    }
    for (name, text) in [("16", "{ div }"), ("17", "{ }")] {
        let page = page(&device_n_run(0, DEVICE_GRAY, &MAP, text.as_bytes()));
        maker.write_recipe(
            &format!("a recipe of a DeviceN refused {name}"),
            &page,
            0,
            30,
        );
        maker.evaluate(
            &format!("a colour of a DeviceN refused {name}"),
            &page,
            0,
            &[0, 0],
        );
    }
}

/// A program that overprints inks: of each alternate component what is left uncovered is multiplied.
pub(crate) fn overprint(inks: &[[&str; 4]]) -> String {
    let n = inks.len();
    let mut text = String::from("{\n");
    for channel in 0..4 {
        text += " 1";
        for (k, ink) in inks.iter().enumerate() {
            text += &format!(" {} index {} mul 1 exch sub mul", n - k, ink[channel]);
        }
        text += &format!(" 1 exch sub {} 1 roll\n", n + 1);
    }
    text + " " + &"pop ".repeat(n) + "}"
}

/// An alternate, names, and a program's text.
type Document<'a> = (u16, Vec<&'a [u8]>, &'a [u8]);

/// What real documents have: one to five names, of up to 20 bytes, programs of up to some 160 tokens, alternates CMYK, RGB
/// and CalRGB.
fn documents(maker: &mut Maker) {
    let spot = b"{ pop pop pop dup 1 mul exch dup 0.66 mul exch dup 0 mul exch 0.02 mul }";
    let over_process = b"{ dup 1 mul 6 -1 roll add 5 1 roll dup 0.66 mul 5 -1 roll add 4 1 roll dup 0 mul 4 -1 roll add 3 1 roll 0.02 mul add
 4 copy 1 gt { pop 1 } if pop pop pop }";
    let to_rgb = b"{ 1 exch sub exch 1 exch sub dup 0.2 mul 0.8 add 3 1 roll dup 2 index mul 3 1 roll mul 0.9 mul 0.1 add }";
    let four = overprint(&[
        ["1", "0", "0", "0"],
        ["0", "1", "0", "0"],
        ["0", "0", "1", "0"],
        ["0.9", "0.55", "0.05", "0.1"],
    ]);
    let mut records: Vec<Record> = Vec::new();
    let runs: Vec<Document<'_>> = vec![
        (DEVICE_CMYK, vec![b"IBM", b"None", b"None", b"None"], spot),
        (
            DEVICE_CMYK,
            vec![b"Cyan", b"Magenta", b"Yellow", b"Black", b"PANTONE 286 C"],
            over_process,
        ),
        (DEVICE_RGB, vec![b"Black", b"PANTONE Warm Gray 11"], to_rgb),
        (
            DEVICE_CMYK,
            vec![b"Cyan", b"Magenta", b"Yellow", b"PANTONE Reflex Blue"],
            four.as_bytes(),
        ),
        (
            DEVICE_CMYK,
            vec![b"PANTONE 123 C"],
            b"{ 0 exch dup 0.24 mul exch dup 0.94 mul exch pop 0 }",
        ),
    ];
    for (alternate, names, text) in runs {
        let at = records.len() as u16;
        records.extend(device_n_run(at, alternate, &names, text));
    }
    let at = records.len() as u16;
    records.push(cal_rgb(at, [2_200_000; 3]));
    records.extend(device_n_run(at + 1, at, &[b"Black", b"Spot"], to_rgb));
    let page = page(&records);
    maker.validate_and_list("a page of DeviceNs as documents have them", &page);
    for (number, family) in crate::page::spaces(&page) {
        let count = family.components();
        for v in [0, 330_000, ONE, ONE + 1] {
            let label = format!("a document's block {number}, every tint {}", decimal(v));
            maker.colour(&label, &page, number, &vec![v; count]);
        }
    }
}
