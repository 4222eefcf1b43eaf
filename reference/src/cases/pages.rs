//! Cases of pages: operation 30 validates one, operation 34 lists one.

use super::format::Case;
use super::maker::Maker;
use crate::block::{Body, Record, BLOCK, BODY, DEVICE_CMYK, DEVICE_GRAY, DEVICE_RGB, MOST_BLOCKS};
use crate::numbers::ONE;
use crate::records::{
    cal_gray, cal_rgb, changed, free, indexed, indexed_run, lab, page, palette, separation, USUAL,
};

/// The least number that no block has, and the last that one has.
pub(super) const MOST: u16 = MOST_BLOCKS as u16;
pub(super) const LAST: u16 = MOST - 1;

/// A page of this many free blocks.
pub(super) fn all_free(count: usize) -> Vec<u8> {
    page(&(0..count as u16).map(free).collect::<Vec<_>>())
}

/// A Separation over this alternate whose C0 and C1 are 0.
fn plain_separation(number: u16, alternate: u16) -> Record {
    separation(number, alternate, 1, [0; 4], [0; 4])
}

/// Lays into a block of a page a fault that gives this refusal, 2 to 7, and no earlier one.
fn with_fault(page: Vec<u8>, number: usize, refusal: u32) -> Vec<u8> {
    let at = number as u16;
    let record = match refusal {
        4 => cal_gray(at, 0),
        5 => cal_gray(at, 1_850_000),
        6 => plain_separation(at, 0xff02),
        7 => palette(at, &[]),
        _ => free(at),
    };
    let block = crate::block::lay(&record);
    let mut page = changed(page, number, |place| place.copy_from_slice(&block));
    match refusal {
        2 => page[number * BLOCK + 511] ^= 1,
        3 => page = changed(page, number, |block| block[1] = 1),
        _ => {}
    }
    page
}

/// Bytes of a palette: this many, none of them zero.
fn full(count: usize) -> Vec<u8> {
    (0..count).map(|place| (place % 255) as u8 + 1).collect()
}

/// A page with a palette run from block 0 on: base, hival, and this many bytes that are not zero.
pub(super) fn run_page(base: u16, hival: u16, bytes: usize) -> Vec<u8> {
    page(&indexed_run(0, base, hival, &full(bytes)))
}

/// The cases of this group.
pub(super) fn cases() -> Vec<Case> {
    let mut maker = Maker::default();
    lengths(&mut maker);
    positions(&mut maker);
    pairs(&mut maker);
    in_one_block(&mut maker);
    references(&mut maker);
    runs(&mut maker);
    strays(&mut maker);
    entries(&mut maker);
    limits(&mut maker);
    listings(&mut maker);
    maker.cases
}

/// The page's length.
fn lengths(maker: &mut Maker) {
    for length in [0, 1, 511, 513, 1023, 1025] {
        maker.validate(&format!("a page of {length} bytes"), &vec![0; length]);
    }
    maker.validate("an all-zero second block", &[0; 2 * BLOCK]);
    let (most, more) = (MOST_BLOCKS, MOST_BLOCKS + 1);
    let mut long = all_free(most);
    long.push(0);
    maker.validate(&format!("{most} blocks and a byte"), &long);
    let label = format!("{most} blocks less a byte");
    maker.validate(&label, &long[..most * BLOCK - 1]);
    let label = format!("{more} blocks, block 0 faulty");
    maker.validate(&label, &with_fault(all_free(more), 0, 2));
}

/// Each refusal at the first, a middle and the last block.
fn positions(maker: &mut Maker) {
    for refusal in 2..=7 {
        for (number, count) in [(0, 1), (0, 3), (1, 3), (2, 3)] {
            let page = with_fault(all_free(count), number, refusal);
            let label = format!("refusal {refusal} in block {number} of {count}");
            maker.validate(&label, &page);
        }
    }
    for refusal in [2, 7] {
        let (last, most) = (MOST_BLOCKS - 1, MOST_BLOCKS);
        let page = with_fault(all_free(most), last, refusal);
        let label = format!("refusal {refusal} in block {last} of {most}");
        maker.validate(&label, &page);
    }
}

/// Faults of two kinds in both orders.
fn pairs(maker: &mut Maker) {
    for first in 2..=7 {
        for second in 2..=7 {
            let page = with_fault(with_fault(all_free(4), 1, first), 3, second);
            let label = format!("a fault for {first} in block 1 and one for {second} in block 3");
            maker.validate(&label, &page);
        }
    }
}

/// Faults of two kinds in one block.
fn in_one_block(maker: &mut Maker) {
    let mut both = all_free(2);
    both[BLOCK + 1] = 1;
    maker.validate("2 before 3 in one block", &both);
    let mut gray = cal_gray(0, 1_850_000);
    if let Body::CalGray { black, .. } = &mut gray.body {
        black[2] = -1;
    }
    maker.validate("4 before 5 in one block", &page(&[gray]));
    let mut rgb = cal_rgb(0, [0; 3]);
    if let Body::CalRgb { white, .. } = &mut rgb.body {
        white[1] = 0;
    }
    maker.validate("4 before 5 in one CalRGB block", &page(&[rgb]));
    maker.validate("4 before 6 in one block", &page(&[indexed(0, MOST, 256)]));
    let no_run = page(&[indexed(0, DEVICE_RGB, 256)]);
    maker.validate("4 before 7 in one block", &no_run);
    let tint =
        |alternate, exponent| page(&[separation(0, alternate, exponent, [0; 4], [0, 1, 0, 0])]);
    maker.validate("5 before 6 in one block", &tint(MOST, 5));
    maker.validate("5 before 7 in one block", &tint(DEVICE_GRAY, 5));
    maker.validate("6 before 7 in one Separation block", &tint(MOST, 1));
    let lost = page(&[indexed(0, MOST, 0)]);
    maker.validate("6 before 7 in one Indexed block", &lost);
}

/// References to every kind of block, to no block, and about the device codes.
fn references(maker: &mut Maker) {
    let others = [
        free(2),
        cal_gray(3, ONE),
        cal_rgb(4, [ONE; 3]),
        lab(5, USUAL),
        plain_separation(6, DEVICE_RGB),
        indexed(7, DEVICE_GRAY, 0),
        palette(8, &[]),
    ];
    let kinds = [
        "itself",
        "block 1",
        "a free block",
        "CalGray",
        "CalRGB",
        "Lab",
        "a Separation",
        "an Indexed",
        "a palette",
        "no block of the page",
    ];
    let mut asked: Vec<(u16, String)> = (0..).zip(kinds.map(str::to_string)).collect();
    asked.push((LAST, format!("block {LAST} of nine")));
    asked.push((0x0103, "block 0103".to_string()));
    asked.extend((0xff00..=0xff05).map(|code| (code, format!("{code:04X}"))));
    asked.push((0xffff, "FFFF".to_string()));
    for (reference, name) in asked {
        let mut records = vec![indexed(0, reference, 0), palette(1, &[])];
        records.extend(others);
        maker.validate(&format!("Indexed over {name}"), &page(&records));
        records[0] = plain_separation(0, reference);
        records[1] = free(1);
        maker.validate(&format!("Separation over {name}"), &page(&records));
    }
    let faulty = [plain_separation(0, 1), cal_gray(1, 1_850_000)];
    maker.validate("a reference to a block that is faulty", &page(&faulty));
    let faulty = [indexed(0, 2, 0), palette(1, &[]), indexed(2, 0, 256)];
    maker.validate("a reference to an Indexed that is faulty", &page(&faulty));
    let up = [cal_gray(0, ONE), plain_separation(1, 0)];
    maker.validate("a reference to a block before it", &page(&up));
    let chain = [
        indexed(0, 2, 1),
        palette(1, &[5, 6]),
        plain_separation(2, 3),
        lab(3, USUAL),
    ];
    maker.validate("Indexed over Separation over Lab", &page(&chain));
    let mut last = all_free(MOST_BLOCKS);
    let gray = crate::block::lay(&cal_gray(LAST, ONE));
    last[usize::from(LAST) * BLOCK..].copy_from_slice(&gray);
    let over = crate::block::lay(&plain_separation(0, LAST));
    last[..BLOCK].copy_from_slice(&over);
    let label = format!("a reference from block 0 to block {LAST}");
    maker.validate(&label, &last);
    let over = changed(last, 0, |block| block[5] = MOST as u8);
    let label = format!("a reference from block 0 to block {MOST} of {MOST}");
    maker.validate(&label, &over);
}

/// Palette runs: as few blocks as hold the bytes, none less and none more.
fn runs(maker: &mut Maker) {
    for (name, base, m) in [
        ("Gray", DEVICE_GRAY, 1usize),
        ("RGB", DEVICE_RGB, 3),
        ("CMYK", DEVICE_CMYK, 4),
    ] {
        // The last hival of each count of blocks, and the one after it.
        for hival in [0, 125, 126, 167, 168, 251, 252, 255] {
            let bytes = m * (hival + 1);
            let label = format!("{name} hival {hival}, {bytes} bytes");
            let whole = run_page(base, hival as u16, bytes);
            maker.validate(&label, &whole);
            if hival == 255 {
                let short = &whole[..whole.len() - BLOCK];
                maker.validate(&format!("{label}, a block short"), short);
            }
            if bytes % BODY != 0 {
                let spare = run_page(base, hival as u16, bytes + 1);
                maker.validate(&format!("{label}, a spare byte not zero"), &spare);
            }
        }
    }
    let last = changed(run_page(DEVICE_CMYK, 255, 1024), 3, |block| block[507] = 1);
    maker.validate("the last spare byte not zero", &last);
    let mut later = vec![free(0), free(1)];
    later.extend(indexed_run(2, DEVICE_CMYK, 255, &full(1025)));
    maker.validate("a spare byte is the Indexed block's fault", &page(&later));
    maker.validate(
        "a short run is the Indexed block's fault",
        &page(&later[..4]),
    );
    let broken = [
        indexed(0, DEVICE_RGB, 255),
        palette(1, &full(BODY)),
        free(2),
        palette(3, &full(264)),
    ];
    maker.validate("a run with a free block in it", &page(&broken));
    let next = [
        indexed(0, DEVICE_RGB, 255),
        palette(1, &full(BODY)),
        indexed(2, DEVICE_GRAY, 0),
        palette(3, &[1]),
    ];
    maker.validate("a run with an Indexed block in it", &page(&next));
    let none = [indexed(0, DEVICE_GRAY, 0), free(1)];
    maker.validate("an Indexed block with no palette", &page(&none));
    maker.validate("an Indexed block last on the page", &page(&none[..1]));
    let mut two = indexed_run(0, DEVICE_RGB, 168, &full(507));
    two.extend(indexed_run(3, DEVICE_GRAY, 255, &full(256)));
    maker.validate_and_list("two runs one after the other", &page(&two));
    // The base's own count decides how many blocks there are to be.
    let over_lab = |last: Record| {
        page(&[
            indexed(0, 3, 168),
            palette(1, &full(BODY)),
            last,
            lab(3, USUAL),
        ])
    };
    let fits = over_lab(palette(2, &full(3)));
    maker.validate("Lab hival 168, two blocks", &fits);
    let more = over_lab(palette(2, &full(4)));
    maker.validate("Lab hival 168, a spare byte not zero", &more);
    maker.validate("Lab hival 168, one block", &over_lab(free(2)));
}

/// Palette blocks outside a run.
fn strays(maker: &mut Maker) {
    let gray = |more: Record| {
        let mut records = indexed_run(0, DEVICE_GRAY, 255, &full(256));
        records.push(more);
        page(&records)
    };
    maker.validate("a palette block after a full run", &gray(palette(2, &[])));
    let mut large = indexed_run(0, DEVICE_CMYK, 255, &full(1024));
    large.push(palette(4, &[]));
    maker.validate("a fourth palette block over CMYK", &page(&large));
    let first = [palette(0, &[]), indexed(1, DEVICE_GRAY, 0), palette(2, &[])];
    maker.validate("a palette block before the Indexed block", &page(&first));
    let after = [cal_gray(0, ONE), palette(1, &[])];
    maker.validate("a palette block after a CalGray block", &page(&after));
    let apart = [
        indexed(0, DEVICE_GRAY, 0),
        palette(1, &[]),
        free(2),
        palette(3, &[]),
    ];
    maker.validate(
        "a palette block after a run and a free block",
        &page(&apart),
    );
    // The first fault is the Indexed block's: its palette would be astray.
    let refused = [indexed(0, MOST, 0), palette(1, &[])];
    maker.validate("a palette block after a refused Indexed", &page(&refused));
}

/// C0 and C1 entries past the alternate's count.
fn entries(maker: &mut Maker) {
    for (name, alternate, count) in [
        ("Gray", DEVICE_GRAY, 1),
        ("RGB", DEVICE_RGB, 3),
        ("CMYK", DEVICE_CMYK, 4),
        ("CalGray", 1, 1),
        ("CalRGB", 2, 3),
        ("Lab", 3, 3),
    ] {
        for (k, entry) in ["first", "second", "third", "fourth"]
            .into_iter()
            .enumerate()
        {
            // The last within the count and the first past it.
            if k + 1 != count && k != count {
                continue;
            }
            for which in ["C0", "C1"] {
                let mut c = [[0; 4]; 2];
                c[usize::from(which == "C1")][k] = -1;
                let records = [
                    separation(0, alternate, 1, c[0], c[1]),
                    cal_gray(1, ONE),
                    cal_rgb(2, [ONE; 3]),
                    lab(3, USUAL),
                ];
                // Device alternates need no other block.
                let used = if alternate < MOST { 4 } else { 1 };
                let label = format!("the {entry} {which} entry over {name}");
                maker.validate(&label, &page(&records[..used]));
            }
        }
    }
    let last = separation(0, DEVICE_GRAY, 1, [0; 4], [ONE, 0, 0, 1]);
    maker.validate("the last C1 entry over Gray", &page(&[last]));
}

/// Limits that a block by itself has too, on a page.
fn limits(maker: &mut Maker) {
    maker.validate("Lab amin > amax", &page(&[lab(0, [6, 5, 0, 1])]));
    maker.validate("Lab bmin = bmax is fine", &page(&[lab(0, [0, 1, 5, 5])]));
    maker.validate("Lab bmin > bmax", &page(&[lab(0, [0, 1, 6, 5])]));
    let third = [ONE, ONE, 5 * ONE];
    maker.validate("the third gamma 5 gives 5", &page(&[cal_rgb(0, third)]));
    for (label, gammas) in [
        ("gammas 1.8 2 2.2 are fine", [1_800_000, 2 * ONE, 2_200_000]),
        ("gammas 0.1 3.9 4 are fine", [100_000, 3_900_000, 4 * ONE]),
        ("the first gamma 1.85 gives 5", [1_850_000, ONE, ONE]),
        ("the second gamma 0.05 gives 5", [ONE, 50_000, ONE]),
        ("the third gamma 4.1 gives 5", [ONE, ONE, 4_100_000]),
        ("the third gamma -0.1 gives 5", [ONE, ONE, -100_000]),
    ] {
        maker.validate(label, &page(&[cal_rgb(0, gammas)]));
    }
    for (label, gamma) in [
        ("CalGray's gamma 0.1 is fine", 100_000),
        ("CalGray's gamma 2.2 is fine", 2_200_000),
        ("CalGray's gamma 0.05 gives 5", 50_000),
        ("CalGray's gamma 0.1 and a millionth gives 5", 100_001),
        ("CalGray's gamma 4.1 gives 5", 4_100_000),
        ("CalGray's gamma -0.1 gives 4", -100_000),
    ] {
        maker.validate(label, &page(&[cal_gray(0, gamma)]));
    }
    let own = |number: u16| {
        let mut records: Vec<Record> = (0..3).map(free).collect();
        records[1] = free(number);
        page(&records)
    };
    for number in [0, 2, MOST, 257] {
        let label = format!("block 1 with own number {number}");
        maker.validate(&label, &own(number));
    }
    let gold = page(&[plain_separation(0, DEVICE_GRAY)]);
    let name = |at: usize, byte: u8| changed(gold.clone(), 0, |block| block[at] = byte);
    maker.validate("a name of length 0 on a page", &name(7, 0));
    maker.validate("a name of length 3 and a fourth byte", &name(7, 3));
    maker.validate("a name of length 128 on a page", &name(7, 128));
    maker.validate("a zero byte in a name on a page", &name(9, 0));
    maker.validate("byte 135 of a Separation", &name(135, 1));
    maker.validate("byte 168 of a Separation", &name(168, 1));
    maker.validate("kind 9 on a page", &changed(all_free(1), 0, |b| b[0] = 9));
    let mut check = all_free(2);
    check[508..510].fill(0xff);
    maker.validate("FFFF where check 0 is due, on a page", &check);
    let mut turned = all_free(2);
    turned.rotate_left(BLOCK);
    maker.validate("two free blocks exchanged", &turned);
}

/// Listings of every family.
fn listings(maker: &mut Maker) {
    maker.list("an empty page, listed", &[]);
    let mut records = vec![
        cal_gray(0, 2 * ONE),
        cal_rgb(1, [ONE, 2 * ONE, 3 * ONE]),
        lab(2, [-7, 8, -9, 10]),
        plain_separation(3, 2),
        plain_separation(4, DEVICE_CMYK),
        free(5),
    ];
    records.extend(indexed_run(6, 3, 2, &[0, 51, 255]));
    records.extend(indexed_run(8, 2, 0, &[51, 0, 255]));
    records.extend(indexed_run(10, DEVICE_GRAY, 9, &full(10)));
    maker.validate_and_list("every family on a page", &page(&records));
    let mut faulty = page(&records);
    faulty[7 * BLOCK + 4] ^= 1;
    maker.validate_and_list("every family, a faulty palette block", &faulty);
    let mut many = Vec::new();
    while many.len() < MOST_BLOCKS {
        let at = many.len() as u16;
        many.extend(match at % 8 {
            0 => vec![lab(at, USUAL)],
            1 => vec![cal_gray(at, ONE)],
            2 => vec![plain_separation(at, at - 1)],
            3 => vec![cal_rgb(at, [4 * ONE; 3])],
            4 => indexed_run(at, at - 2, 3, &full(4)),
            6 => indexed_run(at, at - 3, 1, &full(6)),
            _ => vec![free(at)],
        });
    }
    let label = format!("{MOST} blocks with spaces");
    maker.validate_and_list(&label, &page(&many));
}
