//! Cases of one block by itself: operation 20 reads one, operation 21 writes one.

use super::format::{decimal, Case};
use super::maker::Maker;
use super::pages::{LAST, MOST};
use crate::block::{lay, Body, Record, BODY, DEVICE_CMYK, DEVICE_GRAY, DEVICE_RGB, NAME};
use crate::numbers::ONE;
use crate::records::{
    cal_gray, cal_rgb, free, indexed, lab, palette, record, separation, USUAL, WHITE,
};

/// The least and the greatest number.
const ENDS: [i32; 2] = [i32::MIN, i32::MAX];

/// The references that stand on either side of the line.
const REFERENCES: [u16; 12] = [
    0, 64, LAST, MOST, 0x0100, 0xff00, 0xff01, 0xff02, 0xff03, 0xff04, 0xff05, 0xffff,
];

/// A CalGray, a CalRGB and a Lab with these points, by their names.
fn with_points(white: [i32; 3], black: [i32; 3]) -> [(&'static str, Record); 3] {
    let gamma = ONE;
    let gammas = [ONE; 3];
    let matrix = crate::records::NINE;
    let range = USUAL;
    [
        (
            "CalGray",
            record(
                0,
                Body::CalGray {
                    white,
                    black,
                    gamma,
                },
            ),
        ),
        (
            "CalRGB",
            record(
                0,
                Body::CalRgb {
                    white,
                    black,
                    gammas,
                    matrix,
                },
            ),
        ),
        (
            "Lab",
            record(
                0,
                Body::Lab {
                    white,
                    black,
                    range,
                },
            ),
        ),
    ]
}

/// A Separation over DeviceGray whose name has this length and these bytes.
fn named(name_length: u8, name: &[u8]) -> Record {
    let mut made = separation(0, DEVICE_GRAY, 1, [0; 4], [ONE, 0, 0, 0]);
    if let Body::Separation {
        name_length: length,
        ..
    } = &mut made.body
    {
        *length = name_length;
    }
    made.bytes = [0; BODY];
    made.bytes[..name.len()].copy_from_slice(name);
    made
}

/// The cases of this group.
pub(super) fn cases() -> Vec<Case> {
    let mut maker = Maker::default();
    own_numbers(&mut maker);
    points(&mut maker);
    gammas(&mut maker);
    ranges(&mut maker);
    references(&mut maker);
    names(&mut maker);
    separations(&mut maker);
    palettes(&mut maker);
    orders(&mut maker);
    maker.cases
}

/// Free blocks, and own numbers at the limit.
fn own_numbers(maker: &mut Maker) {
    maker.both("free block 5 has check 5 and 2525", &free(5));
    maker.both("free block 0", &free(0));
    for number in [64, LAST, MOST, 256, 0xffff] {
        maker.both(&format!("free block {number}"), &free(number));
    }
    for number in [LAST, MOST] {
        maker.both(&format!("CalGray block {number}"), &cal_gray(number, ONE));
        let block = indexed(number, DEVICE_GRAY, 0);
        maker.both(&format!("Indexed block {number}"), &block);
        maker.both(&format!("palette block {number}"), &palette(number, &[7]));
    }
}

/// White and black points at the clause's limits.
fn points(maker: &mut Maker) {
    maker.both(
        "CalGray block 0, white 0.9505 1 1.089, black 0, gamma 1",
        &cal_gray(0, ONE),
    );
    let [x, y, z] = WHITE;
    let below = ONE - 1;
    let above = ONE + 1;
    for (name, record) in with_points([x, below, z], [0; 3]) {
        maker.both(&format!("{name} white Y 0.999999"), &record);
    }
    for (name, record) in with_points([x, above, z], [0; 3]) {
        maker.both(&format!("{name} white Y 1.000001"), &record);
    }
    for v in [0, 1, -1] {
        for (name, record) in with_points([v, y, z], [0; 3]) {
            maker.both(&format!("{name} white X {}", decimal(v)), &record);
        }
        for (name, record) in with_points([x, y, v], [0; 3]) {
            maker.both(&format!("{name} white Z {}", decimal(v)), &record);
        }
    }
    for v in ENDS {
        let [(name, record), ..] = with_points([v, y, v], [0; 3]);
        maker.both(&format!("{name} white X and Z {}", decimal(v)), &record);
        let [(name, record), ..] = with_points([x, v, z], [0; 3]);
        maker.both(&format!("{name} white Y {}", decimal(v)), &record);
        let [(name, record), ..] = with_points(WHITE, [v; 3]);
        maker.both(&format!("{name} black {}", decimal(v)), &record);
    }
    for (place, axis) in ["X", "Y", "Z"].into_iter().enumerate() {
        let mut black = [0; 3];
        black[place] = -1;
        for (name, record) in with_points(WHITE, black) {
            maker.both(&format!("{name} black {axis} -0.000001"), &record);
        }
    }
    for (name, record) in with_points(WHITE, [1, 2, 3]) {
        maker.both(&format!("{name} black 0.000001 0.000002 0.000003"), &record);
    }
}

/// Gammas on either side of the house limit.
fn gammas(maker: &mut Maker) {
    maker.both("CalGray gamma 4 is fine", &cal_gray(0, 4 * ONE));
    maker.both("CalGray gamma 1.8 is fine", &cal_gray(0, 1_800_000));
    maker.both("CalGray gamma 1.85 gives 5", &cal_gray(0, 1_850_000));
    maker.both("CalGray gamma 0 gives 4", &cal_gray(0, 0));
    maker.both("CalRGB gamma 0 gives 5", &cal_rgb(0, [0; 3]));
    for v in [1, ONE - 1, ONE + 1, 2 * ONE, 3 * ONE, 4 * ONE + 1, 5 * ONE] {
        maker.both(&format!("CalGray gamma {}", decimal(v)), &cal_gray(0, v));
    }
    for v in [-1, -ONE, 4] {
        maker.both(&format!("CalGray gamma {}", decimal(v)), &cal_gray(0, v));
    }
    tenths(maker);
    for v in ENDS {
        maker.both(&format!("CalGray gamma {}", decimal(v)), &cal_gray(0, v));
        maker.both(
            &format!("CalRGB gammas {}", decimal(v)),
            &cal_rgb(0, [v; 3]),
        );
    }
    maker.both("CalRGB gammas 1 2 3", &cal_rgb(0, [ONE, 2 * ONE, 3 * ONE]));
    maker.both("CalRGB gammas 4 4 4", &cal_rgb(0, [4 * ONE; 3]));
    for (place, which) in ["first", "second", "third"].into_iter().enumerate() {
        for v in [0, -ONE, -1_800_000, 1_800_000, 1_850_000, ONE + 1, 5 * ONE] {
            let mut gammas = [ONE; 3];
            gammas[place] = v;
            let label = format!("CalRGB {which} gamma {}", decimal(v));
            maker.both(&label, &cal_rgb(0, gammas));
        }
    }
    let mut any_matrix = cal_rgb(0, [ONE; 3]);
    if let Body::CalRgb { matrix, .. } = &mut any_matrix.body {
        *matrix = [i32::MIN, i32::MAX, 0, -1, 1, -ONE, ONE, i32::MIN, i32::MAX];
    }
    maker.both("CalRGB matrix numbers of every sign", &any_matrix);
}

/// Gammas in tenths, and about them.
fn tenths(maker: &mut Maker) {
    let carried = [100_000, 500_000, 2_200_000, 3_900_000];
    let between = [50_000, 99_999, 100_001, 150_000, 3_999_999];
    let beyond = [4_050_000, 4_100_000, 18, -100_000];
    for v in [&carried[..], &between, &beyond].concat() {
        maker.both(&format!("CalGray gamma {}", decimal(v)), &cal_gray(0, v));
        maker.both(
            &format!("CalRGB gammas {}", decimal(v)),
            &cal_rgb(0, [v; 3]),
        );
    }
    let mixed = cal_rgb(0, [1_800_000, 2 * ONE, 2_200_000]);
    maker.both("CalRGB gammas 1.8 2 2.2", &mixed);
}

/// Lab ranges and Indexed hivals.
fn ranges(maker: &mut Maker) {
    maker.both("Lab range -100 100 -100 100", &lab(0, USUAL));
    maker.both("Lab amin = amax is fine", &lab(0, [5, 5, -100, 100]));
    maker.both("Lab bmin = bmax is fine", &lab(0, [-100, 100, -5, -5]));
    maker.both("Lab amin > amax by one", &lab(0, [6, 5, -100, 100]));
    maker.both("Lab bmin > bmax by one", &lab(0, [-100, 100, -5, -6]));
    maker.both(
        "Lab ranges of all numbers",
        &lab(0, [i32::MIN, i32::MAX, i32::MIN, i32::MAX]),
    );
    maker.both(
        "Lab a* range of all numbers, falling",
        &lab(0, [i32::MAX, i32::MIN, 0, 0]),
    );
    maker.both(
        "Lab b* range of all numbers, falling",
        &lab(0, [0, 0, i32::MAX, i32::MIN]),
    );
    for hival in [0, 1, 255] {
        let block = indexed(0, DEVICE_RGB, hival);
        maker.both(&format!("hival {hival}"), &block);
    }
    maker.both("hival 256 gives 4", &indexed(0, DEVICE_RGB, 256));
    maker.both("hival 32768", &indexed(0, DEVICE_RGB, 0x8000));
    maker.both("hival 65535", &indexed(0, DEVICE_RGB, 0xffff));
}

/// References of a block by itself.
fn references(maker: &mut Maker) {
    for reference in REFERENCES {
        let text = match reference {
            0xff00.. => format!("{reference:04X}"),
            _ => reference.to_string(),
        };
        maker.both(&format!("Indexed base {text}"), &indexed(1, reference, 9));
        let block = separation(1, reference, 1, [0; 4], [ONE, 0, 0, 0]);
        maker.both(&format!("Separation alternate {text}"), &block);
    }
    maker.both("Indexed over itself, by itself", &indexed(1, 1, 9));
}

/// Names on either side of the line.
fn names(maker: &mut Maker) {
    maker.both("name length 0", &named(0, &[]));
    maker.both("name length 0 with a name", &named(0, b"G"));
    maker.both("name length 1", &named(1, b"G"));
    maker.both("name length 1 and a byte past it", &named(1, b"Go"));
    maker.both("name length 2 and one byte of it", &named(2, b"G"));
    maker.both("the name None", &named(4, b"None"));
    maker.both("the name All", &named(3, b"All"));
    maker.both("the name None with length 3", &named(3, b"None"));
    maker.both("the name All with length 4", &named(4, b"All"));
    maker.both("name length 127", &named(127, &[b'a'; 127]));
    maker.both("name length 127 and byte 135", &named(127, &[b'a'; 128]));
    maker.both(
        "name length 127 and 126 bytes of it",
        &named(127, &[1; 126]),
    );
    maker.both("name length 128", &named(128, &[b'a'; 128]));
    maker.both(
        "name length 128 and 127 bytes of it",
        &named(128, &[9; 127]),
    );
    maker.both("name length 255", &named(255, &[b'a'; 128]));
    maker.both("name bytes FF", &named(127, &[0xff; 127]));
    maker.both("a zero byte first in the name", &named(4, b"\0old"));
    maker.both("a zero byte in the name", &named(4, b"Go\0d"));
    maker.both("a zero byte last in the name", &named(4, b"Gol\0"));
    let mut last = [0; NAME];
    last[..4].copy_from_slice(b"Gold");
    last[NAME - 1] = 1;
    maker.both("byte 135 past a short name", &named(4, &last));
}

/// Exponents, and C0 and C1 of a Separation by itself.
fn separations(maker: &mut Maker) {
    for exponent in [0, 1, 2, 3, 4, 5, 255] {
        let block = separation(0, DEVICE_CMYK, exponent, [0; 4], [ONE; 4]);
        maker.both(&format!("exponent {exponent}"), &block);
    }
    let (least, greatest) = (i32::MIN, i32::MAX);
    let wide = separation(0, DEVICE_CMYK, 1, [least, greatest, -1, 1], [greatest; 4]);
    maker.both("C0 and C1 of any size", &wide);
    let past = separation(0, DEVICE_GRAY, 1, [0, 0, 0, 1], [ONE, 1, 0, 0]);
    maker.both("C0 and C1 entries past the count, by itself", &past);
}

/// Palettes, and checks that are reduced.
fn palettes(maker: &mut Maker) {
    let counting: Vec<u8> = (0..BODY).map(|place| place as u8).collect();
    maker.both("palette of zeros", &palette(0, &[]));
    maker.both("palette of bytes that count", &palette(2, &counting));
    maker.both("palette of bytes FF", &palette(LAST, &[0xff; BODY]));
    let mut last = [0; BODY];
    last[BODY - 1] = 1;
    maker.both("palette with its last byte alone", &palette(0, &last));
    // 6 for the kind, 256 times 255, and 249.
    let mut whole = [0xff; 257];
    whole[256] = 249;
    maker.both("the sum of bytes is 65535, check 0", &palette(0, &whole));
    // 508 x 6 + 504 x 123 + 495 x 1.
    let mut weighted = [0; 10];
    weighted[0] = 123;
    weighted[9] = 1;
    maker.both("the weighted sum is 65535, check 0", &palette(0, &weighted));
    for (label, bytes, at) in [
        (
            "FFFF stored where the sum's check 0 is due",
            &whole[..],
            508,
        ),
        (
            "FFFF stored where the weighted check 0 is due",
            &weighted[..],
            510,
        ),
        ("FFFF stored for the sum of an all-zero block", &[], 508),
        (
            "FFFF stored for the weighted sum of an all-zero block",
            &[],
            510,
        ),
    ] {
        let made = if bytes.is_empty() {
            free(0)
        } else {
            palette(0, bytes)
        };
        let mut block = lay(&made);
        block[at..at + 2].fill(0xff);
        maker.read(label, &block);
    }
}

/// Which refusal comes first.
fn orders(maker: &mut Maker) {
    let label = format!("own number {MOST} and gamma 0, 3 before 4");
    maker.both(&label, &cal_gray(MOST, 0));
    let [x, _, z] = WHITE;
    let [(_, mut gray), (_, mut rgb), _] = with_points([x, 0, z], [0; 3]);
    if let Body::CalGray { gamma, .. } = &mut gray.body {
        *gamma = 1_850_000;
    }
    if let Body::CalRgb { gammas, .. } = &mut rgb.body {
        *gammas = [0; 3];
    }
    maker.both("white Y 0 and CalGray gamma 1.85, 4 before 5", &gray);
    maker.both("white Y 0 and CalRGB gammas 0, 4 before 5", &rgb);
    let label = format!("hival 256 and base {MOST}, 4 before 6");
    maker.both(&label, &indexed(0, MOST, 256));
    let label = format!("own number {MOST} and base {MOST}, 3 before 6");
    maker.both(&label, &indexed(MOST, MOST, 0));
    let five = separation(0, MOST, 5, [0; 4], [0; 4]);
    let label = format!("exponent 5 and alternate {MOST}, 5 before 6");
    maker.both(&label, &five);
    let mut three = five;
    three.bytes[1] = 0;
    let label = format!("a zero byte in the name, exponent 5, alternate {MOST}");
    maker.both(&label, &three);
}
