//! Cases of colours: operation 31 evaluates one, operation 33 runs it through its space's recipe.

use super::format::{decimal, Case};
use super::maker::Maker;
use super::pages::{LAST, MOST};
use crate::block::{Body, Record, BLOCK, DEVICE_CMYK, DEVICE_GRAY, DEVICE_RGB};
use crate::numbers::ONE;
use crate::records::{cal_gray, cal_rgb, free, indexed_run, lab, page, palette, separation, USUAL};

const HALF: i32 = ONE / 2;

/// The device codes as numbers that are asked for.
pub(super) const GRAY: u32 = DEVICE_GRAY as u32;
pub(super) const RGB: u32 = DEVICE_RGB as u32;
pub(super) const CMYK: u32 = DEVICE_CMYK as u32;

/// The cases of this group.
pub(super) fn cases() -> Vec<Case> {
    let mut maker = Maker::default();
    devices(&mut maker);
    cal_grays(&mut maker);
    cal_rgbs(&mut maker);
    tenths(&mut maker);
    labs(&mut maker);
    indices(&mut maker);
    palettes(&mut maker);
    tints(&mut maker);
    last_block(&mut maker);
    refused_colours(&mut maker);
    maker.cases
}

/// Device colours, on a page of no spaces.
fn devices(maker: &mut Maker) {
    let none = [0; BLOCK];
    for (name, v) in [
        ("DeviceGray 0.7", 700_000),
        ("DeviceGray -0.000001", -1),
        ("DeviceGray 1.000001", ONE + 1),
        ("DeviceGray the least", i32::MIN),
        ("DeviceGray the greatest", i32::MAX),
    ] {
        maker.colour(name, &none, GRAY, &[v]);
    }
    maker.colour(
        "DeviceRGB 0.1 0.2 0.3",
        &none,
        RGB,
        &[100_000, 200_000, 300_000],
    );
    maker.colour("DeviceRGB -1 2 0.5", &none, RGB, &[-ONE, 2 * ONE, HALF]);
    let cmyk = [1, 999_999, HALF, 250_000];
    maker.colour("DeviceCMYK 0.000001 0.999999 0.5 0.25", &none, CMYK, &cmyk);
    let beyond = [i32::MIN, i32::MAX, -1, ONE + 1];
    maker.colour("DeviceCMYK beyond every end", &none, CMYK, &beyond);
}

/// CalGray.
fn cal_grays(maker: &mut Maker) {
    let paper = page(&[cal_gray(0, ONE)]);
    maker.colour("CalGray, 7 is limited to 1", &paper, 0, &[7 * ONE]);
    for units in 1..=4 {
        let page = page(&[cal_gray(0, units * ONE)]);
        let label = format!("CalGray 0.7 with gamma {units}");
        maker.colour(&label, &page, 0, &[700_000]);
    }
    let mut dark = cal_gray(0, 2 * ONE);
    if let Body::CalGray { black, white, .. } = &mut dark.body {
        *black = [1, 2, 3];
        *white = [1, ONE, i32::MAX];
    }
    let dark = page(&[dark]);
    maker.colour("CalGray, the black point has no part", &dark, 0, &[333_333]);
}

/// CalRGB.
fn cal_rgbs(maker: &mut Maker) {
    let plain = page(&[cal_rgb(0, [ONE; 3])]);
    for (label, colour) in [
        ("CalRGB, the next three numbers belong to B", [0, ONE, 0]),
        ("CalRGB, the last three to C", [0, 0, ONE]),
        ("CalRGB, all at 1", [ONE; 3]),
        ("CalRGB, limited to 0 and 1", [-1, ONE + 1, i32::MAX]),
    ] {
        maker.colour(label, &plain, 0, &colour);
    }
    let curved = page(&[cal_rgb(0, [2 * ONE, 3 * ONE, 4 * ONE])]);
    let colour = [900_000, 800_000, 700_000];
    maker.colour(
        "CalRGB gammas 2 3 4, colour 0.9 0.8 0.7",
        &curved,
        0,
        &colour,
    );
    let mut signed = cal_rgb(0, [ONE; 3]);
    if let Body::CalRgb { matrix, .. } = &mut signed.body {
        *matrix = [-ONE, 0, ONE, -ONE, 0, -ONE, -ONE, 0, ONE];
    }
    let signed = page(&[signed]);
    maker.colour("CalRGB with a negative zero", &signed, 0, &[0; 3]);
    let colour = [i32::MIN, HALF, ONE];
    maker.colour("CalRGB with entries below 0", &signed, 0, &colour);
}

/// CalGray and CalRGB with gammas in tenths, by themselves and within other spaces.
fn tenths(maker: &mut Maker) {
    for gamma in [100_000, 1_800_000, 2_200_000, 3_900_000] {
        let page = page(&[cal_gray(0, gamma)]);
        for v in [-3 * ONE, 0, 49, 50, HALF, 999_950, ONE, ONE + 1] {
            let label = format!("CalGray {} with gamma {}", decimal(v), decimal(gamma));
            maker.colour(&label, &page, 0, &[v]);
        }
    }
    let curved = cal_rgb(0, [1_800_000, 2 * ONE, 2_200_000]);
    let rgb = page(&[curved]);
    for (label, colour) in [
        ("0.9 0.8 0.7", [900_000, 800_000, 700_000]),
        ("all at 1", [ONE; 3]),
        ("beyond the ends", [-1, i32::MAX, i32::MIN]),
        ("0.00005 in each", [50; 3]),
    ] {
        maker.colour(
            &format!("CalRGB gammas 1.8 2 2.2, {label}"),
            &rgb,
            0,
            &colour,
        );
    }
    let rows = [0xb5, 0, 0xff, 0x33, 0x80, 1];
    let mut indexed = indexed_run(0, 2, 1, &rows);
    indexed.push(cal_rgb(2, [2_200_000, 100_000, ONE]));
    let mut nested = indexed_run(0, 2, 1, &rows[3..5]);
    nested.push(separation(2, 3, 2, [0; 4], [ONE, 0, 0, 0]));
    nested.push(cal_gray(3, 1_800_000));
    for row in 0..2 {
        let label = format!("Indexed over CalRGB gammas 2.2 0.1 1, row {row}");
        maker.colour(&label, &page(&indexed), 0, &[row * ONE]);
        let label = format!("Indexed over Separation over CalGray 1.8, row {row}");
        maker.colour(&label, &page(&nested), 0, &[row * ONE]);
    }
    for v in [0, 333_333, ONE] {
        let label = format!("Separation over CalGray 1.8, tint {}", decimal(v));
        maker.colour(&label, &page(&nested), 2, &[v]);
    }
}

/// Lab.
fn labs(maker: &mut Maker) {
    let usual = page(&[lab(0, USUAL)]);
    for (label, colour) in [
        ("at L* 8, b* 1 the third is not cubed", [8 * ONE, 0, ONE]),
        (
            "at L* 7.999999, a* 1 the first alone is cubed",
            [7_999_999, ONE, 0],
        ),
        ("Lab (50,20,-30) on a page", [50 * ONE, 20 * ONE, -30 * ONE]),
        ("Lab beyond every end", [500 * ONE, -500 * ONE, i32::MAX]),
        ("Lab all below their ranges", [i32::MIN; 3]),
    ] {
        maker.colour(label, &usual, 0, &colour);
    }
    let point = page(&[lab(0, [5 * ONE, 5 * ONE, -7 * ONE, -7 * ONE])]);
    maker.colour("Lab amin = amax, any a* and b*", &point, 0, &[HALF, 0, ONE]);
    let wide = page(&[lab(0, [i32::MIN, i32::MAX, i32::MIN, i32::MAX])]);
    for (label, a, b) in [
        ("Lab a* the least, b* the greatest", i32::MIN, i32::MAX),
        ("Lab a* the greatest, b* the least", i32::MAX, i32::MIN),
    ] {
        maker.colour(label, &wide, 0, &[100 * ONE, a, b]);
    }
}

/// An Indexed space over Gray whose row r has the byte r.
pub(super) fn counting(hival: u16) -> Vec<u8> {
    let bytes: Vec<u8> = (0..=hival).map(|row| row as u8).collect();
    page(&indexed_run(0, DEVICE_GRAY, hival, &bytes))
}

/// Which row an index picks.
fn indices(maker: &mut Maker) {
    let (four, all) = (counting(3), counting(255));
    for (label, page, v) in [
        ("index 2.499999, hival 3, picks row 2", &four, 2_499_999),
        ("index 0.5 picks row 1", &four, 500_000),
        ("index 3.5 with hival 3 stays at 3", &four, 3_500_000),
        ("index 254.5 with hival 255 picks 255", &all, 254_500_000),
        (
            "index 254.499999 with hival 255 picks 254",
            &all,
            254_499_999,
        ),
        ("the least index picks row 0", &all, i32::MIN),
        ("the greatest index picks the last row", &all, i32::MAX),
    ] {
        maker.colour(&format!("{label}, on a page"), page, 0, &[v]);
    }
    let lone = page(&indexed_run(0, DEVICE_GRAY, 0, &[0xb5]));
    for v in [0, ONE, 99 * ONE, -ONE] {
        let label = format!("hival 0, index {}", decimal(v));
        maker.colour(&label, &lone, 0, &[v]);
    }
}

/// A page for each base that an Indexed space has: the base's name and count, and the page, whose block 0 is
/// the Indexed space with these palette bytes.
fn over_every_base(hival: u16, rows: &[u8]) -> Vec<(&'static str, Vec<u8>)> {
    let bases: [(&str, usize, &[Record]); 9] = [
        ("Gray", 1, &[]),
        ("RGB", 3, &[]),
        ("CMYK", 4, &[]),
        ("CalGray", 1, &[cal_gray(2, 2 * ONE)]),
        ("CalRGB", 3, &[cal_rgb(2, [ONE, 2 * ONE, 3 * ONE])]),
        ("Lab", 3, &[lab(2, [-128 * ONE, 127 * ONE, -7, 8 * ONE])]),
        ("Separation over CMYK", 1, &[over_cmyk(2)]),
        ("Separation over Lab", 1, &[over_lab(2, 3), lab(3, USUAL)]),
        (
            "Separation over CalRGB",
            1,
            &[over_cal_rgb(2, 3), cal_rgb(3, [ONE; 3])],
        ),
    ];
    let device = [DEVICE_GRAY, DEVICE_RGB, DEVICE_CMYK];
    let pages = bases.iter().enumerate().map(|(at, (name, m, others))| {
        let base = device.get(at).copied().unwrap_or(2);
        let bytes = &rows[..m * (usize::from(hival) + 1)];
        let mut records = indexed_run(0, base, hival, bytes);
        records.extend(*others);
        (*name, page(&records))
    });
    pages.collect()
}

/// A Separation over DeviceCMYK, exponent 2.
fn over_cmyk(number: u16) -> Record {
    separation(number, DEVICE_CMYK, 2, [0; 4], [ONE, HALF, 0, -ONE])
}

/// A Separation over a Lab space, exponent 1.
fn over_lab(number: u16, alternate: u16) -> Record {
    let (c0, c1) = ([0, -ONE, ONE, 0], [100 * ONE, ONE, -ONE, 0]);
    separation(number, alternate, 1, c0, c1)
}

/// A Separation over a CalRGB space, exponent 3.
fn over_cal_rgb(number: u16, alternate: u16) -> Record {
    let (c0, c1) = ([ONE, 0, 0, 0], [0, 2 * ONE, HALF, 0]);
    separation(number, alternate, 3, c0, c1)
}

/// Palette bytes over every base, and Separations.
fn palettes(maker: &mut Maker) {
    // Two rows: the byte B5, the ends and others, in different order.
    let rows = [0xb5, 0, 0xff, 0x33, 0xff, 0xb5, 1, 0x80];
    for (name, page) in over_every_base(1, &rows) {
        for row in 0..2 {
            let label = format!("Indexed over {name}, row {row}");
            maker.colour(&label, &page, 0, &[row * ONE]);
        }
    }
    for (name, page) in [
        ("CMYK", page(&[over_cmyk(0)])),
        ("Lab", page(&[over_lab(0, 1), lab(1, USUAL)])),
        ("CalRGB", page(&[over_cal_rgb(0, 1), cal_rgb(1, [ONE; 3])])),
    ] {
        for v in [0, 707, 708, 333_333, 777_777, ONE] {
            let label = format!("Separation over {name}, tint {}", decimal(v));
            maker.colour(&label, &page, 0, &[v]);
        }
    }
}

/// Tints.
fn tints(maker: &mut Maker) {
    let wide = page(&[separation(
        0,
        DEVICE_GRAY,
        1,
        [-ONE, 0, 0, 0],
        [3 * ONE, 0, 0, 0],
    )]);
    for (label, v) in [
        ("tint 0 gives C0, then the alternate's limit", 0),
        ("tint 1 gives C1, then the alternate's limit", ONE),
        ("tint 0.5 of -1 to 3, beyond the end after the tint", HALF),
        ("tint below 0", -1),
        ("tint above 1", i32::MAX),
    ] {
        maker.colour(label, &wide, 0, &[v]);
    }
    for exponent in 1..=4 {
        let page = page(&[separation(
            0,
            DEVICE_RGB,
            exponent,
            [0, ONE, -3, 0],
            [ONE, 0, -4, 0],
        )]);
        for v in [HALF, 777_777, 999_999] {
            let label = format!("exponent {exponent}, tint {}", decimal(v));
            maker.colour(&label, &page, 0, &[v]);
        }
    }
    let far = [i32::MIN, i32::MAX, 1, 0];
    let back = [i32::MAX, i32::MIN, 0, 0];
    let lab_wide = lab(1, [i32::MIN, i32::MAX, i32::MIN, i32::MAX]);
    let far = page(&[separation(0, 1, 1, far, back), lab_wide]);
    for v in [0, 1, HALF, ONE] {
        let label = format!("from end to end over Lab, tint {}", decimal(v));
        maker.colour(&label, &far, 0, &[v]);
    }
    // Nearly two millionths from the exact component: what exponent 4 comes to at its worst.
    let worst = page(&[separation(0, DEVICE_GRAY, 4, [0; 4], [999_394, 0, 0, 0])]);
    maker.colour(
        "exponent 4, 1.923 millionths from the exact",
        &worst,
        0,
        &[974_048],
    );
}

/// A page with a free block, a CalGray, an Indexed and its palette, and a Lab.
pub(super) fn mixed() -> Vec<u8> {
    let mut records = vec![free(0), cal_gray(1, ONE)];
    records.extend(indexed_run(2, DEVICE_GRAY, 1, &[1, 2]));
    records.push(lab(4, USUAL));
    page(&records)
}

/// A space in the last block that a page has, and one in the first over it.
fn last_block(maker: &mut Maker) {
    let mut records = vec![separation(0, LAST, 1, [0; 4], [ONE, 0, 0, 0])];
    records.extend((1..LAST).map(free));
    records.push(cal_gray(LAST, 2 * ONE));
    let page = page(&records);
    let label = format!("a colour of block {LAST}");
    maker.colour(&label, &page, u32::from(LAST), &[HALF]);
    let label = format!("a colour over block {LAST}");
    maker.colour(&label, &page, 0, &[HALF]);
}

/// Refusals of a colour.
fn refused_colours(maker: &mut Maker) {
    let mixed = mixed();
    for (name, number) in [
        ("a free block", 0),
        ("a palette block", 3),
        ("no block of the page", 5),
        (&format!("block {LAST} of five"), u32::from(LAST)),
        (&MOST.to_string(), u32::from(MOST)),
        ("FF00", 0xff00),
        ("FF02", 0xff02),
        ("FF05", 0xff05),
        ("FFFF", 0xffff),
        ("1FF01", 0x1_ff01),
        ("10001", 0x1_0001),
        ("the greatest number", i32::MAX as u32),
    ] {
        maker.evaluate(&format!("a colour of {name}"), &mixed, number, &[0]);
        maker.evaluate(
            &format!("8 before 9, a colour of {name}"),
            &mixed,
            number,
            &[],
        );
    }
    for (name, number, right) in [
        ("DeviceGray", GRAY, 1),
        ("DeviceRGB", RGB, 3),
        ("DeviceCMYK", CMYK, 4),
        ("CalGray", 1, 1),
        ("Indexed", 2, 1),
        ("Lab", 4, 3),
    ] {
        for count in 0..=5 {
            if count == right {
                continue;
            }
            let label = format!("{count} components for {name}");
            maker.colour(&label, &mixed, number, &vec![HALF; count]);
        }
    }
    maker.colour("21 components for DeviceGray", &mixed, GRAY, &[0; 21]);
    let mut broken = mixed;
    broken[4 * BLOCK + 511] ^= 1;
    for (label, number, colour) in [
        ("a colour of a good block on a refused page", 1, &[0][..]),
        ("a colour of a device code on a refused page", GRAY, &[0]),
        ("the page's refusal before 8", 0, &[0]),
        ("the page's refusal before 9", 1, &[]),
    ] {
        maker.evaluate(label, &broken, number, colour);
    }
    maker.evaluate("a colour on no page at all", &[], GRAY, &[0]);
    let stray = page(&[free(0), palette(1, &[])]);
    maker.evaluate("a colour beside a stray palette block", &stray, GRAY, &[0]);
}
