//! Cases of recipes that are written: operation 32, into room that is short, right and long.

use super::colours::{mixed, CMYK, GRAY, RGB};
use super::format::{decimal, Case};
use super::maker::Maker;
use crate::block::{BLOCK, DEVICE_CMYK, DEVICE_RGB};
use crate::numbers::ONE;
use crate::records::{cal_gray, cal_rgb, free, indexed_run, lab, page, separation};

/// The cases of this group.
pub(super) fn cases() -> Vec<Case> {
    let mut maker = Maker::default();
    recipes(&mut maker);
    refused_recipes(&mut maker);
    maker.cases
}

/// Recipes of every family into room that is short, right and long.
fn recipes(maker: &mut Maker) {
    let cal = [ONE, 2 * ONE, 3 * ONE];
    let scanned = [1_800_000, 2 * ONE, 100_000];
    let range = [-7, 8, -9, 10];
    let gold = |number| separation(number, number + 1, 4, [1, 2, 3, 0], [4, 5, 6, 0]);
    let ink = separation(0, DEVICE_CMYK, 1, [1, 2, 3, 4], [5, 6, 7, 8]);
    let nested = [
        &indexed_run(0, 2, 2, &[0, 51, 255])[..],
        &[gold(2), lab(3, range)],
    ]
    .concat();
    let over_lab = [&indexed_run(0, 2, 0, &[51, 0, 255])[..], &[lab(2, range)]].concat();
    let over_rgb = indexed_run(0, DEVICE_RGB, 3, &[255; 12]);
    for (name, records, number, count) in [
        ("Gray 6", &[free(0)][..], GRAY, 6),
        ("RGB 14", &[free(0)], RGB, 14),
        ("CMYK 18", &[free(0)], CMYK, 18),
        ("CalGray 9", &[cal_gray(0, 2 * ONE)], 0, 9),
        ("CalRGB 26", &[cal_rgb(0, cal)], 0, 26),
        ("CalGray 9, gamma 2.2", &[cal_gray(0, 2_200_000)], 0, 9),
        ("CalRGB 26, gammas 1.8 2 0.1", &[cal_rgb(0, scanned)], 0, 26),
        ("Lab 16", &[lab(0, range)], 0, 16),
        (
            "Separation over Lab 16 + 9",
            &[gold(0), lab(1, range)],
            0,
            25,
        ),
        ("Separation over CMYK 18 + 11", &[ink], 0, 29),
        ("Indexed over Separation over Lab 25 + 6", &nested, 0, 31),
        ("Indexed over Lab 16 + 6", &over_lab, 0, 22),
        ("Indexed over RGB 14 + 15", &over_rgb, 0, 29),
    ] {
        for (room, length) in [
            ("a word short", count - 1),
            ("just enough", count),
            ("a word more", count + 1),
        ] {
            let label = format!("recipe of {name}, {room}");
            maker.write_recipe(&label, &page(records), number, length);
        }
    }
    let rgb = page(&[cal_rgb(0, cal)]);
    maker.write_recipe("recipe of Gray, no room", &rgb, GRAY, 0);
    maker.write_recipe("recipe of CalRGB, 1100 words", &rgb, 0, 1100);
    let bytes: Vec<u8> = (0..1024).map(|place| (place * 7 % 256) as u8).collect();
    let large = page(&indexed_run(0, DEVICE_CMYK, 255, &bytes));
    for length in [1046, 1100] {
        let label = format!("hival 255 over CMYK, 1045 words into {length}");
        maker.write_recipe(&label, &large, 0, length);
    }
    for v in [0, 2_500_000, 181 * ONE, 254_500_000, i32::MAX] {
        let label = format!("hival 255 over CMYK, index {}", decimal(v));
        maker.colour(&label, &large, 0, &[v]);
    }
}

/// Refusals of a recipe.
fn refused_recipes(maker: &mut Maker) {
    let page = mixed();
    for (name, number) in [
        ("a free block", 0),
        ("a palette block", 3),
        ("no block of the page", 5),
        ("FF02", 0xff02),
        ("the greatest number", i32::MAX as u32),
    ] {
        maker.write_recipe(&format!("a recipe of {name}"), &page, number, 30);
        let label = format!("8 before 10, a recipe of {name}");
        maker.write_recipe(&label, &page, number, 0);
    }
    let mut broken = page;
    broken[2 * BLOCK + 508] ^= 1;
    for (label, number, length) in [
        ("a recipe of a good block on a refused page", 1, 30),
        ("a recipe of a device code on a refused page", GRAY, 30),
        ("the page's refusal before 8, for a recipe", 0, 30),
        ("the page's refusal before 10", 1, 0),
    ] {
        maker.write_recipe(label, &broken, number, length);
    }
    maker.write_recipe("a recipe on no page at all", &[], GRAY, 30);
}
