//! The paper's own cases, "On either side of the line" and "Easy to get wrong", in its order and words. The lines
//! marked P are among them: the other program proves those, and runs them here too.

use super::colours::counting;
use super::format::Case;
use super::maker::Maker;
use super::pages::{all_free, run_page};
use crate::block::{BLOCK, DEVICE_CMYK, DEVICE_GRAY, MOST_BLOCKS};
use crate::numbers::ONE;
use crate::records::{cal_gray, cal_rgb, changed, indexed_run, lab, page, separation, USUAL};

/// The cases of this group.
pub(super) fn cases() -> Vec<Case> {
    let mut maker = Maker::default();
    first_blocks(&mut maker);
    first_labs(&mut maker);
    steps(&mut maker);
    limits(&mut maker);
    listing(&mut maker);
    easy_to_get_wrong(&mut maker);
    maker.cases
}

/// Free blocks and the CalGray block.
fn first_blocks(maker: &mut Maker) {
    maker.validate_and_list("free block 5 on its page", &all_free(6));
    maker.validate_and_list(
        "an all-zero block 0 is an accepted page of no spaces",
        &[0; BLOCK],
    );
    let gray = page(&[cal_gray(0, ONE)]);
    for (label, v) in [
        ("CalGray, its colour 1 gives the white point's floats", ONE),
        ("CalGray, -3 gives zeros", -3 * ONE),
    ] {
        maker.colour(label, &gray, 0, &[v]);
    }
}

/// Lab, 0 within both ranges, and at the seam.
fn first_labs(maker: &mut Maker) {
    let usual = page(&[lab(0, USUAL)]);
    for (label, l) in [
        ("Lab (100,0,0), the white point's floats", 100 * ONE),
        ("Lab (0,0,0), zeros", 0),
        ("L* 8 with a = b = 0 is cubed in all three", 8 * ONE),
        ("7.999999 in none", 8 * ONE - 1),
    ] {
        maker.colour(label, &usual, 0, &[l, 0, 0]);
    }
}

/// Indices, a palette byte and tints.
fn steps(maker: &mut Maker) {
    let (four, most, all) = (counting(3), counting(254), counting(255));
    for (label, page, v) in [
        ("index 2.5, hival 3, picks row 3", &four, 2_500_000),
        ("index 2.5, hival 255, picks row 3", &all, 2_500_000),
        ("-0.5 picks row 0", &four, -500_000),
        ("index 254.5 with hival 254 picks 254", &most, 254_500_000),
        ("byte B5 over 0..1 gives 709804", &all, 181 * ONE),
    ] {
        maker.colour(&format!("{label}, on a page"), page, 0, &[v]);
    }
    let ink = separation(0, DEVICE_GRAY, 3, [250_000, 0, 0, 0], [750_000, 0, 0, 0]);
    let ink = page(&[ink]);
    maker.colour("tint 1 gives C1, on a page", &ink, 0, &[ONE]);
    maker.colour("tint 0 gives C0, on a page", &ink, 0, &[0]);
}

/// Limits: hival, gammas, blocks, ranges.
fn limits(maker: &mut Maker) {
    let most = run_page(DEVICE_CMYK, 255, 1024);
    let label = "hival 255 over CMYK, 1024 palette bytes, three blocks";
    maker.validate_and_list(label, &most);
    maker.write_recipe("hival 255 over CMYK, 1045 words", &most, 0, 1045);
    maker.write_recipe("hival 255 over CMYK, 1044 words lent", &most, 0, 1044);
    let more = changed(most, 0, |block| {
        block[6..8].copy_from_slice(&256u16.to_be_bytes());
    });
    maker.validate_and_list("hival 256 over CMYK gives 4", &more);
    maker.validate("Gamma 4 is fine", &page(&[cal_gray(0, 4 * ONE)]));
    maker.validate("Gamma 1.8 is fine", &page(&[cal_gray(0, 1_800_000)]));
    maker.validate("Gamma 1.85 gives 5", &page(&[cal_gray(0, 1_850_000)]));
    maker.validate("Gamma of CalGray 0 gives 4", &page(&[cal_gray(0, 0)]));
    maker.validate("Gamma of CalRGB 0 gives 5", &page(&[cal_rgb(0, [0; 3])]));
    let (most, more) = (MOST_BLOCKS, MOST_BLOCKS + 1);
    maker.validate(&format!("{most} blocks are judged"), &all_free(most));
    maker.validate(&format!("{more} blocks give 1"), &all_free(more));
    maker.validate("65 blocks are judged", &all_free(65));
    maker.validate("amin = amax is fine", &page(&[lab(0, [5, 5, 0, 1])]));
}

/// The listing of the CalGray page alone, and of a refused one.
fn listing(maker: &mut Maker) {
    let gray = page(&[cal_gray(0, ONE)]);
    maker.validate_and_list("the CalGray page of the paper", &gray);
    let mut damaged = gray;
    damaged[511] ^= 1;
    maker.validate_and_list("the CalGray page with a wrong check", &damaged);
}

/// What is easy to get wrong: each reply differs from the wrong rule's, but for the index below -0.5.
fn easy_to_get_wrong(maker: &mut Maker) {
    let usual = page(&[lab(0, USUAL)]);
    let seam = [8 * ONE, -ONE, 0];
    maker.colour("at L* 8, a* -1 the first is not cubed", &usual, 0, &seam);
    let label = "-0.500001 picks row 0, on a page";
    maker.colour(label, &counting(3), 0, &[-500_001]);
    let ends = indexed_run(0, 2, 0, &[0xff, 0, 0xff]);
    let ranged = page(&[&ends[..], &[lab(2, [-50 * ONE, 0, 0, 25 * ONE])]].concat());
    let label = "palette bytes FF 00 FF of a Lab base are 100, amin and bmax";
    maker.colour(label, &ranged, 0, &[0]);
    let plain = page(&[cal_rgb(0, [ONE; 3])]);
    let label = "the first three numbers of the matrix belong to A";
    maker.colour(label, &plain, 0, &[ONE, 0, 0]);
    let wide = separation(0, DEVICE_GRAY, 1, [-ONE, 0, 0, 0], [3 * ONE, 0, 0, 0]);
    let label = "tint 0.375 of -1 to 3, the result is limited, not C0 and C1";
    maker.colour(label, &page(&[wide]), 0, &[375_000]);
}
