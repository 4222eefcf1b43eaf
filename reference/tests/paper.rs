//! Every number that the paper states "on either side of the line", and elsewhere.

mod common;

use common::*;
use reference::block::{sums, Body, Record, BLOCK, DEVICE_CMYK, DEVICE_GRAY, DEVICE_RGB};
use reference::cie::Answer;
use reference::colour::evaluate;
use reference::listing::list;
use reference::numbers::{float_of, read_two, ONE};
use reference::page::validate;
use reference::recipe::recipe_of;

const XYZ_WHITE: Answer = Answer::Xyz([0.9505, 1.0, 1.089]);
const XYZ_ZERO: Answer = Answer::Xyz([0.0; 3]);

fn check_of(record: &Record) -> (u16, u16) {
    let block = block(record);
    let stored = (read_two(&block, 508), read_two(&block, 510));
    assert_eq!(stored, sums(&block));
    stored
}

#[test]
fn checks() {
    assert_eq!(check_of(&record(5, Body::Free)), (5, 2525));
    assert_eq!(check_of(&record(0, cal_gray(ONE))), (1066, 3030));
    // A block full of FF: its sums pass 65535 and are reduced.
    let full = [0xff; BLOCK];
    // 129540 and 32967930 before that.
    assert_eq!(sums(&full), (64_005, 3_825));
}

#[test]
fn each_byte_has_its_weight() {
    // The check's own four have none.
    for i in 0..BLOCK {
        let mut block = [0; BLOCK];
        block[i] = 255;
        let weight = 508u64.saturating_sub(i as u64);
        let plain = if i < 508 { 255 } else { 0 };
        assert_eq!(sums(&block), (plain, (weight * 255 % 65535) as u16));
    }
}

#[test]
fn an_all_zero_block_is_an_accepted_page_of_no_spaces() {
    let page = [0; BLOCK];
    assert_eq!(validate(&page), Ok(1));
    assert_eq!(list(&page), "blocks 1\n");
}

#[test]
fn cal_gray_white_and_below() {
    let page = page(&[record(0, cal_gray(ONE))]);
    assert_eq!(evaluate(&page, 0, &[ONE]), kept(XYZ_WHITE));
    assert_eq!(evaluate(&page, 0, &[-3 * ONE]), moved(XYZ_ZERO));
    assert_eq!(evaluate(&page, 0, &[7 * ONE]), moved(XYZ_WHITE));
    assert_eq!(list(&page), "blocks 1\n0 CalGray 1 9\n");
}

#[test]
fn lab_white_black_and_seam() {
    let page = page(&[record(0, usual_lab())]);
    assert_eq!(evaluate(&page, 0, &[100 * ONE, 0, 0]), kept(XYZ_WHITE));
    assert_eq!(evaluate(&page, 0, &[0, 0, 0]), kept(XYZ_ZERO));
    let third = |whole: f64, below: f64| {
        let x = whole / below;
        (x * x) * x
    };
    assert_eq!(
        evaluate(&page, 0, &[8 * ONE, 0, 0]),
        kept(Answer::Xyz([
            0.9505 * third(3e9, 14.5e9),
            third(24e6, 116e6),
            1.089 * third(1.2e9, 5.8e9)
        ]))
    );
    assert_eq!(
        evaluate(&page, 0, &[7_999_999, 0, 0]),
        kept(Answer::Xyz([
            0.9505 * (107_999_986_500.0 / 12_194_500_000_000.0),
            863_999_892.0 / 97_556_000_000.0,
            1.089 * (43_199_994_600.0 / 4_877_800_000_000.0)
        ]))
    );
    // At L* 8, a* -1 the first is not cubed, the others are.
    assert_eq!(
        evaluate(&page, 0, &[8 * ONE, -ONE, 0]),
        kept(Answer::Xyz([
            0.9505 * (104_868_000_000.0 / 12_194_500_000_000.0),
            third(24e6, 116e6),
            1.089 * third(1.2e9, 5.8e9)
        ]))
    );
    // a* and b* are limited by the range before anything else.
    let ends = evaluate(&page, 0, &[100 * ONE, -100 * ONE, 100 * ONE]).unwrap();
    assert!(!ends.moved);
    assert_eq!(
        evaluate(&page, 0, &[500 * ONE, -500 * ONE, i32::MAX]),
        moved(ends.answer)
    );
    // amin = amax: fine.
    let narrow = common::page(&[record(0, lab([5, 5, -5, -5]))]);
    assert_eq!(validate(&narrow), Ok(1));
}

/// An Indexed space over Gray whose row r has the byte r.
fn counting(hival: u16) -> Vec<u8> {
    let bytes: Vec<u8> = (0..=hival).map(|row| row as u8).collect();
    page(&[
        record(
            0,
            Body::Indexed {
                base: DEVICE_GRAY,
                hival,
            },
        ),
        palette(1, &bytes),
    ])
}

#[test]
fn indices() {
    let row = |r: i64| Answer::Gray(float_of(((r * 1_000_000 * 2 + 255) / 510) as i32));
    for hival in [3, 4, 254, 255] {
        let page = counting(hival);
        assert_eq!(validate(&page), Ok(2));
        assert_eq!(evaluate(&page, 0, &[2_500_000]), kept(row(3)));
        assert_eq!(evaluate(&page, 0, &[-500_000]), kept(row(0)));
        assert_eq!(evaluate(&page, 0, &[-500_001]), moved(row(0)));
        let last = row(i64::from(hival));
        assert_eq!(evaluate(&page, 0, &[i32::MAX]), moved(last));
    }
    let index = [254_500_000];
    assert_eq!(evaluate(&counting(254), 0, &index), moved(row(254)));
    assert_eq!(evaluate(&counting(255), 0, &index), kept(row(255)));
    // Byte B5 over 0..1 gives 709804.
    assert_eq!(
        evaluate(&counting(255), 0, &[0xb5 * ONE]),
        kept(Answer::Gray(0.709804))
    );
}

#[test]
fn tints_before_the_alternates_limits() {
    // C1 beyond 1 and C0 below 0 are kept, and only the result is limited.
    let page = page(&[separation(
        0,
        DEVICE_GRAY,
        1,
        [-ONE, 0, 0, 0],
        [3 * ONE, 0, 0, 0],
    )]);
    assert_eq!(evaluate(&page, 0, &[0]), moved(Answer::Gray(0.0)));
    assert_eq!(evaluate(&page, 0, &[ONE]), moved(Answer::Gray(1.0)));
    // Half of the way from -1 to 3 is 1; were the ends limited first it would be one half.
    assert_eq!(evaluate(&page, 0, &[500_000]), kept(Answer::Gray(1.0)));
    assert_eq!(evaluate(&page, 0, &[375_000]), kept(Answer::Gray(0.5)));
}

#[test]
fn the_largest_indexed_space() {
    let mut records = vec![record(
        0,
        Body::Indexed {
            base: DEVICE_CMYK,
            hival: 255,
        },
    )];
    records.push(palette(1, &[7; 504]));
    records.push(palette(2, &[8; 504]));
    records.push(palette(3, &[9; 16]));
    let mut large = page(&records);
    assert_eq!(validate(&large), Ok(4));
    assert_eq!(recipe_of(&large, 0).unwrap().len(), 1045);
    assert_eq!(list(&large), "blocks 4\n0 Indexed 1 1045\n");
    // One block less, and the run is short; one byte more, and a spare byte is not zero.
    assert_eq!(validate(&large[..3 * BLOCK]), Err((7, 0)));
    records[3] = palette(3, &[9; 17]);
    assert_eq!(validate(&page(&records)), Err((7, 0)));
    // hival 256: 4.
    large[6] = 1;
    large[7] = 0;
    reference::generate::repair(&mut large, 0);
    assert_eq!(validate(&large), Err((4, 0)));
}

#[test]
fn gammas() {
    let with = |gray: i32| {
        page_with(&[record(0, cal_gray(ONE))], 0, |block| {
            block[28..32].copy_from_slice(&gray.to_be_bytes());
        })
    };
    assert_eq!(validate(&with(4 * ONE)), Ok(1));
    assert_eq!(validate(&with(1_800_000)), Ok(1));
    assert_eq!(validate(&with(1_850_000)), Err((5, 0)));
    assert_eq!(validate(&with(4_100_000)), Err((5, 0)));
    assert_eq!(validate(&with(5 * ONE)), Err((5, 0)));
    assert_eq!(validate(&with(0)), Err((4, 0)));
    assert_eq!(validate(&with(-ONE)), Err((4, 0)));
    for place in [28, 32, 36] {
        let with = |gamma: i32| {
            page_with(&[record(0, cal_rgb([ONE; 3]))], 0, |block| {
                block[place..place + 4].copy_from_slice(&gamma.to_be_bytes());
            })
        };
        assert_eq!(validate(&with(4 * ONE)), Ok(1));
        assert_eq!(validate(&with(0)), Err((5, 0)));
        assert_eq!(validate(&with(-ONE)), Err((5, 0)));
        assert_eq!(validate(&with(1_800_000)), Ok(1));
        assert_eq!(validate(&with(1_850_000)), Err((5, 0)));
        assert_eq!(validate(&with(4_100_000)), Err((5, 0)));
    }
}

#[test]
fn page_lengths() {
    let free = |count: u16| {
        page(
            &(0..count)
                .map(|n| record(n, Body::Free))
                .collect::<Vec<_>>(),
        )
    };
    // "128 blocks are judged and 129 are 1" (2026-09).
    assert_eq!(validate(&free(64)), Ok(64));
    assert_eq!(validate(&free(65)), Ok(65));
    assert_eq!(validate(&free(128)), Ok(128));
    let mut long = free(128);
    long.extend([0; BLOCK]);
    assert_eq!(validate(&long), Err((1, 0)));
    assert_eq!(validate(&[]), Err((1, 0)));
    assert_eq!(validate(&[0; 511]), Err((1, 0)));
    assert_eq!(validate(&[0; 513]), Err((1, 0)));
}

#[test]
fn recipe_lengths_and_words() {
    let page = page(&[
        record(0, cal_gray(2 * ONE)),
        record(1, cal_rgb([ONE, 2 * ONE, 3 * ONE])),
        record(2, lab([-7, 8, -9, 10])),
        separation(3, 2, 4, [1, 2, 3, 0], [4, 5, 6, 0]),
        separation(4, DEVICE_CMYK, 1, [1, 2, 3, 4], [5, 6, 7, 8]),
        record(5, Body::Indexed { base: 3, hival: 2 }),
        palette(6, &[0, 51, 255]),
        record(7, Body::Indexed { base: 2, hival: 0 }),
        palette(8, &[51, 0, 255]),
    ]);
    assert_eq!(validate(&page), Ok(9));
    let words = |number: u32| recipe_of(&page, number).unwrap();
    let gray = vec![1, 1, 0, 0, ONE, 4];
    let rgb = vec![3, 1, 0, 0, ONE, 1, 1, 0, ONE, 1, 2, 0, ONE, 5];
    let cmyk = vec![4, 1, 0, 0, ONE, 1, 1, 0, ONE, 1, 2, 0, ONE, 1, 3, 0, ONE, 6];
    assert_eq!(words(DEVICE_GRAY.into()), gray);
    assert_eq!(words(DEVICE_RGB.into()), rgb);
    assert_eq!(words(DEVICE_CMYK.into()), cmyk);
    assert_eq!((gray.len(), rgb.len(), cmyk.len()), (6, 14, 18));
    assert_eq!(words(0), [1, 1, 0, 0, ONE, 7, 950_500, 1_089_000, 2 * ONE]);
    assert_eq!(words(0).len(), 9);
    assert_eq!(
        words(1),
        [
            3,
            1,
            0,
            0,
            ONE,
            1,
            1,
            0,
            ONE,
            1,
            2,
            0,
            ONE,
            8,
            ONE,
            2 * ONE,
            3 * ONE,
            11,
            12,
            13,
            21,
            22,
            23,
            31,
            32,
            33
        ]
    );
    assert_eq!(words(1).len(), 26);
    let lab_tail = [
        1,
        0,
        0,
        100 * ONE,
        1,
        1,
        -7,
        8,
        1,
        2,
        -9,
        10,
        9,
        950_500,
        1_089_000,
    ];
    assert_eq!(words(2), [&[3][..], &lab_tail].concat());
    assert_eq!(words(2).len(), 16);
    let gold = [3, 4, 3, 1, 2, 3, 4, 5, 6];
    assert_eq!(words(3), [&[1][..], &gold, &lab_tail].concat());
    assert_eq!(words(3).len(), 16 + 3 + 2 * 3);
    assert_eq!(
        words(4),
        [&[1, 3, 1, 4, 1, 2, 3, 4, 5, 6, 7, 8][..], &cmyk[1..]].concat()
    );
    assert_eq!(words(4).len(), 18 + 3 + 2 * 4);
    assert_eq!(
        words(5),
        [&[1, 2, 1, 2, 0, 200_000, ONE][..], &gold, &lab_tail].concat()
    );
    assert_eq!(words(5).len(), 25 + 3 + 3);
    // A Lab base: a fifth of 0..100, all of amin, all of bmax.
    assert_eq!(
        words(7),
        [&[1, 2, 3, 0, 20 * ONE, -7, 10][..], &lab_tail].concat()
    );
    assert_eq!(
        list(&page),
        "blocks 9\n0 CalGray 1 9\n1 CalRGB 3 26\n2 Lab 3 16\n3 Separation 1 25\n\
         4 Separation 1 29\n5 Indexed 1 31\n7 Indexed 1 22\n"
    );
}

#[test]
fn a_refused_page_is_listed_in_one_line() {
    let mut page = page(&[record(0, cal_gray(ONE))]);
    page[511] ^= 1;
    assert_eq!(list(&page), "refused 2 block 0\n");
    assert_eq!(list(&[]), "refused 1 block 0\n");
}

#[test]
fn the_matrix_is_not_transposed() {
    let mut body = cal_rgb([ONE; 3]);
    if let Body::CalRgb { matrix, .. } = &mut body {
        *matrix = [1, 2, 3, 4, 5, 6, 7, 8, 9].map(|v| v * 100_000);
    }
    let page = page(&[record(0, body)]);
    assert_eq!(
        evaluate(&page, 0, &[ONE, 0, 0]),
        kept(Answer::Xyz([0.1, 0.2, 0.3]))
    );
    assert_eq!(
        evaluate(&page, 0, &[0, 0, 9 * ONE]),
        moved(Answer::Xyz([0.7, 0.8, 0.9]))
    );
}
