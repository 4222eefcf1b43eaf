//! Judging pages, against a slow second judge that collects every fault and then takes the first.

mod common;

use common::*;
use reference::block::{Body, BLOCK, DEVICE_CMYK, DEVICE_GRAY, DEVICE_RGB, MOST_BLOCKS};
use reference::colour::evaluate;
use reference::generate::device_n::{damage_device_n, random_device_n_page_of};
use reference::generate::programs::{damage_program_page, random_program_page_of};
use reference::generate::{damage, random_page, Rng};
use reference::numbers::ONE;
use reference::page::{components, spaces, validate, Family};

/// How many broken pages are judged: fewer where the tests are not built for speed.
const ROUNDS: usize = if cfg!(debug_assertions) {
    6_000
} else {
    30_000
};

/// Every fault of a page as (pass, block, number), found byte by byte.
fn faults(page: &[u8]) -> Vec<(u32, u32, u32)> {
    if page.len() / 512 * 512 != page.len() || page.is_empty() || page.len() > MOST_BLOCKS * 512 {
        return vec![(0, 0, 1)];
    }
    let count = page.len() / 512;
    let byte = |n: usize, i: usize| i128::from(page[512 * n + i]);
    let two = |n: usize, i: usize| byte(n, i) * 256 + byte(n, i + 1);
    let four = |n: usize, i: usize| {
        let v = two(n, i) * 65536 + two(n, i + 2);
        if v >= 1 << 31 {
            v - (1 << 32)
        } else {
            v
        }
    };
    // The component count and kind of a reference: kind 0 for a device, none where there is no space.
    let space = |reference: i128| match reference {
        0xff01 => Some((1, 0)),
        0xff03 => Some((3, 0)),
        0xff04 => Some((4, 0)),
        _ if reference < count as i128 => match byte(reference as usize, 0) {
            kind @ (1 | 4 | 5) => Some((1, kind)),
            kind @ (2 | 3) => Some((3, kind)),
            8 => Some((byte(reference as usize, 6), 8)),
            _ => None,
        },
        _ => None,
    };
    let mut found = Vec::new();
    let mut in_a_run = vec![false; count];
    for n in 0..count {
        let mut fault = |pass, number| found.push((pass, n as u32, number));
        let plain: i128 = (0..508).map(|i| byte(n, i)).sum();
        let weighted: i128 = (0..508).map(|i| (508 - i as i128) * byte(n, i)).sum();
        if two(n, 508) != plain % 65535 || two(n, 510) != weighted % 65535 {
            fault(1, 2);
        }
        let kind = byte(n, 0);
        let named: &[std::ops::Range<usize>] = match kind {
            1 => &[4..16, 16..28, 28..32],
            2 => &[4..16, 16..28, 28..40, 40..76],
            3 => &[4..16, 16..28, 28..44],
            4 => &[4..6, 6..8],
            5 => &[4..6, 6..7, 7..8, 8..136, 136..152, 152..168],
            6 | 7 => &[4..100, 100..508],
            8 => &[4..6, 6..7, 8..508],
            _ => &[],
        };
        let unnamed = (4..508).any(|i| byte(n, i) != 0 && !named.iter().any(|r| r.contains(&i)));
        if kind > 8 || byte(n, 1) != 0 || two(n, 2) != n as i128 || unnamed {
            fault(1, 3);
        }
        if kind == 5 {
            let length = byte(n, 7) as usize;
            let bad = (0..128).any(|i| (byte(n, 8 + i) != 0) != (i < length));
            if !(1..=127).contains(&length) || bad {
                fault(1, 3);
            }
        }
        let mut names: Vec<Vec<i128>> = Vec::new();
        if kind == 8 {
            // Every name by its length, as far as the block goes; then zeros.
            let mut at = 8;
            let mut bad = !(1..=8).contains(&byte(n, 6));
            for _ in 0..byte(n, 6) {
                let length = if at < 508 { byte(n, at) as usize } else { 0 };
                let name: Vec<i128> = (at + 1..at + 1 + length)
                    .map(|i| if i < 508 { byte(n, i) } else { 0 })
                    .collect();
                bad |= name.is_empty() || name.len() > 48 || name.contains(&0);
                at += 1 + length;
                names.push(name);
            }
            if bad || (at..508).any(|i| byte(n, i) != 0) {
                fault(1, 3);
            }
            let letters = |word: &[u8]| -> Vec<i128> { word.iter().map(|b| (*b).into()).collect() };
            let mut others: Vec<_> = names.iter().filter(|v| **v != letters(b"None")).collect();
            let all = others.len();
            others.sort();
            others.dedup();
            if others.len() < all || others.contains(&&letters(b"All")) {
                fault(2, 4);
            }
        }
        if (1..=3).contains(&kind) {
            if four(n, 4) <= 0 || four(n, 8) != 1_000_000 || four(n, 12) <= 0 {
                fault(2, 4);
            }
            if [16, 20, 24].iter().any(|at| four(n, *at) < 0) {
                fault(2, 4);
            }
        }
        let house = |v: i128| v % 100_000 == 0 && (1..=40).contains(&(v / 100_000));
        match kind {
            1 => {
                if four(n, 28) <= 0 {
                    fault(2, 4);
                }
                if !house(four(n, 28)) {
                    fault(2, 5);
                }
            }
            2 if [28, 32, 36].iter().any(|at| !house(four(n, *at))) => fault(2, 5),
            3 if four(n, 28) > four(n, 32) || four(n, 36) > four(n, 40) => fault(2, 4),
            4 => {
                let hival = two(n, 6);
                if hival > 255 {
                    fault(2, 4);
                }
                match space(two(n, 4)) {
                    None | Some((_, 4)) => fault(2, 6),
                    Some((m, _)) => {
                        let bytes = m * (hival + 1);
                        let mut run = 0;
                        while run * 504 < bytes {
                            run += 1;
                        }
                        for place in 0..run * 504 {
                            let at = n + 1 + (place / 504) as usize;
                            if at >= count || byte(at, 0) != 6 {
                                fault(2, 7);
                                break;
                            }
                            in_a_run[at] = true;
                            if place >= bytes && byte(at, 4 + (place % 504) as usize) != 0 {
                                fault(2, 7);
                                break;
                            }
                        }
                    }
                }
            }
            5 | 8 => {
                if kind == 5 && byte(n, 6) > 4 {
                    fault(2, 5);
                }
                match space(two(n, 4)) {
                    None | Some((_, 4 | 5 | 8)) => fault(2, 6),
                    Some((m, _)) if kind == 8 || byte(n, 6) == 0 => {
                        let mut text = Vec::new();
                        let mut ill = false;
                        for at in (n + 1..n + 5).take_while(|at| *at < count && byte(*at, 0) == 7) {
                            in_a_run[at] = true;
                            // The text goes on from block to block, so that the block before is full.
                            ill |= text.contains(&0) || byte(at, 4) == 0;
                            text.extend_from_slice(&page[512 * at + 4..512 * at + 508]);
                        }
                        let end = text.iter().position(|b| *b == 0).unwrap_or(text.len());
                        ill |= text.is_empty() || text[end..].iter().any(|b| *b != 0);
                        let taken = if kind == 8 { names.len() } else { 1 };
                        let numbers = kind == 5 && (0..8).any(|k| four(n, 136 + 4 * k) != 0);
                        match reference::program::judge(&text[..end], taken, m as usize) {
                            _ if ill => fault(2, 7),
                            Err(number) => fault(2, number),
                            Ok(_) if numbers => fault(2, 7),
                            Ok(_) => {}
                        }
                    }
                    Some((m, _)) => {
                        let past = (m as usize..4)
                            .any(|k| four(n, 136 + 4 * k) != 0 || four(n, 152 + 4 * k) != 0);
                        if past {
                            fault(2, 7);
                        }
                    }
                }
            }
            6 | 7 if !in_a_run[n] => fault(2, 7),
            _ => {}
        }
    }
    found
}

/// What the slow judge replies.
fn slow(page: &[u8]) -> Result<usize, (u32, u32)> {
    match faults(page).into_iter().min() {
        Some((_, block, number)) => Err((number, block)),
        None => Ok(page.len() / 512),
    }
}

#[test]
fn random_pages_are_accepted_and_hold_every_family() {
    let mut rng = Rng::new(2);
    let mut seen = std::collections::HashMap::new();
    let mut sizes = std::collections::HashSet::new();
    // Enough for every size to come.
    for _ in 0..40 * MOST_BLOCKS {
        let page = random_page(&mut rng);
        assert_eq!(validate(&page), Ok(page.len() / BLOCK));
        assert_eq!(slow(&page), Ok(page.len() / BLOCK));
        sizes.insert(page.len() / BLOCK);
        for (number, family) in spaces(&page) {
            assert_eq!(components(&page, number), Some(family.components()));
            // The chain of families down to the plain one.
            let mut chain = vec![family.name()];
            let mut at = number;
            while let Some(inner) = reference::page::block_at(&page, at as usize)
                .and_then(Body::of)
                .and_then(|body| body.reference())
            {
                at = u32::from(inner);
                chain.push(reference::page::family(&page, at).unwrap().name());
            }
            *seen.entry(chain.join(" ")).or_insert(0) += 1;
        }
    }
    let plain = [
        "DeviceGray",
        "DeviceRGB",
        "DeviceCMYK",
        "CalGray",
        "CalRGB",
        "Lab",
    ];
    for inner in plain {
        for outer in ["Indexed", "Separation", "Indexed Separation"] {
            let chain = format!("{outer} {inner}");
            assert!(seen.contains_key(&chain), "{chain} never made");
        }
    }
    assert_eq!(sizes.len(), MOST_BLOCKS);
}

#[test]
fn damaged_pages_are_judged_alike() {
    let mut rng = Rng::new(3);
    let mut reached = [0; 18];
    let mut last_blocks = 0usize;
    for _ in 0..ROUNDS {
        let mut page = random_page(&mut rng);
        let mut ways = Vec::new();
        for _ in 0..1 + rng.below(3) {
            ways.push(damage(&mut rng, &mut page));
        }
        let expected = slow(&page);
        assert_eq!(validate(&page), expected, "{ways:?}");
        match expected {
            Ok(_) => reached[0] += 1,
            Err((number, block)) => {
                reached[number as usize] += 1;
                last_blocks += usize::from(block > 0);
                assert_eq!(
                    evaluate(&page, u32::from(DEVICE_GRAY), &[]),
                    Err((number, block))
                );
            }
        }
    }
    for (number, count) in reached.iter().enumerate().take(8) {
        assert!(
            *count > ROUNDS / 300,
            "refusal {number} was met {count} times"
        );
    }
    assert!(last_blocks > ROUNDS / 30);
}

#[test]
fn damaged_pages_with_programs_are_judged_alike() {
    let mut rng = Rng::new(15);
    let mut reached = [0; 18];
    for _ in 0..ROUNDS / 10 {
        let blocks = 1 + rng.below(16);
        let mut page = random_program_page_of(&mut rng, blocks);
        let mut ways = Vec::new();
        for _ in 0..rng.below(3) {
            ways.push(damage_program_page(&mut rng, &mut page));
        }
        if rng.once_in(4) {
            ways.push(damage(&mut rng, &mut page));
        }
        let expected = slow(&page);
        assert_eq!(validate(&page), expected, "{ways:?}");
        let number = expected.err().map_or(0, |(number, _)| number);
        reached[number as usize] += 1;
    }
    for number in [0, 2, 3, 5, 6, 7, 16, 17] {
        let count = reached[number];
        assert!(count > 5, "refusal {number} was met {count} times");
    }
}

#[test]
fn damaged_pages_with_device_n_are_judged_alike() {
    let mut rng = Rng::new(18);
    let mut reached = [0; 18];
    for _ in 0..ROUNDS / 10 {
        let blocks = 2 + rng.below(16);
        let mut page = random_device_n_page_of(&mut rng, blocks);
        assert_eq!(validate(&page), Ok(blocks));
        assert_eq!(slow(&page), Ok(blocks));
        let mut ways = Vec::new();
        for _ in 0..rng.below(3) {
            ways.push(damage_device_n(&mut rng, &mut page));
        }
        if rng.once_in(3) {
            ways.push(damage_program_page(&mut rng, &mut page));
        }
        if rng.once_in(4) {
            ways.push(damage(&mut rng, &mut page));
        }
        let expected = slow(&page);
        assert_eq!(validate(&page), expected, "{ways:?}");
        let number = expected.err().map_or(0, |(number, _)| number);
        reached[number as usize] += 1;
    }
    for number in [0, 2, 3, 4, 6, 7, 16, 17] {
        let count = reached[number];
        assert!(count > 5, "refusal {number} was met {count} times");
    }
}

#[test]
fn every_damage_is_named() {
    let mut rng = Rng::new(4);
    for way in 0..reference::generate::WAYS {
        let mut refusals = 0;
        let mut name = "";
        for _ in 0..200 {
            let mut page = reference::generate::random_page_of(&mut rng, 40);
            name = reference::generate::damage_by(&mut rng, &mut page, way);
            refusals += u32::from(validate(&page).is_err());
        }
        assert!(refusals > 5, "{name} was refused {refusals} times");
        // Nothing is missed on pages that have no room for the damage.
        let mut empty = Vec::new();
        reference::generate::damage_by(&mut rng, &mut empty, way);
    }
}

#[test]
fn a_block_reads_2_before_3_and_a_lower_block_first() {
    let free: Vec<_> = (0..4).map(|n| record(n, Body::Free)).collect();
    let good = page(&free);
    // Block 1 has form fault 3, block 2 a wrong check: block 1's 3 is found first.
    let mut both = good.clone();
    both[BLOCK + 9] = 1;
    reference::generate::repair(&mut both, 1);
    both[2 * BLOCK + 511] ^= 1;
    assert_eq!(validate(&both), Err((3, 1)));
    // In one block: 2 before 3.
    both[BLOCK + 511] ^= 1;
    assert_eq!(validate(&both), Err((2, 1)));
    // Every 2 and 3 comes before any 4: block 0's gamma against block 3's check.
    let mut later = page_with(
        &[record(0, cal_gray(ONE)), record(1, Body::Free)],
        0,
        |block| block[28..32].fill(0),
    );
    assert_eq!(validate(&later), Err((4, 0)));
    later[BLOCK + 1] = 1;
    assert_eq!(validate(&later), Err((2, 1)));
    reference::generate::repair(&mut later, 1);
    assert_eq!(validate(&later), Err((3, 1)));
}

#[test]
fn references_look_at_the_kind_alone() {
    // A Separation whose alternate has a bad gamma: 6 is not given; the gamma is found in its own turn.
    let faulty = page_with(
        &[
            separation(0, 1, 1, [0; 4], [0; 4]),
            record(1, cal_gray(ONE)),
        ],
        1,
        |block| block[28..32].copy_from_slice(&1_850_000i32.to_be_bytes()),
    );
    assert_eq!(validate(&faulty), Err((5, 1)));
    let over = |kind: Body| {
        page(&[
            separation(0, 1, 1, [0; 4], [0; 4]),
            record(1, kind),
            record(2, Body::Palette),
        ])
    };
    assert_eq!(validate(&over(Body::Free)), Err((6, 0)));
    assert_eq!(
        validate(&over(Body::Indexed {
            base: DEVICE_GRAY,
            hival: 9
        })),
        Err((6, 0))
    );
    assert_eq!(validate(&over(cal_gray(ONE))), Err((7, 2)));
    // Itself, another Separation, a palette, no block of the page.
    for alternate in [0, 1, 3, 4, 5, MOST_BLOCKS as u16 - 1] {
        let page = page(&[
            separation(0, alternate, 1, [0; 4], [0; 4]),
            separation(1, DEVICE_RGB, 1, [0; 4], [0; 4]),
            record(
                2,
                Body::Indexed {
                    base: DEVICE_GRAY,
                    hival: 0,
                },
            ),
            palette(3, &[1]),
            record(4, Body::Free),
        ]);
        assert_eq!(validate(&page), Err((6, 0)), "alternate {alternate}");
    }
    // An Indexed base: a Separation is permitted, an Indexed one is not, itself neither.
    for (base, expected) in [
        (2, Ok(4)),
        (3, Err((6, 0))),
        (0, Err((6, 0))),
        (1, Err((6, 0))),
    ] {
        let page = page(&[
            record(0, Body::Indexed { base, hival: 0 }),
            palette(1, &[1]),
            separation(2, DEVICE_CMYK, 1, [0; 4], [1; 4]),
            record(3, Body::Free),
        ]);
        assert_eq!(validate(&page), expected, "base {base}");
    }
}

#[test]
fn palettes_and_entries_are_7() {
    let indexed =
        |number: u16, base: u16, hival: u16| record(number, Body::Indexed { base, hival });
    // A run that ends in the next Indexed block, and one that ends with the page.
    let short = page(&[
        indexed(0, DEVICE_RGB, 168),
        palette(1, &[1; 504]),
        indexed(2, DEVICE_GRAY, 0),
        palette(3, &[1]),
    ]);
    assert_eq!(validate(&short), Err((7, 0)));
    assert_eq!(validate(&short[..2 * BLOCK]), Err((7, 0)));
    // 168 rows of three fill one block, 169 do not; a second palette block is then astray.
    let full = page(&[
        indexed(0, DEVICE_RGB, 167),
        palette(1, &[1; 504]),
        palette(2, &[]),
    ]);
    assert_eq!(validate(&full[..2 * BLOCK]), Ok(2));
    assert_eq!(validate(&full), Err((7, 2)));
    assert_eq!(validate(&page(&[palette(0, &[])])), Err((7, 0)));
    // Entries past the alternate's count.
    for (alternate, count) in [(DEVICE_GRAY, 1), (DEVICE_RGB, 3), (DEVICE_CMYK, 4)] {
        for k in 0..4 {
            for second in [false, true] {
                let mut c = [[0; 4]; 2];
                c[usize::from(second)][k] = 1;
                let page = page(&[separation(0, alternate, 1, c[0], c[1])]);
                let expected = if k < count { Ok(1) } else { Err((7, 0)) };
                assert_eq!(validate(&page), expected);
            }
        }
    }
}

#[test]
fn families_and_counts() {
    assert_eq!(components(&[], 0xff01), Some(1));
    assert_eq!(components(&[], 0xff03), Some(3));
    assert_eq!(components(&[], 0xff04), Some(4));
    assert_eq!(components(&[], 0xff02), None);
    assert_eq!(components(&[], u32::MAX), None);
    let of_kind = |kind| {
        let mut block = [0; BLOCK];
        (block[0], block[6]) = (kind, 5);
        Family::of_block(&block)
    };
    let families: Vec<_> = (0..=255).filter_map(of_kind).collect();
    let names: Vec<_> = families.iter().map(|family| family.name()).collect();
    assert_eq!(
        names,
        [
            "CalGray",
            "CalRGB",
            "Lab",
            "Indexed",
            "Separation",
            "DeviceN"
        ]
    );
    assert_eq!(families[5].components(), 5);
}
