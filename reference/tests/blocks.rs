//! Single blocks: every refusal of writing and reading, their order, and round trips.

mod common;

use common::*;
use reference::block::{
    read_block, write_block, Body, Record, BLOCK, DEVICE_GRAY, DEVICE_RGB, MOST_BLOCKS,
};
use reference::generate::{random_lone_record, repair, Rng};
use reference::numbers::ONE;

/// The least number that no block has.
const MOST: u16 = MOST_BLOCKS as u16;

/// What writing replies, having looked that a refusal altered nothing.
fn written(record: &Record) -> Result<(), u32> {
    let mut lent = [0x5a; BLOCK];
    let reply = write_block(record, &mut lent);
    if reply.is_err() {
        assert_eq!(lent, [0x5a; BLOCK]);
    }
    reply
}

/// What reading replies after a change by hand with the check repaired.
fn changed(record: &Record, change: impl Fn(&mut [u8])) -> Result<Record, u32> {
    let mut block = block(record);
    change(&mut block);
    repair(&mut block, 0);
    read_block(&block)
}

fn gold() -> Record {
    separation(9, DEVICE_RGB, 2, [1, 2, 3, 4], [5, 6, 7, 8])
}

fn indexed(base: u16, hival: u16) -> Record {
    record(3, Body::Indexed { base, hival })
}

#[test]
fn room_of_another_length_is_10() {
    for length in [0, 1, 511, 513, 1024] {
        let mut lent = vec![0x5a; length];
        assert_eq!(write_block(&gold(), &mut lent), Err(10));
        assert!(lent.iter().all(|byte| *byte == 0x5a));
        assert_eq!(read_block(&lent), Err(10));
        // 10 comes before every other refusal.
        assert_eq!(write_block(&record(MOST, cal_gray(0)), &mut lent), Err(10));
    }
}

#[test]
fn writing_refuses_forms_with_3() {
    assert_eq!(written(&record(MOST - 1, Body::Free)), Ok(()));
    assert_eq!(written(&record(MOST, Body::Free)), Err(3));
    assert_eq!(written(&record(u16::MAX, Body::Free)), Err(3));
    for body in [
        Body::Free,
        cal_gray(ONE),
        cal_rgb([ONE; 3]),
        usual_lab(),
        indexed(0, 0).body,
    ] {
        for place in [0, 127, 128, 503] {
            let mut made = record(0, body);
            assert_eq!(written(&made), Ok(()));
            made.bytes[place] = 1;
            assert_eq!(written(&made), Err(3));
        }
    }
    // A palette and a program may use all their bytes, a name none past its length.
    for body in [Body::Palette, Body::Program] {
        let mut made = record(0, body);
        made.bytes = [255; 504];
        assert_eq!(written(&made), Ok(()));
    }
    for place in [4, 126, 127, 128, 503] {
        let mut made = gold();
        made.bytes[place] = 1;
        assert_eq!(written(&made), Err(3));
    }
    let mut made = gold();
    made.bytes[2] = 0;
    assert_eq!(written(&made), Err(3));
    for (length, expected) in [
        (0u8, Err(3)),
        (1, Ok(())),
        (127, Ok(())),
        (128, Err(3)),
        (255, Err(3)),
    ] {
        let mut made = gold();
        made.bytes[..128].fill(0);
        made.bytes[..usize::from(length).min(128)].fill(b'a');
        if let Body::Separation { name_length, .. } = &mut made.body {
            *name_length = length;
        }
        assert_eq!(written(&made), expected);
    }
}

#[test]
fn writing_refuses_numbers_with_4_and_5() {
    for (x, y, z, expected) in [
        (1, ONE, 1, Ok(())),
        (0, ONE, 1, Err(4)),
        (-1, ONE, 1, Err(4)),
        (1, ONE, 0, Err(4)),
        (1, ONE, i32::MIN, Err(4)),
        (1, ONE - 1, 1, Err(4)),
        (1, ONE + 1, 1, Err(4)),
    ] {
        for mut body in [cal_gray(ONE), cal_rgb([ONE; 3]), usual_lab()] {
            match &mut body {
                Body::CalGray { white, .. }
                | Body::CalRgb { white, .. }
                | Body::Lab { white, .. } => *white = [x, y, z],
                _ => {}
            }
            assert_eq!(written(&record(0, body)), expected);
        }
    }
    for place in 0..3 {
        for mut body in [cal_gray(ONE), cal_rgb([ONE; 3]), usual_lab()] {
            match &mut body {
                Body::CalGray { black, .. }
                | Body::CalRgb { black, .. }
                | Body::Lab { black, .. } => black[place] = -1,
                _ => {}
            }
            assert_eq!(written(&record(0, body)), Err(4));
        }
    }
    assert_eq!(written(&record(0, cal_gray(0))), Err(4));
    assert_eq!(written(&record(0, cal_gray(-1))), Err(4));
    assert_eq!(written(&record(0, cal_gray(1))), Err(5));
    assert_eq!(written(&record(0, cal_gray(5 * ONE))), Err(5));
    assert_eq!(written(&record(0, cal_rgb([ONE, 4 * ONE, 0]))), Err(5));
    assert_eq!(written(&record(0, lab([0, 0, 1, 1]))), Ok(()));
    assert_eq!(written(&record(0, lab([1, 0, 1, 1]))), Err(4));
    assert_eq!(written(&record(0, lab([0, 0, 1, -1]))), Err(4));
    assert_eq!(written(&indexed(0, 255)), Ok(()));
    assert_eq!(written(&indexed(0, 256)), Err(4));
    assert_eq!(written(&indexed(0, 0xffff)), Err(4));
    // An exponent of 0 means a program, which is not looked at here.
    for (exponent, expected) in [(0, Ok(())), (1, Ok(())), (4, Ok(())), (5, Err(5))] {
        assert_eq!(
            written(&separation(0, DEVICE_GRAY, exponent, [1; 4], [2; 4])),
            expected
        );
    }
}

#[test]
fn writing_refuses_references_with_6_and_never_with_7() {
    for (reference, expected) in [
        (0, Ok(())),
        (MOST - 1, Ok(())),
        (MOST, Err(6)),
        (0xff00, Err(6)),
        (0xff01, Ok(())),
        (0xff02, Err(6)),
        (0xff03, Ok(())),
        (0xff04, Ok(())),
        (0xff05, Err(6)),
        (0xffff, Err(6)),
    ] {
        assert_eq!(written(&indexed(reference, 5)), expected);
        assert_eq!(
            written(&separation(0, reference, 1, [1; 4], [2; 4])),
            expected
        );
    }
}

#[test]
fn the_order_of_writing() {
    // Own number (3) before a gamma of 0 (4); white (4) before gamma (5); hival (4) and exponent (5) before 6.
    assert_eq!(written(&record(MOST, cal_gray(0))), Err(3));
    let mut body = cal_gray(5 * ONE);
    if let Body::CalGray { black, .. } = &mut body {
        black[2] = -1;
    }
    assert_eq!(written(&record(0, body)), Err(4));
    assert_eq!(written(&indexed(MOST, 256)), Err(4));
    assert_eq!(written(&separation(0, MOST, 5, [0; 4], [0; 4])), Err(5));
}

#[test]
fn reading_refuses_the_check_with_2_first() {
    for place in 0..BLOCK {
        let mut block = block(&gold());
        block[place] ^= 0x10;
        assert_eq!(read_block(&block), Err(2), "byte {place}");
    }
    // FFFF stored where 0 is due differs.
    let mut zero = [0; BLOCK];
    assert!(read_block(&zero).is_ok());
    zero[508] = 0xff;
    zero[509] = 0xff;
    assert_eq!(read_block(&zero), Err(2));
}

#[test]
fn reading_refuses_forms_with_3() {
    // Kind 8 has no names here, the kinds after it are unknown.
    for kind in 8..=255 {
        assert_eq!(
            changed(&record(0, Body::Free), |block| block[0] = kind),
            Err(3)
        );
    }
    // Byte 1, the own number, and the first byte past what each kind names.
    for (made, first, last) in [
        (record(1, Body::Free), 4, 507),
        (record(1, cal_gray(ONE)), 32, 507),
        (record(1, cal_rgb([ONE; 3])), 76, 507),
        (record(1, usual_lab()), 44, 507),
        (indexed(0, 0), 8, 507),
        (gold(), 168, 507),
        (gold(), 12, 135),
    ] {
        assert_eq!(changed(&made, |block| block[1] = 1), Err(3));
        assert_eq!(changed(&made, |block| block[2] = 1), Err(3));
        assert_eq!(changed(&made, |block| block[3] = MOST as u8), Err(3));
        for place in first..=last {
            assert_eq!(
                changed(&made, |block| block[place] = 1),
                Err(3),
                "byte {place}"
            );
        }
    }
    assert_eq!(changed(&palette(1, &[]), |block| block[1] = 1), Err(3));
    assert_eq!(
        changed(&palette(1, &[]), |block| block[3] = MOST as u8),
        Err(3)
    );
    for length in [0, 3, 5, 128, 255] {
        assert_eq!(changed(&gold(), |block| block[7] = length), Err(3));
    }
    for place in 8..12 {
        assert_eq!(changed(&gold(), |block| block[place] = 0), Err(3));
    }
}

#[test]
fn reading_refuses_numbers_and_references_as_writing_does() {
    assert_eq!(
        changed(&record(0, cal_gray(ONE)), |block| block[31] += 1),
        Err(5)
    );
    assert_eq!(
        changed(&record(0, cal_gray(ONE)), |block| block[28..32].fill(0)),
        Err(4)
    );
    assert_eq!(
        changed(&record(0, cal_gray(ONE)), |block| block[4] = 0x80),
        Err(4)
    );
    assert_eq!(changed(&indexed(0, 0), |block| block[6] = 1), Err(4));
    assert_eq!(changed(&indexed(0, 0), |block| block[4] = 1), Err(6));
    assert_eq!(changed(&gold(), |block| block[6] = 5), Err(5));
    assert_eq!(changed(&gold(), |block| block[5] = 2), Err(6));
}

#[test]
fn random_records_are_read_back() {
    let mut rng = Rng::new(1);
    let mut kinds = vec![0; 9];
    for _ in 0..20_000 {
        let number = rng.below(MOST_BLOCKS) as u16;
        let made = random_lone_record(&mut rng, number);
        let mut lent = [rng.next() as u8; BLOCK];
        assert_eq!(write_block(&made, &mut lent), Ok(()));
        let read = read_block(&lent);
        assert_eq!(read, Ok(made));
        kinds[usize::from(made.body.kind())] += 1;
        // One changed byte with its check repaired: refused, or written back as it stands.
        let mut other = lent;
        other[rng.below(508)] ^= 1 << rng.below(8);
        repair(&mut other, 0);
        if let Ok(record) = read_block(&other) {
            let mut again = [0; BLOCK];
            assert_eq!(write_block(&record, &mut again), Ok(()));
            assert_eq!(again, other);
        }
    }
    kinds.swap_remove(7);
    assert!(kinds.iter().all(|count| *count > 1_000));
}
