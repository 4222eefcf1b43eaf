//! Document 01, "Numbers", and the roundings of its colour steps.
//!
//! "A record number or colour component is a signed 32-bit count of millionths."

/// One, counted in millionths.
pub const ONE: i32 = 1_000_000;

/// How many values a colour has on its way: "Value places and input counts go to 8" (2026-08).
pub const VALUES: usize = 8;

/// "Numbers are big-endian": the two-byte number at this offset, 0 where the bytes do not reach that far.
pub fn read_two(bytes: &[u8], at: usize) -> u16 {
    match bytes.get(at..).and_then(|rest| rest.first_chunk()) {
        Some(two) => u16::from_be_bytes(*two),
        None => 0,
    }
}

/// "Numbers are big-endian, signed ones in two's complement": the four-byte number at this offset,
/// 0 where the bytes do not reach that far.
pub fn read_four(bytes: &[u8], at: usize) -> i32 {
    match bytes.get(at..).and_then(|rest| rest.first_chunk()) {
        Some(four) => i32::from_be_bytes(*four),
        None => 0,
    }
}

/// Lays a two-byte number at this offset; alters nothing where the bytes do not reach that far.
pub fn write_two(bytes: &mut [u8], at: usize, v: u16) {
    if let Some(two) = bytes.get_mut(at..).and_then(|rest| rest.first_chunk_mut()) {
        *two = v.to_be_bytes();
    }
}

/// Lays a signed four-byte number at this offset; alters nothing where the bytes do not reach that far.
pub fn write_four(bytes: &mut [u8], at: usize, v: i32) {
    if let Some(four) = bytes.get_mut(at..).and_then(|rest| rest.first_chunk_mut()) {
        *four = v.to_be_bytes();
    }
}

/// "Float of v" means v as f64 divided by 1000000.0.
pub fn float_of(v: i32) -> f64 {
    f64::from(v) / 1_000_000.0
}

/// "Half-up rounding means the floor of the exact value plus one half, for negatives too."
/// The exact value is n / d, so this is the floor of (2n + d) / 2d. A d of 0 counts as 1.
pub fn half_up(n: i64, d: u32) -> i64 {
    let n = i128::from(n);
    let d = i128::from(d.max(1));
    (2 * n + d).div_euclid(2 * d) as i64
}

/// "Every component is first taken to the nearest number in range."
/// Should lo be above hi (no accepted record has that), a v below lo gives lo and any other v above hi gives hi.
pub fn limit(v: i32, lo: i32, hi: i32) -> i32 {
    if v < lo {
        lo
    } else if v > hi {
        hi
    } else {
        v
    }
}

/// Document 02: "Limiting a component now also says whether it moved it."
pub fn moves(v: i32, lo: i32, hi: i32) -> bool {
    limit(v, lo, hi) != v
}

/// "The component rounds half up to an integer, then goes to the nearest in 0..hival."
pub fn index(v: i32, hival: u8) -> u8 {
    let rounded = half_up(i64::from(v), 1_000_000);
    rounded.clamp(0, i64::from(hival)) as u8
}

/// Document 02: "so does limiting a rounded index". Rounding by itself moves nothing: what counts is that the integer
/// lies outside 0..hival.
pub fn index_moves(v: i32, hival: u8) -> bool {
    let rounded = half_up(i64::from(v), 1_000_000);
    rounded < 0 || rounded > i64::from(hival)
}

/// "A palette byte v in a range lo..hi (numbers in millionths) gives lo + v(hi - lo)/255, rounded half up."
/// The exact value is (255 lo + v(hi - lo)) / 255, between lo and hi, whichever of the two is the greater.
pub fn palette_value(byte: u8, lo: i32, hi: i32) -> i32 {
    let [v, lo, hi] = [i64::from(byte), i64::from(lo), i64::from(hi)];
    half_up(255 * lo + v * (hi - lo), 255) as i32
}

/// "With tint x in 0..1000000: q = x; each further unit of the exponent makes q the half-up rounding of
/// q * x / 1000000." A tint beyond 0..1000000 is first taken to the nearest end; an exponent of 0 counts as 1.
pub fn tint_power(x: i32, exponent: u8) -> i32 {
    let x = i64::from(limit(x, 0, ONE));
    let mut q = x;
    for _ in 1..exponent {
        q = half_up(q * x, 1_000_000);
    }
    q as i32
}

/// "Each alternate component is C0 + q(C1 - C0)/1000000, rounded half up."
/// The exact value is (1000000 C0 + q(C1 - C0)) / 1000000. A q beyond 0..1000000 is first taken to the nearest
/// end, so the result lies between C0 and C1.
pub fn tint_value(c0: i32, c1: i32, q: i32) -> i32 {
    let q = i64::from(limit(q, 0, ONE));
    let [c0, c1] = [i64::from(c0), i64::from(c1)];
    half_up(1_000_000 * c0 + q * (c1 - c0), 1_000_000) as i32
}

#[cfg(test)]
mod tests {
    use super::*;

    #[test]
    fn bytes_are_big_endian_and_signed() {
        assert_eq!(read_two(&[0xff, 0x01], 0), 0xff01);
        assert_eq!(read_two(&[9, 1, 2], 1), 258);
        assert_eq!(read_two(&[9, 1, 2], 2), 0);
        assert_eq!(read_two(&[], usize::MAX), 0);
        assert_eq!(read_four(&[0, 0x0f, 0x42, 0x40], 0), 1_000_000);
        assert_eq!(read_four(&[0xff, 0xff, 0xff, 0xff], 0), -1);
        assert_eq!(read_four(&[0x80, 0, 0, 0], 0), i32::MIN);
        assert_eq!(read_four(&[0x80, 0, 0], 0), 0);
        let mut four = [0u8; 5];
        write_four(&mut four, 1, -2);
        assert_eq!(four, [0, 255, 255, 255, 254]);
        write_four(&mut four, 2, 7);
        assert_eq!(four, [0, 255, 255, 255, 254]);
        write_two(&mut four, 0, 0x1234);
        assert_eq!(four, [0x12, 0x34, 255, 255, 254]);
        write_two(&mut four, 4, 0x1234);
        assert_eq!(four, [0x12, 0x34, 255, 255, 254]);
        for v in [0, 1, -1, 0x1234_5678, i32::MIN, i32::MAX] {
            write_four(&mut four, 0, v);
            assert_eq!(read_four(&four, 0), v);
        }
    }

    #[test]
    fn half_up_is_the_floor_of_value_plus_half() {
        assert_eq!(half_up(5, 2), 3);
        assert_eq!(half_up(-5, 2), -2);
        assert_eq!(half_up(-1, 2), 0);
        assert_eq!(half_up(-3, 4), -1);
        assert_eq!(half_up(7, 0), 7);
        assert_eq!(half_up(i64::MAX, 1), i64::MAX);
        assert_eq!(half_up(i64::MIN, 1), i64::MIN);
        // Another way to say it: n / d is a whole number and a rest, and the rest reaches one half or does not.
        let mut rng = crate::generate::Rng::new(11);
        for _ in 0..100_000 {
            let n = rng.next() as i64;
            let d = (rng.next() as u32).max(1);
            let whole = n.div_euclid(i64::from(d));
            let rest = n.rem_euclid(i64::from(d));
            let reached = 2 * rest >= i64::from(d);
            assert_eq!(half_up(n, d), whole + i64::from(reached));
        }
    }

    #[test]
    fn indices_of_the_paper() {
        for hival in 3..=255 {
            assert_eq!(index(2_500_000, hival), 3);
        }
        for hival in 0..=255 {
            assert_eq!(index(-500_000, hival), 0);
            assert_eq!(index(-500_001, hival), 0);
            assert_eq!(index(i32::MIN, hival), 0);
            assert_eq!(index(i32::MAX, hival), hival);
        }
        assert_eq!(index(254_500_000, 254), 254);
        assert_eq!(index(254_500_000, 255), 255);
        assert_eq!(index(254_499_999, 255), 254);
        assert_eq!(index(2_499_999, 255), 2);
        // The rule behind -0.500001 is seen in the rounding itself.
        assert_eq!(half_up(-500_000, 1_000_000), 0);
        assert_eq!(half_up(-500_001, 1_000_000), -1);
    }

    #[test]
    fn palette_bytes_of_the_paper() {
        assert_eq!(palette_value(0xb5, 0, 1_000_000), 709_804);
        assert_eq!(palette_value(0, -100_000_000, 100_000_000), -100_000_000);
        assert_eq!(palette_value(255, -100_000_000, 100_000_000), 100_000_000);
        assert_eq!(palette_value(255, i32::MIN, i32::MAX), i32::MAX);
        assert_eq!(palette_value(0, i32::MAX, i32::MIN), i32::MAX);
        assert_eq!(palette_value(255, i32::MAX, i32::MIN), i32::MIN);
        // 51/255 is a fifth: 0.2 of -5..0 and of 0..-5 is whole, of 0..3 it is 0.6.
        assert_eq!(palette_value(51, -5, 0), -4);
        assert_eq!(palette_value(51, 0, -5), -1);
        assert_eq!(palette_value(51, 0, 3), 1);
        assert_eq!(palette_value(51, 0, -3), -1);
    }

    #[test]
    fn tints_of_the_paper() {
        for e in 1..=4 {
            assert_eq!(tint_power(0, e), 0);
            assert_eq!(tint_power(ONE, e), ONE);
            for (c0, c1) in [
                (0, ONE),
                (ONE, 0),
                (-5, 7),
                (i32::MIN, i32::MAX),
                (i32::MAX, i32::MIN),
            ] {
                assert_eq!(tint_value(c0, c1, tint_power(0, e)), c0);
                assert_eq!(tint_value(c0, c1, tint_power(ONE, e)), c1);
            }
        }
        assert_eq!(tint_power(500_000, 2), 250_000);
        assert_eq!(tint_power(1_000, 2), 1);
        assert_eq!(tint_power(707, 2), 0); // 0.499849
        assert_eq!(tint_power(708, 2), 1); // 0.501264
                                           // Rounded at each unit: 1500 squared is 2.25 -> 2, not kept exact.
        assert_eq!(tint_power(1_500, 2), 2);
        assert_eq!(tint_value(0, 1, 500_000), 1);
        assert_eq!(tint_value(0, -1, 500_000), 0);
        assert_eq!(tint_value(-3, -4, 500_000), -3);
        assert_eq!(tint_value(5, 5, 123_456), 5);
        assert_eq!(tint_value(1, 2, i32::MAX), 2);
        assert_eq!(tint_power(i32::MIN, 0), 0);
    }

    #[test]
    fn what_moves() {
        assert!(!moves(0, 0, 10) && !moves(10, 0, 10) && !moves(5, 0, 10));
        assert!(moves(-1, 0, 10) && moves(11, 0, 10) && moves(3, 4, 4));
        assert!(!moves(i32::MIN, i32::MIN, i32::MAX) && !moves(i32::MAX, i32::MIN, i32::MAX));
        assert!(!index_moves(3_400_000, 3) && !index_moves(3_499_999, 3));
        assert!(index_moves(3_500_000, 3) && index_moves(i32::MAX, 255));
        assert!(!index_moves(-500_000, 3) && index_moves(-500_001, 3));
        assert!(!index_moves(499_999, 0) && index_moves(500_000, 0));
        assert!(!index_moves(255_499_999, 255) && index_moves(255_500_000, 255));
    }

    #[test]
    fn limits_and_floats() {
        assert_eq!(limit(5, 0, 10), 5);
        assert_eq!(limit(-1, 0, 10), 0);
        assert_eq!(limit(11, 0, 10), 10);
        assert_eq!(limit(3, 4, 4), 4);
        assert_eq!(float_of(1_000_000).to_bits(), 1.0f64.to_bits());
        assert_eq!(float_of(0).to_bits(), 0.0f64.to_bits());
        assert_eq!(float_of(950_500).to_bits(), 0.9505f64.to_bits());
    }
}
