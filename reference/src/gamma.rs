//! Document 02, request 2026-01, "Gammas in tenths": which gammas are carried, and what they make of a component.

use crate::numbers::{float_of, limit, ONE};

/// "Carry every CalGray and CalRGB gamma that is a whole count p of tenths, 0.1 to 4.0": that count, of a gamma in
/// millionths; none for any other gamma.
pub fn tenths(gamma: i32) -> Option<u8> {
    (1..=40).find(|p| i32::from(*p) * (ONE / 10) == gamma)
}

/// What a gamma of p tenths makes of a component, as it stands. "Whole gammas stay. Otherwise the component a ... is
/// taken to u ... and decoded to v/10000 in f64."
pub fn decode(a: i32, p: u8) -> f64 {
    if p.is_multiple_of(10) {
        return product(float_of(a), p / 10);
    }
    f64::from(greatest(ten_thousandths(a), p)) / 10_000.0
}

/// Document 01: "A to gamma 1 is A; each further unit multiplies the product so far by A." Units of 0 count as 1.
fn product(a: f64, units: u8) -> f64 {
    let mut product = a;
    for _ in 1..units {
        product *= a;
    }
    product
}

/// "The component a (past 0..1, the nearer end) is taken to u, the floor of (a + 50)/100": 0 to 10000.
fn ten_thousandths(a: i32) -> u16 {
    ((limit(a, 0, ONE) + 50) / 100) as u16
}

/// "v being the greatest number of 0..10000 with v^10 x 10000^p <= u^p x 10000^10."
///
/// The left side grows with v, so v is made from its highest binary digit down: a digit stands where the number so far,
/// with it, still keeps the inequality. 0 keeps it always.
pub fn greatest(u: u16, p: u8) -> u16 {
    let right = Whole::of_powers((u, p), (10_000, 10));
    let holds = |v: u16| v <= 10_000 && Whole::of_powers((v, 10), (10_000, p)) <= right;
    let mut v = 0;
    for digit in (0..14).rev() {
        let with = v + (1 << digit);
        if holds(with) {
            v = with;
        }
    }
    v
}

/// A whole number that is not negative, of any size: parts of 32 bits, the lowest first, the last not zero.
#[derive(Debug, PartialEq, Eq)]
struct Whole(Vec<u32>);

impl Whole {
    /// The product of two powers, each a base and its exponent.
    fn of_powers(first: (u16, u8), second: (u16, u8)) -> Self {
        let mut number = Whole(vec![1]);
        for (base, exponent) in [first, second] {
            for _ in 0..exponent {
                number.multiply(base);
            }
        }
        number
    }

    /// Multiplies the number.
    fn multiply(&mut self, factor: u16) {
        let mut carried = 0;
        for part in &mut self.0 {
            let product = u64::from(*part) * u64::from(factor) + carried;
            *part = product as u32;
            carried = product >> 32;
        }
        self.0.push(carried as u32);
        while self.0.last() == Some(&0) {
            self.0.pop();
        }
    }
}

impl Ord for Whole {
    /// The one of more parts is greater; of as many, the highest part that differs decides.
    fn cmp(&self, other: &Self) -> std::cmp::Ordering {
        let lengths = self.0.len().cmp(&other.0.len());
        lengths.then_with(|| self.0.iter().rev().cmp(other.0.iter().rev()))
    }
}

impl PartialOrd for Whole {
    fn partial_cmp(&self, other: &Self) -> Option<std::cmp::Ordering> {
        Some(self.cmp(other))
    }
}

#[cfg(test)]
mod tests {
    use super::*;

    #[test]
    fn the_gammas_that_are_carried() {
        for p in 1..=40 {
            assert_eq!(tenths(100_000 * i32::from(p)), Some(p));
        }
        for gamma in [0, 1, 18, 50_000, 99_999, 100_001, 1_850_000, 3_999_999] {
            assert_eq!(tenths(gamma), None, "{gamma}");
            assert_eq!(tenths(-gamma), None, "{gamma}");
        }
        for gamma in [4_000_001, 4_100_000, 5_000_000, -100_000, -ONE] {
            assert_eq!(tenths(gamma), None, "{gamma}");
        }
        assert_eq!([i32::MIN, i32::MAX].map(tenths), [None; 2]);
        let carried = (i32::from(i16::MIN)..=5 * ONE).filter(|gamma| tenths(*gamma).is_some());
        assert_eq!(carried.count(), 40);
    }

    #[test]
    fn whole_gammas_are_products() {
        for v in [0, 1, 333_333, 700_000, ONE, -300_000, i32::MIN, i32::MAX] {
            let a = float_of(v);
            for (p, expected) in [
                (10, a),
                (20, a * a),
                (30, (a * a) * a),
                (40, ((a * a) * a) * a),
            ] {
                assert_eq!(decode(v, p).to_bits(), expected.to_bits());
            }
        }
    }

    #[test]
    fn components_in_ten_thousandths() {
        for (a, u) in [
            (0, 0),
            (49, 0),
            (50, 1),
            (149, 1),
            (150, 2),
            (500_000, 5_000),
            (999_949, 9_999),
            (999_950, 10_000),
            (ONE, 10_000),
            (ONE + 1, 10_000),
            (i32::MAX, 10_000),
            (-1, 0),
            (-50, 0),
            (-ONE, 0),
            (i32::MIN, 0),
        ] {
            assert_eq!(ten_thousandths(a), u, "{a}");
        }
    }

    #[test]
    fn values_worked_by_hand() {
        // The square root (gamma 0.5) of 1/4 is 1/2, and of 1/100 is 1/10; 0.01 to 2.5 is 0.00001, 0.04 to 1.5 is 0.008.
        for (a, p, v) in [
            (250_000, 5, 5_000),
            (10_000, 5, 1_000),
            (10_000, 25, 0),
            (40_000, 15, 80),
            (40_000, 25, 3),
            (90_000, 35, 2),
            // Half to 1.8 is 0.28717.., to 2.2 is 0.21763..; a ten-thousandth to 0.1 is 0.39810...
            (500_000, 18, 2_871),
            (500_000, 22, 2_176),
            (50, 1, 3_981),
            (50, 22, 0),
        ] {
            assert_eq!(decode(a, p), f64::from(v) / 10_000.0, "{a} by {p}");
        }
    }

    #[test]
    fn ends_stay_ends() {
        for p in 1..=40 {
            for white in [ONE, 999_950] {
                let exactly = white == ONE || p % 10 != 0;
                assert_eq!(decode(white, p).to_bits() == 1.0f64.to_bits(), exactly);
            }
            assert_eq!(decode(0, p).to_bits(), 0.0f64.to_bits());
            if p % 10 != 0 {
                assert_eq!(decode(i32::MIN, p).to_bits(), 0.0f64.to_bits());
                assert_eq!(decode(i32::MAX, p).to_bits(), 1.0f64.to_bits());
            }
        }
    }

    /// The inequality of the request, with decimal digits: a product by 10000 is four more zeros.
    fn holds(v: u16, u: u16, p: u8) -> bool {
        let power = |base: u16, exponent: u8, zeros: usize| {
            let mut digits = vec![1u32];
            for _ in 0..exponent {
                for digit in &mut digits {
                    *digit *= u32::from(base);
                }
                let mut at = 0;
                while at < digits.len() {
                    let over = digits[at] / 10;
                    digits[at] %= 10;
                    match digits.get_mut(at + 1) {
                        Some(next) => *next += over,
                        None if over > 0 => digits.push(over),
                        None => {}
                    }
                    at += 1;
                }
            }
            let text: String = digits.iter().rev().map(u32::to_string).collect();
            let text = text + &"0".repeat(zeros);
            format!("{text:0>400}")
        };
        power(v, 10, 4 * usize::from(p)) <= power(u, p, 40)
    }

    #[test]
    fn it_is_the_greatest_that_holds() {
        let mut rng = crate::generate::Rng::new(17);
        for round in 0..2_000 {
            let p = round % 40 + 1;
            let u = match rng.below(4) {
                0 => rng.below(40) as u16,
                1 => 10_000 - rng.below(40) as u16,
                _ => rng.below(10_001) as u16,
            };
            let v = greatest(u, p as u8);
            assert!(v <= 10_000);
            assert!(holds(v, u, p as u8), "{v} of {u} by {p}");
            assert!(
                v == 10_000 || !holds(v + 1, u, p as u8),
                "{v} of {u} by {p}"
            );
        }
        // Every number below holds too, and none above, at a few.
        for (u, p) in [(1, 1), (5_000, 18), (7_321, 22), (9_999, 39), (10_000, 7)] {
            let v = greatest(u, p);
            for w in (0..=10_000).step_by(97).chain([v, v + 1]) {
                assert_eq!(holds(w, u, p), w <= v, "{w} of {u} by {p}");
            }
        }
    }

    #[test]
    fn it_grows_with_the_component_and_is_near_the_power() {
        for p in 1..=40u8 {
            let mut last = 0;
            for u in (0..=10_000).step_by(7).chain([10_000]) {
                let v = greatest(u, p);
                assert!(v >= last);
                last = v;
                let power = (f64::from(u) / 10_000.0).powf(f64::from(p) / 10.0);
                let apart = power * 10_000.0 - f64::from(v);
                assert!((-1e-6..1.0 + 1e-6).contains(&apart), "{u} by {p}");
            }
        }
    }
}
