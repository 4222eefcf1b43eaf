//! "White is white, tints are close": for exponents 1 to 4, C0 and C1 in 0..1, a component is within two
//! millionths of the exact C0 + x^e (C1 - C0), over whole numbers.

use reference::generate::Rng;
use reference::numbers::{tint_power, tint_value, ONE};

/// How far a component is from the exact one: 10^(6e) times r - (C0 + x^e (C1 - C0)).
fn off(exponent: u8, x: i32, c0: i32, c1: i32) -> i128 {
    let r = tint_value(c0, c1, tint_power(x, exponent));
    let scale = i128::from(ONE).pow(exponent.into());
    let [r, c0, c1] = [r, c0, c1].map(i128::from);
    scale * r - (scale * c0 + i128::from(x).pow(exponent.into()) * (c1 - c0))
}

/// Two millionths, 10^(6e) times.
fn two(exponent: u8) -> i128 {
    2 * i128::from(ONE).pow(exponent.into())
}

#[test]
fn every_tint_from_0_to_1_is_close() {
    for exponent in 1..=4 {
        for x in 0..=ONE {
            let far = off(exponent, x, 0, ONE)
                .abs()
                .max(off(exponent, x, ONE, 0).abs());
            assert!(far <= two(exponent), "exponent {exponent}, tint {x}");
        }
    }
}

#[test]
fn random_ends_are_close() {
    let rng = &mut Rng::new(13);
    for _ in 0..1_000_000 {
        let exponent = 1 + rng.below(4) as u8;
        let [x, c0, c1] = std::array::from_fn(|_| rng.between(0, ONE));
        let far = off(exponent, x, c0, c1).abs();
        assert!(
            far <= two(exponent),
            "exponent {exponent}, tint {x}, {c0} to {c1}"
        );
    }
}

#[test]
fn the_bound_is_nearly_reached() {
    // 1.923 millionths: no tint's power is further off at exponent 4, and the last rounding adds nearly a half.
    let far = off(4, 974_048, 0, 999_394).abs();
    assert!(1_923 * two(4) / 2_000 < far && far < 1_924 * two(4) / 2_000);
}
