//! CalGray and CalRGB, with gammas in tenths by the power in floats wherever that decides.

use reference::gamma::greatest;
use reference::numbers::{float_of, limit, ONE};

/// The greatest v of 0..10000 with v^10 x 10000^p <= u^p x 10000^10: the floor of 10000 (u / 10000)^(p / 10). In floats
/// that power is right to far less than a millionth, so its floor is v unless it is that near to a whole number.
pub fn settled(u: u16, p: u8) -> u16 {
    let power = 10_000.0 * (f64::from(u) / 10_000.0).powf(f64::from(p) / 10.0);
    let floor = power.floor();
    if (1e-6..1.0 - 1e-6).contains(&(power - floor)) {
        floor as u16
    } else {
        greatest(u, p)
    }
}

/// What a gamma of p tenths makes of a component.
fn decode(a: i32, p: u8) -> f64 {
    let float = float_of(a);
    match p {
        10 => float,
        20 => float * float,
        30 => float * float * float,
        40 => float * float * float * float,
        _ => {
            let u = (limit(a, 0, ONE) + 50) / 100;
            f64::from(settled(u as u16, p)) / 10_000.0
        }
    }
}

/// CalGray of a component as it stands.
pub fn cal_gray(xw: i32, zw: i32, p: u8, a: i32) -> [f64; 3] {
    let a = decode(a, p);
    [float_of(xw) * a, a, float_of(zw) * a]
}

/// CalRGB of three components as they stand.
pub fn cal_rgb(tenths: [u8; 3], matrix: [i32; 9], abc: [i32; 3]) -> [f64; 3] {
    let [xa, ya, za, xb, yb, zb, xc, yc, zc] = matrix.map(float_of);
    let a = decode(abc[0], tenths[0]);
    let b = decode(abc[1], tenths[1]);
    let c = decode(abc[2], tenths[2]);
    [
        xa * a + xb * b + xc * c,
        ya * a + yb * b + yc * c,
        za * a + zb * b + zc * c,
    ]
}
