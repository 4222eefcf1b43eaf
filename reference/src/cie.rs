//! The CIE-based colour steps of document 01: "each float operation below rounds once, in the order written".

use crate::gamma::decode;
use crate::numbers::float_of;

/// "An answer is one of Gray, RGB, CMYK or XYZ with its floats"; by document 02 also "no mark", or "every ink" with one
/// float. That it may be a refusal is said where a colour is asked for, by [`crate::colour::Reply`].
/// Two answers are the same when every float has the same bits (so 0 and -0 differ).
#[derive(Clone, Copy, Debug)]
pub enum Answer {
    /// One DeviceGray component.
    Gray(f64),
    /// Three DeviceRGB components: red, green, blue.
    Rgb([f64; 3]),
    /// Four DeviceCMYK components: cyan, magenta, yellow, black.
    Cmyk([f64; 4]),
    /// The CIE tristimulus values X, Y, Z.
    Xyz([f64; 3]),
    /// "No mark": the answer of a Separation named None, with no float.
    NoMark,
    /// "Every ink": the answer of a Separation named All, with its tint.
    EveryInk(f64),
}

/// Whether two runs of floats have the same bits throughout.
fn same<const N: usize>(a: &[f64; N], b: &[f64; N]) -> bool {
    a.iter().zip(b).all(|(x, y)| x.to_bits() == y.to_bits())
}

impl PartialEq for Answer {
    fn eq(&self, other: &Self) -> bool {
        match (self, other) {
            (Answer::Gray(a), Answer::Gray(b)) | (Answer::EveryInk(a), Answer::EveryInk(b)) => {
                a.to_bits() == b.to_bits()
            }
            (Answer::NoMark, Answer::NoMark) => true,
            (Answer::Rgb(a), Answer::Rgb(b)) | (Answer::Xyz(a), Answer::Xyz(b)) => same(a, b),
            (Answer::Cmyk(a), Answer::Cmyk(b)) => same(a, b),
            _ => false,
        }
    }
}

impl Eq for Answer {}

/// CalGray: "A the decoded float; X = float(XW) x A, Y = A, Z = float(ZW) x A", for a component v as it stands
/// and a gamma of p tenths.
pub fn cal_gray(xw: i32, zw: i32, p: u8, v: i32) -> [f64; 3] {
    let a = decode(v, p);
    [float_of(xw) * a, a, float_of(zw) * a]
}

/// CalRGB: "X = ((XA x A) + (XB x B)) + (XC x C), likewise Y and Z", for three components as they stand, gammas in
/// tenths, and the matrix in the record's order: XA YA ZA XB YB ZB XC YC ZC.
pub fn cal_rgb(tenths: [u8; 3], matrix: [i32; 9], abc: [i32; 3]) -> [f64; 3] {
    let a = decode(abc[0], tenths[0]);
    let b = decode(abc[1], tenths[1]);
    let c = decode(abc[2], tenths[2]);
    let [xa, ya, za, xb, yb, zb, xc, yc, zc] = matrix.map(float_of);
    [
        ((xa * a) + (xb * b)) + (xc * c),
        ((ya * a) + (yb * b)) + (yc * c),
        ((za * a) + (zb * b)) + (zc * c),
    ]
}

/// "Cubed": (x * x) * x.
fn cube(x: f64) -> f64 {
    (x * x) * x
}

/// Lab, "the input whole l, a, b in millionths. Let p = 125(l + 16000000) + 29a, n = 50(l + 16000000) - 29b. All
/// whole numbers below become f64 exactly" (each is below 2^53 in size). "The branch is decided on whole numbers."
pub fn lab(xw: i32, zw: i32, l: i32, a: i32, b: i32) -> [f64; 3] {
    let [l, a, b] = [l, a, b].map(i64::from);
    let p = 125 * (l + 16_000_000) + 29 * a;
    let n = 50 * (l + 16_000_000) - 29 * b;
    // "First: if p >= 3000000000, x = p / 14500000000 and g = (x * x) * x; else g = 108(p - 2000000000) / 12194500000000.
    // X = float(XW) x g."
    let first = if p >= 3_000_000_000 {
        cube(p as f64 / 14_500_000_000.0)
    } else {
        (108 * (p - 2_000_000_000)) as f64 / 12_194_500_000_000.0
    };
    // "Second: if l >= 8000000, x = (l + 16000000) / 116000000, cubed the same way; else g = 108 l / 97556000000. Y = g."
    let second = if l >= 8_000_000 {
        cube((l + 16_000_000) as f64 / 116_000_000.0)
    } else {
        (108 * l) as f64 / 97_556_000_000.0
    };
    // "Third: if n >= 1200000000, x = n / 5800000000, cubed; else g = 108(n - 800000000) / 4877800000000.
    // Z = float(ZW) x g."
    let third = if n >= 1_200_000_000 {
        cube(n as f64 / 5_800_000_000.0)
    } else {
        (108 * (n - 800_000_000)) as f64 / 4_877_800_000_000.0
    };
    [float_of(xw) * first, second, float_of(zw) * third]
}

#[cfg(test)]
mod tests {
    use super::*;

    const XW: i32 = 950_500;
    const ZW: i32 = 1_089_000;

    fn bits(v: [f64; 3]) -> [u64; 3] {
        v.map(f64::to_bits)
    }

    #[test]
    fn answers_compare_by_bits() {
        assert_ne!(Answer::Gray(0.0), Answer::Gray(-0.0));
        assert_eq!(Answer::Gray(0.5), Answer::Gray(0.5));
        assert_eq!(Answer::Gray(f64::NAN), Answer::Gray(f64::NAN));
        assert_ne!(Answer::Rgb([0.0; 3]), Answer::Xyz([0.0; 3]));
        assert_ne!(Answer::EveryInk(0.0), Answer::EveryInk(-0.0));
        assert_ne!(Answer::EveryInk(0.5), Answer::Gray(0.5));
        assert_eq!(Answer::NoMark, Answer::NoMark);
        assert_ne!(Answer::NoMark, Answer::EveryInk(0.0));
        assert_ne!(Answer::Cmyk([0.0; 4]), Answer::Cmyk([0.0, 0.0, 0.0, -0.0]));
    }

    #[test]
    fn cal_gray_white_and_black() {
        for p in 1..=40 {
            assert_eq!(
                bits(cal_gray(XW, ZW, p, 1_000_000)),
                bits([0.9505, 1.0, 1.089])
            );
            assert_eq!(bits(cal_gray(XW, ZW, p, 0)), bits([0.0; 3]));
        }
        // Half to 1.8 is 0.2871, cut off after four digits.
        assert_eq!(
            bits(cal_gray(XW, ZW, 18, 500_000)),
            bits([0.9505 * 0.2871, 0.2871, 1.089 * 0.2871])
        );
    }

    #[test]
    fn the_first_three_matrix_numbers_belong_to_a() {
        let m = [1, 2, 3, 4, 5, 6, 7, 8, 9].map(|v| v * 100_000);
        let one = 1_000_000;
        for tenths in [[10; 3], [1, 18, 22]] {
            let rgb = |abc: [i32; 3]| bits(cal_rgb(tenths, m, abc));
            assert_eq!(rgb([one, 0, 0]), bits([0.1, 0.2, 0.3]));
            assert_eq!(rgb([0, one, 0]), bits([0.4, 0.5, 0.6]));
            assert_eq!(rgb([0, 0, one]), bits([0.7, 0.8, 0.9]));
            assert_eq!(
                bits(cal_rgb(tenths, [-one; 9], [0; 3])),
                bits([-0.0, -0.0, -0.0])
            );
        }
    }

    #[test]
    fn lab_white_and_black() {
        assert_eq!(
            bits(lab(XW, ZW, 100_000_000, 0, 0)),
            bits([0.9505, 1.0, 1.089])
        );
        assert_eq!(bits(lab(XW, ZW, 0, 0, 0)), bits([0.0; 3]));
    }

    #[test]
    fn lab_near_the_seam() {
        // L* 8 with a = b = 0 is cubed in all three.
        let x = 24_000_000.0 / 116_000_000.0;
        let g = (x * x) * x;
        let px = 3_000_000_000.0 / 14_500_000_000.0;
        let nx = 1_200_000_000.0 / 5_800_000_000.0;
        assert_eq!(
            bits(lab(XW, ZW, 8_000_000, 0, 0)),
            bits([0.9505 * ((px * px) * px), g, 1.089 * ((nx * nx) * nx)])
        );
        // 7.999999 is cubed in none.
        let l = 7_999_999.0;
        assert_eq!(
            bits(lab(XW, ZW, 7_999_999, 0, 0)),
            bits([
                0.9505 * ((108.0 * 125.0 * l) / 12_194_500_000_000.0),
                (108.0 * l) / 97_556_000_000.0,
                1.089 * ((108.0 * 50.0 * l) / 4_877_800_000_000.0)
            ])
        );
        // At L* 8, a* -1 only the first is not cubed.
        // There 108(p - 2000000000) is 108 * 971000000 = 104868000000.
        assert_eq!(
            bits(lab(XW, ZW, 8_000_000, -1_000_000, 0)),
            bits([
                0.9505 * (104_868_000_000.0 / 12_194_500_000_000.0),
                g,
                1.089 * ((nx * nx) * nx)
            ])
        );
    }

    #[test]
    fn lab_whole_numbers_are_exact_at_the_extremes() {
        for l in [i32::MIN, i32::MAX] {
            for a in [i32::MIN, i32::MAX] {
                for b in [i32::MIN, i32::MAX] {
                    let p = 125 * (i128::from(l) + 16_000_000) + 29 * i128::from(a);
                    let n = 50 * (i128::from(l) + 16_000_000) - 29 * i128::from(b);
                    for whole in [108 * (p - 2_000_000_000), 108 * (n - 800_000_000), p, n] {
                        assert!(whole.abs() < 1 << 53);
                    }
                    assert!(lab(i32::MAX, i32::MIN, l, a, b)
                        .iter()
                        .all(|v| v.is_finite()));
                }
            }
        }
    }
}
