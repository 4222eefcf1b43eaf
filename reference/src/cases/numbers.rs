//! The tables of cases on numbers and single steps: operations 1 to 13.

use super::format::{decimal, Case};
use super::maker::Maker;
use crate::numbers::ONE;
use crate::records::NINE;

/// The white point of the paper's examples, X and Z: 0.9505 and 1.089.
const XW: i32 = 950_500;
const ZW: i32 = 1_089_000;

/// The number cases: a label, an operation and whole numbers.
const PLAIN: &[(&str, u32, &[i32])] = &[
    // Limits.
    ("limit 5 to 0..10", 1, &[5, 0, 10]),
    ("limit -1 to 0..10", 1, &[-1, 0, 10]),
    ("limit 11 to 0..10", 1, &[11, 0, 10]),
    (
        "limit the least number to 0..1",
        1,
        &[i32::MIN, 0, 1_000_000],
    ),
    (
        "limit the greatest number to 0..1",
        1,
        &[i32::MAX, 0, 1_000_000],
    ),
    ("limit 3 to the range -7..-7", 1, &[3, -7, -7]),
    // Indices.
    ("index 2.5, hival 3, picks row 3", 2, &[2_500_000, 3]),
    ("index 2.5, hival 255, picks row 3", 2, &[2_500_000, 255]),
    ("index 2.5, hival 2, stays at 2", 2, &[2_500_000, 2]),
    ("index -0.5 picks row 0", 2, &[-500_000, 255]),
    ("index -0.500001", 2, &[-500_001, 255]),
    ("index 0.5", 2, &[500_000, 255]),
    (
        "index 254.5 with hival 254 picks 254",
        2,
        &[254_500_000, 254],
    ),
    ("index 254.5 with hival 255", 2, &[254_500_000, 255]),
    ("the least index", 2, &[i32::MIN, 255]),
    ("the greatest index", 2, &[i32::MAX, 255]),
    // Palette bytes.
    ("byte B5 over 0..1 gives 709804", 3, &[0xb5, 0, 1_000_000]),
    ("byte FF over 0..1", 3, &[255, 0, 1_000_000]),
    (
        "byte 80 over -128..127",
        3,
        &[128, -128_000_000, 127_000_000],
    ),
    ("byte 55 over -2..-1 millionths", 3, &[85, -2, -1]),
    ("byte AA over -2..-1 millionths", 3, &[170, -2, -1]),
    (
        "byte B5 over the falling range 1..0",
        3,
        &[0xb5, 1_000_000, 0],
    ),
    (
        "byte 33 over the falling range 0..-3 millionths",
        3,
        &[51, 0, -3],
    ),
    ("byte 01 over the whole of i32", 3, &[1, i32::MIN, i32::MAX]),
    (
        "byte FF over the whole of i32",
        3,
        &[255, i32::MIN, i32::MAX],
    ),
    (
        "byte FE over the whole of i32, falling",
        3,
        &[254, i32::MAX, i32::MIN],
    ),
    // Tints.
    ("tint 0 to exponent 4", 4, &[0, 4]),
    ("tint 1 to exponent 4", 4, &[1_000_000, 4]),
    ("tint 0.5 to exponent 4", 4, &[500_000, 4]),
    ("tint 0.000707 to exponent 2 falls to 0", 4, &[707, 2]),
    ("tint 0.000708 to exponent 2 rises to 1", 4, &[708, 2]),
    ("tint 0.999999 to exponent 3", 4, &[999_999, 3]),
    ("tint 0.777777 to exponent 4", 4, &[777_777, 4]),
    ("tint 1 gives C1", 5, &[-250_000, 750_000, 1_000_000]),
    ("tint 0 gives C0", 5, &[-250_000, 750_000, 0]),
    (
        "tint 1 gives a C1 below C0",
        5,
        &[750_000, -250_000, 1_000_000],
    ),
    (
        "half of the way from 0 to 1 millionth rounds up",
        5,
        &[0, 1, 500_000],
    ),
    (
        "half of the way from 0 to -1 millionth rounds up",
        5,
        &[0, -1, 500_000],
    ),
    (
        "half of the way from -3 to -4 millionths rounds up",
        5,
        &[-3, -4, 500_000],
    ),
    (
        "half of the way from -4 to -3 millionths rounds up",
        5,
        &[-4, -3, 500_000],
    ),
    (
        "just past half from 0 to -1 millionth",
        5,
        &[0, -1, 500_001],
    ),
    (
        "from the least to the greatest number by 0.5",
        5,
        &[i32::MIN, i32::MAX, 500_000],
    ),
    (
        "from the greatest to the least number by 0.5",
        5,
        &[i32::MAX, i32::MIN, 500_000],
    ),
    (
        "from the greatest to the least number by 1",
        5,
        &[i32::MAX, i32::MIN, 1_000_000],
    ),
    // Floats.
    ("the float of 0", 6, &[0]),
    ("the float of -1 millionth", 6, &[-1]),
    ("the float of 0.9505", 6, &[950_500]),
    ("the float of the least number", 6, &[i32::MIN]),
    ("the float of the greatest number", 6, &[i32::MAX]),
    // Four bytes of a number.
    ("the bytes of 1000000", 9, &[1_000_000]),
    ("the bytes of -1", 9, &[-1]),
    ("the bytes of the least number", 9, &[i32::MIN]),
    // Decode by whole gammas; those of tenths stand below.
    ("0.7 decoded by gamma 1", 10, &[700_000, ONE]),
    ("0.7 decoded by gamma 2", 10, &[700_000, 2 * ONE]),
    ("0.7 decoded by gamma 3", 10, &[700_000, 3 * ONE]),
    ("0.7 decoded by gamma 4", 10, &[700_000, 4 * ONE]),
    ("-0.3 decoded by gamma 3", 10, &[-300_000, 3 * ONE]),
    // CalGray.
    (
        "CalGray colour 1 gives the white point's floats",
        11,
        &[XW, ZW, ONE, 1_000_000],
    ),
    ("CalGray colour 0 gives zeros", 11, &[XW, ZW, ONE, 0]),
    (
        "CalGray colour 0.3, gamma 4",
        11,
        &[XW, ZW, 4 * ONE, 300_000],
    ),
    (
        "CalGray colour -3 as it stands, gamma 3",
        11,
        &[XW, ZW, 3 * ONE, -3_000_000],
    ),
    (
        "CalGray negative zero by a white point below 0",
        11,
        &[-1, -1, ONE, 0],
    ),
    (
        "CalGray colour 1, gamma 1.8, gives the white point's floats",
        11,
        &[XW, ZW, 1_800_000, ONE],
    ),
    (
        "CalGray colour 0.5, gamma 2.2",
        11,
        &[XW, ZW, 2_200_000, 500_000],
    ),
    (
        "CalGray colour -3 as it stands, gamma 2.2, zeros",
        11,
        &[XW, ZW, 2_200_000, -3_000_000],
    ),
    (
        "CalGray negative zero by a white point below 0, gamma 0.1",
        11,
        &[-1, -1, 100_000, 49],
    ),
    // Lab.
    (
        "Lab (100,0,0) gives the white point's floats",
        13,
        &[XW, ZW, 100_000_000, 0, 0],
    ),
    ("Lab (0,0,0) gives zeros", 13, &[XW, ZW, 0, 0, 0]),
    (
        "Lab L* 8 with a = b = 0 is cubed in all three",
        13,
        &[XW, ZW, 8_000_000, 0, 0],
    ),
    (
        "Lab L* 7.999999 with a = b = 0 is cubed in none",
        13,
        &[XW, ZW, 7_999_999, 0, 0],
    ),
    (
        "Lab at L* 8, a* -1 the first is not cubed",
        13,
        &[XW, ZW, 8_000_000, -1_000_000, 0],
    ),
    (
        "Lab at L* 8, b* 1 the third is not cubed",
        13,
        &[XW, ZW, 8_000_000, 0, 1_000_000],
    ),
    ("Lab at L* 8, a* -0.000001", 13, &[XW, ZW, 8_000_000, -1, 0]),
    (
        "Lab (50,20,-30)",
        13,
        &[XW, ZW, 50_000_000, 20_000_000, -30_000_000],
    ),
    (
        "Lab (1,-100,100)",
        13,
        &[XW, ZW, 1_000_000, -100_000_000, 100_000_000],
    ),
    (
        "Lab all at the least number",
        13,
        &[XW, ZW, i32::MIN, i32::MIN, i32::MIN],
    ),
    (
        "Lab all at the greatest number",
        13,
        &[XW, ZW, i32::MAX, i32::MAX, i32::MAX],
    ),
    (
        "Lab greatest L*, least a*, greatest b*",
        13,
        &[i32::MAX, i32::MIN, i32::MAX, i32::MIN, i32::MAX],
    ),
    (
        "Lab negative zeros by a white point below 0",
        13,
        &[-1, -1, 0, 0, 0],
    ),
];

/// The byte cases: a label, an operation and a run of bytes.
const BYTES: &[(&str, u32, &[u8])] = &[
    ("the two bytes FF04, DeviceCMYK's code", 7, &[0xff, 0x04]),
    ("the two bytes FFFF", 7, &[0xff, 0xff]),
    ("the four bytes 000F4240", 8, &[0, 0x0f, 0x42, 0x40]),
    ("the four bytes FFFFFFFE", 8, &[0xff, 0xff, 0xff, 0xfe]),
    ("the four bytes 80000000", 8, &[0x80, 0, 0, 0]),
    ("the four bytes 7FFFFFFF", 8, &[0x7f, 0xff, 0xff, 0xff]),
];

/// A CalRGB case: a label, three gammas, a matrix and three components.
type CalRgbCase = (&'static str, [i32; 3], [i32; 9], [i32; 3]);

/// The CalRGB cases: a label, three gammas in millionths, the matrix and the three components.
const CAL_RGB: &[CalRgbCase] = &[
    (
        "CalRGB the first three matrix numbers belong to A",
        [ONE; 3],
        NINE,
        [1_000_000, 0, 0],
    ),
    (
        "CalRGB the second three belong to B",
        [ONE; 3],
        NINE,
        [0, 1_000_000, 0],
    ),
    (
        "CalRGB the last three belong to C",
        [ONE; 3],
        NINE,
        [0, 0, 1_000_000],
    ),
    (
        "CalRGB 0.1 0.2 0.3, gammas 1 2 3",
        [ONE, 2 * ONE, 3 * ONE],
        NINE,
        [100_000, 200_000, 300_000],
    ),
    (
        "CalRGB 0.9 0.8 0.7, gammas 4 3 2",
        [4 * ONE, 3 * ONE, 2 * ONE],
        NINE,
        [900_000, 800_000, 700_000],
    ),
    (
        "CalRGB negative zero by entries below 0",
        [ONE; 3],
        [-1; 9],
        [0; 3],
    ),
    (
        "CalRGB one negative zero of three",
        [2 * ONE, 3 * ONE, 4 * ONE],
        [-1_000_000, 0, 0, -1_000_000, 0, 0, -1_000_000, 0, 0],
        [0; 3],
    ),
    (
        "CalRGB extremes as they stand",
        [4 * ONE, 3 * ONE, 2 * ONE],
        [
            i32::MAX,
            i32::MIN,
            1,
            -1,
            i32::MAX,
            i32::MIN,
            7,
            -7,
            i32::MAX,
        ],
        [i32::MIN, i32::MAX, -1],
    ),
    (
        "CalRGB 0.9 0.8 0.7, gammas 1.8 2.2 0.1",
        [1_800_000, 2_200_000, 100_000],
        NINE,
        [900_000, 800_000, 700_000],
    ),
    (
        "CalRGB 0.9 0.8 0.7, gammas 2 2.5 3.9",
        [2 * ONE, 2_500_000, 3_900_000],
        NINE,
        [900_000, 800_000, 700_000],
    ),
    (
        "CalRGB extremes as they stand, gammas 0.5 3 1.5",
        [500_000, 3 * ONE, 1_500_000],
        NINE,
        [i32::MIN, i32::MAX, i32::MAX],
    ),
];

/// Components on either side of a line for gammas that are not whole: the ends of 0..1, and where (a + 50) / 100 turns.
const SIDES: [i32; 17] = [
    i32::MIN,
    -50,
    -1,
    0,
    49,
    50,
    149,
    150,
    10_000,
    250_000,
    500_000,
    777_777,
    999_949,
    999_950,
    ONE,
    ONE + 1,
    i32::MAX,
];

/// Decode by gammas that are not whole.
fn tenths(maker: &mut Maker) {
    for gamma in [100_000, 500_000, 1_800_000, 2_200_000, 2_500_000, 3_900_000] {
        for v in SIDES {
            let label = format!("{} decoded by gamma {}", decimal(v), decimal(gamma));
            maker.add(10, label, &[v, gamma], None);
        }
    }
    // Every gamma that is carried, at a component of its own.
    for p in 1..=40 {
        let (v, gamma) = (123_457 * p % ONE, 100_000 * p);
        let label = format!("gamma {} of {}", decimal(gamma), decimal(v));
        maker.add(10, label, &[v, gamma], None);
    }
}

/// The cases of operations 1 to 13, in the order in which they are put to the program.
pub(super) fn cases() -> Vec<Case> {
    let mut maker = Maker::default();
    for (label, op, args) in PLAIN {
        maker.add(*op, *label, args, None);
    }
    for (label, op, bytes) in BYTES {
        maker.add(*op, *label, &[], Some(bytes));
    }
    tenths(&mut maker);
    for (label, gammas, matrix, abc) in CAL_RGB {
        maker.add(12, *label, &[&gammas[..], matrix, abc].concat(), None);
    }
    maker.cases
}
