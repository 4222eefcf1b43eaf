//! Random texts, right ones and damaged ones, in odd layouts.

use crate::generate::Rng;

/// A text with some spaces in it, most often one that is accepted.
pub fn random_text(rng: &mut Rng) -> Vec<u8> {
    let mut text = Vec::new();
    for _ in 0..1 + rng.below(3) {
        gap(rng, &mut text, false);
        space(rng, &mut text, 0);
    }
    gap(rng, &mut text, false);
    text
}

/// A text of so many small spaces, for the bounds on blocks.
pub fn many_spaces(rng: &mut Rng, count: usize) -> Vec<u8> {
    let mut text = Vec::new();
    for _ in 0..count {
        text.extend_from_slice(b"[/CalGray<</WhitePoint[1 1 1]>>]");
        gap(rng, &mut text, false);
    }
    text
}

/// A text of spaces inside one another, to a depth, right or forbidden by the clause.
pub fn nested_text(rng: &mut Rng, depth: usize) -> Vec<u8> {
    let mut text = Vec::new();
    let mut closing = Vec::new();
    for _ in 0..depth {
        if rng.once_in(2) {
            text.extend_from_slice(b"[/Indexed ");
            closing.push(&b" 0 <00>]"[..]);
        } else {
            text.extend_from_slice(b"[/Separation/Ink ");
            closing.push(b"<</FunctionType 2/Domain[0 1]/N 1>>]");
        }
    }
    text.extend_from_slice(b"/DeviceGray");
    for part in closing.iter().rev() {
        text.extend_from_slice(part);
    }
    text
}

/// Damages a text in one of many ways: a byte or a run of bytes goes, changes, comes or is doubled, or the end is cut off.
pub fn damage_text(rng: &mut Rng, text: &mut Vec<u8>) {
    let at = rng.below(text.len() + 1);
    let end = (at + 1 + rng.below(12)).min(text.len());
    match rng.below(8) {
        0 => text.truncate(at),
        1 => drop(text.drain(at..end)),
        2 => {
            if let Some(b) = text.get_mut(at) {
                *b = odd_byte(rng);
            }
        }
        3 => text.insert(at, odd_byte(rng)),
        4 => {
            let part = text[at..end].to_vec();
            text.splice(at..at, part);
        }
        5 => {
            let word = rng.pick(&WORDS, b"0");
            text.splice(at..at, word.iter().copied());
        }
        6 => {
            let word = rng.pick(&WORDS, b"0");
            text.splice(at..end, word.iter().copied());
        }
        _ => {
            if let Some(b) = text.get_mut(at) {
                *b = rng.next() as u8;
            }
        }
    }
}

/// Words that a text has, or must not have.
const WORDS: [&[u8]; 44] = [
    b"[",
    b"]",
    b"<<",
    b">>",
    b"<",
    b">",
    b"(",
    b")",
    b"{",
    b"}",
    b"/",
    b"%",
    b" 1 ",
    b" 0 ",
    b" 1.85 ",
    b" 2.0000000 ",
    b" 2.0000001 ",
    b" 99999 ",
    b" 2147.483648 ",
    b" -2147.483648 ",
    b" 256 ",
    b" -0 ",
    b" 0.5 ",
    b" 1e5 ",
    b" --5 ",
    b" . ",
    b" null ",
    b"/A#00 ",
    b"/A#4",
    b"/CalGray ",
    b"/WhitePoint ",
    b"/Gamma ",
    b"/Range ",
    b"/Matrix ",
    b"/N ",
    b"/C0 ",
    b"/C1 ",
    b"/Domain ",
    b"/FunctionType ",
    b"/DeviceRGB ",
    b"/Indexed ",
    b"/Separation ",
    b"/Lab ",
    b"[/CalGray<</WhitePoint[1 1 1]>>]",
];

/// What reads as LF in a literal string.
const LINE_ENDS: [&[u8]; 4] = [b"\\n", b"\r", b"\r\n", b"\n"];

/// A byte that means something, more often than any other.
fn odd_byte(rng: &mut Rng) -> u8 {
    let some = b"()<>[]{}/%#\\\r\n\0 \t0123456789.+-aNF\x0b\x7f\xff";
    rng.pick(some, b' ')
}

/// White space and comments: at least one byte of it where two tokens would else run together.
fn gap(rng: &mut Rng, text: &mut Vec<u8>, needed: bool) {
    let before = text.len();
    for _ in 0..rng.below(3) {
        match rng.below(5) {
            0 => {
                text.extend_from_slice(b"%");
                for _ in 0..rng.below(6) {
                    let b = odd_byte(rng);
                    text.push(if b == b'\r' || b == b'\n' { b'(' } else { b });
                }
                text.push(rng.pick(b"\r\n", b'\n'));
            }
            _ => text.push(rng.pick(b"\0\t\n\x0c\r ", b' ')),
        }
    }
    if needed && text.len() == before {
        text.push(b' ');
    }
}

/// A name, now and then with #xx in it.
fn name(rng: &mut Rng, text: &mut Vec<u8>, name: &[u8]) {
    gap(rng, text, false);
    text.push(b'/');
    for b in name {
        let plain = b.is_ascii_alphanumeric() && !rng.once_in(40);
        if plain {
            text.push(*b);
        } else {
            let digits = if rng.once_in(2) {
                format!("#{b:02x}")
            } else {
                format!("#{b:02X}")
            };
            text.extend_from_slice(digits.as_bytes());
        }
    }
}

/// A number of millionths, in one of its spellings.
fn number(rng: &mut Rng, text: &mut Vec<u8>, value: i64) {
    gap(rng, text, true);
    if value < 0 {
        text.push(b'-');
    } else if rng.once_in(10) {
        text.push(b'+');
    }
    let size = value.unsigned_abs();
    let (whole, fraction) = (size / 1_000_000, size % 1_000_000);
    let mut digits = format!("{fraction:06}");
    if !rng.once_in(4) {
        digits = digits.trim_end_matches('0').to_string();
    }
    if rng.once_in(10) {
        text.extend_from_slice(b"00");
    }
    if whole > 0 || digits.is_empty() || rng.once_in(2) {
        text.extend_from_slice(whole.to_string().as_bytes());
    }
    if !digits.is_empty() || rng.once_in(8) {
        text.push(b'.');
        text.extend_from_slice(digits.as_bytes());
    }
}

/// A row of numbers in brackets.
fn row(rng: &mut Rng, text: &mut Vec<u8>, values: &[i64]) {
    gap(rng, text, false);
    text.push(b'[');
    for value in values {
        number(rng, text, *value);
    }
    gap(rng, text, false);
    text.push(b']');
}

/// A string, in either form.
fn string(rng: &mut Rng, text: &mut Vec<u8>, bytes: &[u8]) {
    gap(rng, text, false);
    if rng.once_in(2) {
        hexadecimal(rng, text, bytes);
    } else {
        literal(rng, text, bytes);
    }
}

fn hexadecimal(rng: &mut Rng, text: &mut Vec<u8>, bytes: &[u8]) {
    text.push(b'<');
    let mut digits = String::new();
    for b in bytes {
        digits += &format!("{b:02x}");
    }
    if digits.ends_with('0') && rng.once_in(2) {
        digits.pop();
    }
    for digit in digits.bytes() {
        text.push(if rng.once_in(3) {
            digit.to_ascii_uppercase()
        } else {
            digit
        });
        if rng.once_in(20) {
            text.push(rng.pick(b"\0\t\n\x0c\r ", b' '));
        }
    }
    text.push(b'>');
}

fn literal(rng: &mut Rng, text: &mut Vec<u8>, bytes: &[u8]) {
    text.push(b'(');
    for (i, b) in bytes.iter().enumerate() {
        let digit_follows = bytes.get(i + 1).is_some_and(u8::is_ascii_digit);
        match b {
            b'(' | b')' | b'\\' => text.extend_from_slice(&[b'\\', *b]),
            b'\n' => text.extend_from_slice(rng.pick(&LINE_ENDS, b"\n")),
            b'\r' => text.extend_from_slice(b"\\r"),
            _ if rng.once_in(8) => {
                let short = !digit_follows && rng.once_in(2);
                let octal = if short {
                    format!("\\{b:o}")
                } else {
                    format!("\\{b:03o}")
                };
                text.extend_from_slice(octal.as_bytes());
            }
            _ if rng.once_in(12) && !b"nrtbf01234567".contains(b) => {
                text.extend_from_slice(&[b'\\', *b]);
            }
            _ => text.push(*b),
        }
        if rng.once_in(30) {
            text.extend_from_slice(b"\\\n");
        }
    }
    text.push(b')');
}

const ONE: i64 = 1_000_000;

/// A number of 0 to 1, round or not.
fn unit(rng: &mut Rng) -> i64 {
    match rng.below(4) {
        0 => 0,
        1 => ONE,
        2 => i64::from(rng.between(0, 10)) * 100_000,
        _ => i64::from(rng.between(0, 1_000_000)),
    }
}

fn white(rng: &mut Rng, text: &mut Vec<u8>) {
    name(rng, text, b"WhitePoint");
    let (x, z) = (unit(rng).max(1), unit(rng).max(1));
    let y = if rng.once_in(60) { unit(rng) } else { ONE };
    row(rng, text, &[x, y, z]);
}

fn black(rng: &mut Rng, text: &mut Vec<u8>) {
    if rng.once_in(2) {
        name(rng, text, b"BlackPoint");
        let values = [unit(rng), unit(rng), unit(rng)];
        row(rng, text, &values);
    }
}

/// A gamma, most often one that is carried.
fn gamma(rng: &mut Rng) -> i64 {
    if rng.once_in(30) {
        rng.pick(&[0, 1_800_000, 5 * ONE, -ONE], 0)
    } else {
        i64::from(rng.between(1, 4)) * ONE
    }
}

fn open(rng: &mut Rng, text: &mut Vec<u8>) {
    gap(rng, text, false);
    text.extend_from_slice(b"<<");
}

fn close(rng: &mut Rng, text: &mut Vec<u8>) {
    gap(rng, text, false);
    text.extend_from_slice(b">>");
}

fn cal_gray(rng: &mut Rng, text: &mut Vec<u8>) {
    name(rng, text, b"CalGray");
    open(rng, text);
    if rng.once_in(2) {
        name(rng, text, b"Gamma");
        let value = gamma(rng);
        number(rng, text, value);
    }
    white(rng, text);
    black(rng, text);
    close(rng, text);
}

fn cal_rgb(rng: &mut Rng, text: &mut Vec<u8>) {
    name(rng, text, b"CalRGB");
    open(rng, text);
    black(rng, text);
    white(rng, text);
    if rng.once_in(2) {
        name(rng, text, b"Matrix");
        let values: [i64; 9] = std::array::from_fn(|_| unit(rng) - unit(rng));
        row(rng, text, &values);
    }
    if rng.once_in(2) {
        name(rng, text, b"Gamma");
        let values = [gamma(rng), gamma(rng), gamma(rng)];
        row(rng, text, &values);
    }
    close(rng, text);
}

fn lab(rng: &mut Rng, text: &mut Vec<u8>) {
    name(rng, text, b"Lab");
    open(rng, text);
    white(rng, text);
    if rng.once_in(2) {
        name(rng, text, b"Range");
        let values: [i64; 4] = std::array::from_fn(|i| {
            let size = i64::from(rng.between(0, 130)) * ONE + unit(rng);
            if i % 2 == 0 {
                -size
            } else {
                size
            }
        });
        row(rng, text, &values);
    }
    black(rng, text);
    close(rng, text);
}

/// A base or an alternate, and its count of components.
fn inner(rng: &mut Rng, text: &mut Vec<u8>, depth: usize) -> usize {
    if depth > 3 || rng.once_in(2) {
        let (device, count) = rng.pick(
            &[
                (&b"DeviceGray"[..], 1),
                (b"DeviceRGB", 3),
                (b"DeviceCMYK", 4),
            ],
            (b"DeviceGray", 1),
        );
        name(rng, text, device);
        count
    } else {
        gap(rng, text, false);
        space(rng, text, depth + 1)
    }
}

fn indexed(rng: &mut Rng, text: &mut Vec<u8>, depth: usize) {
    name(rng, text, b"Indexed");
    let count = inner(rng, text, depth);
    let hival = if rng.once_in(6) {
        rng.between(0, 255)
    } else {
        rng.between(0, 6)
    };
    number(rng, text, i64::from(hival) * ONE);
    let length = count * (hival as usize + 1) + usize::from(rng.once_in(60));
    let palette: Vec<u8> = (0..length).map(|_| rng.next() as u8).collect();
    string(rng, text, &palette);
}

fn separation(rng: &mut Rng, text: &mut Vec<u8>, depth: usize) {
    name(rng, text, b"Separation");
    let length = if rng.once_in(20) {
        rng.pick(&[0, 127, 128], 1)
    } else {
        1 + rng.below(12)
    };
    let ink: Vec<u8> = (0..length).map(|_| 1 + rng.below(255) as u8).collect();
    name(rng, text, &ink);
    let count = inner(rng, text, depth);
    open(rng, text);
    name(rng, text, b"FunctionType");
    number(rng, text, 2 * ONE);
    if count != 1 || rng.once_in(2) {
        for key in [b"C0", b"C1"] {
            name(rng, text, key);
            let values: Vec<i64> = (0..count).map(|_| unit(rng)).collect();
            row(rng, text, &values);
        }
    }
    name(rng, text, b"Domain");
    row(rng, text, &[0, ONE]);
    name(rng, text, b"N");
    let exponent = if rng.once_in(40) {
        rng.pick(&[0, 5 * ONE, 1_500_000], 0)
    } else {
        i64::from(rng.between(1, 4)) * ONE
    };
    number(rng, text, exponent);
    close(rng, text);
}

/// A space with its brackets; how many components it has.
fn space(rng: &mut Rng, text: &mut Vec<u8>, depth: usize) -> usize {
    text.push(b'[');
    let count = match rng.below(5) {
        0 => {
            cal_gray(rng, text);
            1
        }
        1 => {
            cal_rgb(rng, text);
            3
        }
        2 => {
            lab(rng, text);
            3
        }
        3 => {
            indexed(rng, text, depth);
            1
        }
        _ => {
            separation(rng, text, depth);
            1
        }
    };
    gap(rng, text, false);
    text.push(b']');
    count
}
