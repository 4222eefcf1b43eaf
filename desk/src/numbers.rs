//! Decimal numbers, exact to the millionth: read from words, and written.

use crate::refusals::Stop;

/// Why a word is no number of millionths.
#[derive(Clone, Copy, Debug, PartialEq, Eq)]
pub(crate) enum Fault {
    NoNumber,
    Comma,
    /// More digits after the point than this many.
    TooFine(usize),
    TooLarge,
}

impl Fault {
    /// The fault in words.
    pub fn words(self) -> &'static str {
        match self {
            Fault::NoNumber => "not a decimal number, as 0.5, -30 or 50%",
            Fault::Comma => "a comma: numbers have a point, and white space between them",
            Fault::TooFine(4) => "more than four digits after the point of a per cent",
            Fault::TooFine(_) => "more than six digits after the point",
            Fault::TooLarge => "not within -2147.483648 to 2147.483647",
        }
    }
}

/// A component: a decimal number, or one of per cent.
pub(crate) fn component(word: &[u8]) -> Result<i32, Fault> {
    match word.split_last() {
        Some((b'%', number)) => decimal(number, 4),
        _ => decimal(word, 6),
    }
}

/// A decimal number in millionths.
pub(crate) fn millionths(word: &[u8]) -> Result<i32, Fault> {
    decimal(word, 6)
}

/// A number with a sign or none, digits and a point, and at least one digit: its count of units of so many places after the point.
fn decimal(word: &[u8], places: usize) -> Result<i32, Fault> {
    let (negative, digits) = match word {
        [b'-', rest @ ..] => (true, rest),
        [b'+', rest @ ..] => (false, rest),
        _ => (false, word),
    };
    let mut size: i64 = 0;
    let mut after: Option<usize> = None;
    let mut some = false;
    for &b in digits {
        match (b, after) {
            (b'0'..=b'9', _) => {
                some = true;
                after = after.map(|count| count + 1);
                if after.is_none_or(|count| count <= places) {
                    size = size.saturating_mul(10).saturating_add(i64::from(b - b'0'));
                }
            }
            (b'.', None) => after = Some(0),
            (b',', _) if some => return Err(Fault::Comma),
            _ => return Err(Fault::NoNumber),
        }
    }
    if !some {
        return Err(Fault::NoNumber);
    }
    scaled(negative, size, after.unwrap_or(0), places)
}

/// The digits of a number, with so many of them after the point.
fn scaled(negative: bool, size: i64, after: usize, places: usize) -> Result<i32, Fault> {
    if after > places {
        return Err(Fault::TooFine(places));
    }
    let unit = 10_i64.pow((places - after) as u32);
    let size = size.saturating_mul(unit);
    let signed = if negative { -size } else { size };
    i32::try_from(signed).map_err(|_| Fault::TooLarge)
}

/// A whole number of 32 bits; none for any other word.
pub(crate) fn whole(word: &[u8]) -> Option<i32> {
    let digits = word.strip_prefix(b"-").unwrap_or(word);
    let plain = !digits.is_empty() && digits.iter().all(u8::is_ascii_digit);
    std::str::from_utf8(word)
        .ok()
        .filter(|_| plain)?
        .parse()
        .ok()
}

/// A component that is a word of the command line.
pub(crate) fn argument(word: &std::ffi::OsStr) -> Result<i32, Stop> {
    component(word.as_encoded_bytes()).map_err(|fault| {
        let word = word.to_string_lossy();
        Stop::wrong(format!("{word}: {}", fault.words()))
    })
}

/// A count of millionths in decimal, with no digit too many.
pub(crate) fn written(v: i32) -> String {
    let sign = if v < 0 { "-" } else { "" };
    let size = v.unsigned_abs();
    let text = format!("{sign}{}.{:06}", size / 1_000_000, size % 1_000_000);
    text.trim_end_matches('0').trim_end_matches('.').to_string()
}

/// Counts of millionths in decimal, with a space between two.
pub(crate) fn row(values: &[i32]) -> String {
    let values: Vec<String> = values.iter().map(|v| written(*v)).collect();
    values.join(" ")
}

/// Bytes in hexadecimal, with a space between two.
pub(crate) fn hexadecimal(bytes: &[u8]) -> String {
    let bytes: Vec<String> = bytes.iter().map(|b| format!("{b:02X}")).collect();
    bytes.join(" ")
}

/// A number with commas between its thousands.
pub(crate) fn thousands(v: u64) -> String {
    let digits = v.to_string();
    let mut made = String::new();
    for (k, c) in digits.chars().enumerate() {
        if k > 0 && (digits.len() - k).is_multiple_of(3) {
            made.push(',');
        }
        made.push(c);
    }
    made
}

#[cfg(test)]
mod tests {
    use super::*;

    #[test]
    fn numbers_are_exact_or_refused() {
        let rows: [(&str, Result<i32, Fault>); 22] = [
            ("0.5", Ok(500_000)),
            ("-30", Ok(-30_000_000)),
            ("50%", Ok(500_000)),
            ("12.3456%", Ok(123_456)),
            ("12.34567%", Err(Fault::TooFine(4))),
            (".5", Ok(500_000)),
            ("+1.", Ok(1_000_000)),
            ("-0", Ok(0)),
            ("0.1234567", Err(Fault::TooFine(6))),
            ("1.0000000", Err(Fault::TooFine(6))),
            ("2147.483647", Ok(i32::MAX)),
            ("-2147.483648", Ok(i32::MIN)),
            ("2147.483648", Err(Fault::TooLarge)),
            ("99999999999999999999999", Err(Fault::TooLarge)),
            ("1,8", Err(Fault::Comma)),
            ("", Err(Fault::NoNumber)),
            ("-", Err(Fault::NoNumber)),
            (".", Err(Fault::NoNumber)),
            ("%", Err(Fault::NoNumber)),
            ("1.2.3", Err(Fault::NoNumber)),
            ("1e3", Err(Fault::NoNumber)),
            ("--1", Err(Fault::NoNumber)),
        ];
        for (word, expected) in rows {
            assert_eq!(component(word.as_bytes()), expected, "{word}");
        }
        assert_eq!(millionths(b"50%"), Err(Fault::NoNumber));
    }

    #[test]
    fn what_is_written_reads_back() {
        for v in [
            0,
            1,
            -1,
            500_000,
            -30_000_000,
            1_089_000,
            i32::MAX,
            i32::MIN,
        ] {
            assert_eq!(millionths(written(v).as_bytes()), Ok(v));
        }
        assert_eq!(written(1_089_000), "1.089");
        assert_eq!(written(-100_000_000), "-100");
        assert_eq!(row(&[0, 200_000]), "0 0.2");
    }

    #[test]
    fn whole_numbers_have_digits_alone() {
        assert_eq!(whole(b"-12"), Some(-12));
        for word in ["", "-", "+1", "1.0", "x", "2147483648", " 1"] {
            assert_eq!(whole(word.as_bytes()), None, "{word}");
        }
    }

    #[test]
    fn thousands_have_commas() {
        assert_eq!(thousands(0), "0");
        assert_eq!(thousands(999), "999");
        assert_eq!(thousands(1_234_567), "1,234,567");
    }
}
