//! Numbers of a text, clause 7.3.3: kept as their digits, so that nothing is rounded and nothing is too long.

use super::SYNTAX;

/// A number as it stands: its sign, and the values of its digits before and after the point.
#[derive(Clone, Debug, PartialEq, Eq)]
pub struct Number {
    minus: bool,
    before: Vec<u8>,
    after: Vec<u8>,
}

impl Number {
    /// A token of regular characters as a number: a sign or none, digits, a point or none, digits, and at least one
    /// digit; none for any other token, which is a keyword.
    pub fn of(token: &[u8]) -> Option<Number> {
        let (minus, rest) = match token {
            [b'-', rest @ ..] => (true, rest),
            [b'+', rest @ ..] => (false, rest),
            rest => (false, rest),
        };
        let (before, after) = match rest.iter().position(|b| *b == b'.') {
            Some(point) => (&rest[..point], &rest[point + 1..]),
            None => (rest, &rest[..0]),
        };
        let all_digits = before.iter().chain(after).all(u8::is_ascii_digit);
        if !all_digits || before.len() + after.len() == 0 {
            return None;
        }
        let values = |digits: &[u8]| digits.iter().map(|b| b - b'0').collect();
        Some(Number {
            minus,
            before: values(before),
            after: values(after),
        })
    }

    /// The number in millionths. "Numbers have at most six digits after the point"; none where there are more, zeros
    /// too, and where "a number too large" has no signed 32-bit count.
    pub fn millionths(&self) -> Option<i32> {
        if self.after.len() > 6 {
            return None;
        }
        let mut value: i64 = 0;
        let zeros = vec![0; 6 - self.after.len()];
        for digit in self.before.iter().chain(&self.after).chain(&zeros) {
            value = value * 10 + i64::from(*digit);
            // It only grows from here.
            if value > 1 << 31 {
                return None;
            }
        }
        let signed = if self.minus { -value } else { value };
        i32::try_from(signed).ok()
    }

    /// Whether it is this whole number of one digit, by value, however long it is written.
    pub fn is(&self, digit: u8) -> bool {
        let nothing_before = self.before.iter().rev().skip(1).all(|d| *d == 0);
        let units = self.before.last().copied().unwrap_or(0);
        let nothing_after = self.after.iter().all(|d| *d == 0);
        nothing_before && nothing_after && units == digit && (!self.minus || digit == 0)
    }

    /// The number at a place where only this whole number may stand: 12 for any other, before 13.
    pub(super) fn just(&self, digit: u8, at: u64) -> Result<i32, (u32, u64)> {
        if !self.is(digit) {
            return Err((SYNTAX, at));
        }
        self.millionths().ok_or((13, at))
    }
}

/// A number of millionths as a whole number of lo..hi; none where it is not one.
pub fn whole(millionths: i32, lo: i32, hi: i32) -> Option<i32> {
    let units = millionths / 1_000_000;
    (units * 1_000_000 == millionths && (lo..=hi).contains(&units)).then_some(units)
}
