//! The names of a DeviceN, document 02's kind 8: "from 8 each name's length byte and its 1 to 48 bytes", packed one
//! after the other.

use super::rules::zero;

/// "With 1 to 8 names."
pub const MOST_NAMES: usize = 8;
/// "Each name's length byte and its 1 to 48 bytes."
pub const MOST_NAME_BYTES: usize = 48;

/// The name packed at the head of these bytes, and the bytes after it; none for a bad length, a zero byte in the name or
/// a name that the bytes end within.
fn first(bytes: &[u8]) -> Option<(&[u8], &[u8])> {
    let (length, rest) = bytes.split_first()?;
    let length = usize::from(*length);
    if !(1..=MOST_NAME_BYTES).contains(&length) {
        return None;
    }
    let (name, rest) = rest.split_at_checked(length)?;
    (!name.contains(&0)).then_some((name, rest))
}

/// So many names packed in these bytes, with zeros after the last; none where that does not hold, or the count is not
/// 1 to 8. Refused with 3 are "bad lengths, or a count of names outside 1 to 8", and "a byte not zero that must be".
pub fn packed_names(bytes: &[u8], count: u8) -> Option<Vec<&[u8]>> {
    if !(1..=MOST_NAMES).contains(&usize::from(count)) {
        return None;
    }
    let mut names = Vec::new();
    let mut rest = bytes;
    for _ in 0..count {
        let (name, after) = first(rest)?;
        names.push(name);
        rest = after;
    }
    zero(rest).then_some(names)
}

/// "Names differ from one another except that None may repeat; All may not appear"; else 4.
pub(super) fn names_differ(names: &[&[u8]]) -> bool {
    let alone =
        |(place, name): (usize, &&[u8])| **name == *b"None" || !names[..place].contains(name);
    !names.contains(&&b"All"[..]) && names.iter().enumerate().all(alone)
}
