//! Names as a designer writes them, with `#xx` for a byte.

use crate::refusals::Stop;

/// Whether a byte stands for itself in a name.
fn is_plain(b: u8) -> bool {
    matches!(b, b'!'..=b'~') && !b"#()<>[]{}/%".contains(&b)
}

/// A name as a designer writes it, without its slash.
pub(crate) fn written(name: &[u8]) -> String {
    name.iter()
        .map(|&b| match b {
            b if is_plain(b) => char::from(b).to_string(),
            b => format!("#{b:02X}"),
        })
        .collect()
}

/// The names of a record, each as a designer writes it.
pub(crate) fn all(record: &sktelbaan::Record) -> Vec<String> {
    record.names().into_iter().map(written).collect()
}

/// A name between quotes: a space stands for itself.
pub(crate) fn quoted(name: &[u8]) -> String {
    let parts: Vec<String> = name.split(|b| *b == b' ').map(written).collect();
    format!("\"{}\"", parts.join(" ").replace('"', "#22"))
}

/// The bytes of a name that is written so. Any byte but `#` stands for itself.
pub(crate) fn read(text: &[u8]) -> Option<Vec<u8>> {
    let mut name = Vec::new();
    let mut rest = text;
    while let Some((&b, after)) = rest.split_first() {
        rest = after;
        if b != b'#' {
            name.push(b);
            continue;
        }
        let (digits, after) = rest.split_at_checked(2)?;
        let digit = |b: u8| char::from(b).to_digit(16);
        let byte = digit(digits[0])? * 16 + digit(digits[1])?;
        name.push(byte as u8);
        rest = after;
    }
    Some(name)
}

/// The bytes of a name that is a word of the command line.
pub(crate) fn argument(text: &[u8]) -> Result<Vec<u8>, Stop> {
    read(text).ok_or_else(|| {
        let text = String::from_utf8_lossy(text);
        let words = "two hexadecimal digits follow a # in a name; #23 is # itself";
        Stop::wrong(format!("{text}: {words}"))
    })
}

#[cfg(test)]
mod tests {
    use super::*;

    #[test]
    fn names_read_back() {
        let every: Vec<u8> = (0..=255).collect();
        assert_eq!(read(written(&every).as_bytes()), Some(every));
        assert_eq!(written(b"Slate Blue"), "Slate#20Blue");
        assert_eq!(quoted(b"Slate Blue"), "\"Slate Blue\"");
        assert_eq!(quoted(b"a\"b\x1b"), "\"a#22b#1B\"");
        assert_eq!(read(b"Slate Blue"), Some(b"Slate Blue".to_vec()));
        for text in ["#", "#2", "#x0", "a#"] {
            assert_eq!(read(text.as_bytes()), None, "{text}");
        }
    }
}
