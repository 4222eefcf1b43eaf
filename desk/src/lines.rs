//! Lines and columns of a text, and a line shown with a caret under a place.

/// How many characters of a line are shown.
const WIDTH: usize = 100;

/// A line of a text and a place in it. Lines and columns count from 1, columns in bytes.
pub(crate) struct Excerpt {
    pub line: usize,
    pub column: usize,
    /// The line as it is shown, cut around the place.
    shown: String,
    /// How many characters stand before the caret.
    before: usize,
}

/// Whether a line ends before byte k: after LF, or after CR where no LF follows.
fn ends_before(text: &[u8], k: usize) -> bool {
    match text.get(k.wrapping_sub(1)) {
        Some(b'\n') => true,
        Some(b'\r') => text.get(k) != Some(&b'\n'),
        _ => false,
    }
}

/// Bytes as they are shown: what is no printed character as one that is.
fn shown(bytes: &[u8]) -> String {
    String::from_utf8_lossy(bytes)
        .chars()
        .map(|c| if c.is_control() { ' ' } else { c })
        .collect()
}

impl Excerpt {
    /// The line of a text that has byte `at`, or its end.
    pub fn of(text: &[u8], at: usize) -> Excerpt {
        let at = at.min(text.len());
        let starts = (1..=at).filter(|k| ends_before(text, *k));
        let (count, start) = starts.fold((0, 0), |(count, _), k| (count + 1, k));
        let rest = &text[start..];
        let length = rest.iter().position(|b| matches!(b, b'\n' | b'\r'));
        let line = &rest[..length.unwrap_or(rest.len())];
        let (before, after) = line.split_at((at - start).min(line.len()));
        let (before, after) = (shown(before), shown(after));
        let cut = before.chars().count().saturating_sub(WIDTH * 3 / 4);
        let kept: String = before.chars().skip(cut).collect();
        let before = kept.chars().count();
        let whole: String = kept.chars().chain(after.chars()).take(WIDTH).collect();
        Excerpt {
            line: count + 1,
            column: at - start + 1,
            shown: whole,
            before,
        }
    }

    /// The line, and a line with a caret.
    pub fn text(&self) -> String {
        let line = format!("{:>5} | {}", self.line, self.shown);
        let caret = " ".repeat(self.before);
        format!("{}\n      | {caret}^\n", line.trim_end())
    }
}

#[cfg(test)]
mod tests {
    use super::*;

    #[test]
    fn lines_and_columns_count_from_one() {
        let text = b"ab\ncd\r\nef\rgh";
        let rows = [
            (0, 1, 1),
            (1, 1, 2),
            (2, 1, 3),
            (3, 2, 1),
            (5, 2, 3),
            (6, 2, 4),
            (7, 3, 1),
            (10, 4, 1),
            (12, 4, 3),
            (99, 4, 3),
        ];
        for (at, line, column) in rows {
            let excerpt = Excerpt::of(text, at);
            assert_eq!((excerpt.line, excerpt.column), (line, column), "{at}");
        }
        assert_eq!(Excerpt::of(text, 4).text(), "    2 | cd\n      |  ^\n");
        assert_eq!(Excerpt::of(b"", 0).text(), "    1 |\n      | ^\n");
    }

    #[test]
    fn a_long_line_is_cut_around_the_place() {
        let text: Vec<u8> = (0..300).map(|k| b'0' + (k % 10) as u8).collect();
        let lines = Excerpt::of(&text, 200).text();
        let (line, caret) = lines.split_once('\n').unwrap();
        assert_eq!(line.len(), 108);
        assert_eq!(caret.trim_end().len(), 8 + 75 + 1);
        assert_eq!(line.as_bytes()[8 + 75], b'0');
    }
}
