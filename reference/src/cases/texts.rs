//! Cases of designers' texts: operation 36, for each reading of change request 2026-03 a line with its text whole and
//! one with it byte by byte. Every text of the table fits a line; those of 4,294,967,295 bytes and of one more do not,
//! and are left to `difference/tests/texts.rs`.

use super::format::Case;
use super::maker::Maker;
use crate::text::readings;

/// How a text is cut: in words, and the bytes of a part, 0 for a text in one part.
pub(super) const CUTS: [(&str, usize); 2] = [("whole", 0), ("byte by byte", 1)];

/// The cases of this group.
pub(super) fn cases() -> Vec<Case> {
    let mut maker = Maker::default();
    for line in readings::table() {
        for (cut, part) in CUTS {
            let label = format!("a text, {}, {cut}", line.name);
            maker.text(&label, line.room, part, &line.text);
        }
    }
    maker.cases
}
