//! What is told of a refusal or a fault, and how a command stops.

use crate::json::{self, Object};
use crate::lines::Excerpt;
use sktelbaan::Refusal;

/// Why a command stops before its end.
pub(crate) enum Stop {
    /// A refusal of the library, or a fault.
    Told(Box<Told>),
    /// The standard output is a pipe that nobody reads any more.
    Closed,
}

impl Stop {
    /// Wrong use, or a file that cannot be read or written.
    pub fn wrong(words: String) -> Stop {
        Told::new(2, words).into()
    }
}

impl From<Told> for Stop {
    fn from(told: Told) -> Stop {
        Stop::Told(Box::new(told))
    }
}

/// The worse of two statuses: a refusal is worse than a colour that was pulled in.
pub(crate) fn worse(a: u8, b: u8) -> u8 {
    let rank = |status: u8| match status {
        3 => 1,
        0 => 0,
        other => other + 1,
    };
    if rank(b) > rank(a) {
        b
    } else {
        a
    }
}

/// Where in a file something is.
#[derive(Clone, Copy, Debug, PartialEq, Eq)]
pub(crate) enum Place {
    Nowhere,
    /// A block of a page.
    Block(u32),
    /// A line, counted from 1.
    Line(u64),
    /// A line and a column, both counted from 1, the column in bytes.
    Column(usize, usize),
}

/// What is told of a refusal or a fault.
pub(crate) struct Told {
    /// The exit status that it gives.
    pub status: u8,
    pub file: Option<String>,
    pub place: Place,
    /// The refusal's number in FORMAT.md.
    pub refusal: Option<u32>,
    /// The byte of a text that it is about.
    pub at: Option<u64>,
    pub words: String,
    pub excerpt: Option<Excerpt>,
    /// Facts that may help.
    pub notes: Vec<String>,
}

/// The names of the refusals in FORMAT.md, from 1 on.
const NAMES: [&str; 17] = [
    "length",
    "check",
    "form",
    "clause rule",
    "house limit",
    "reference",
    "run or spare entry",
    "no such space",
    "components",
    "room",
    "recipe",
    "text",
    "text",
    "text",
    "text",
    "program text",
    "program stack",
];

/// How many refusals there are.
pub(crate) const COUNT: u32 = NAMES.len() as u32;

/// The name of a refusal.
pub(crate) fn name_of(number: u32) -> &'static str {
    let place = (number as usize).wrapping_sub(1);
    NAMES.get(place).copied().unwrap_or("not known here")
}

/// When a refusal is given, in the library's words.
pub(crate) fn words_of(number: u32) -> &'static str {
    Refusal { number, block: 0 }.meaning()
}

impl Told {
    pub fn new(status: u8, words: String) -> Told {
        Told {
            status,
            file: None,
            place: Place::Nowhere,
            refusal: None,
            at: None,
            words,
            excerpt: None,
            notes: Vec::new(),
        }
    }

    /// A refusal of the library, of a file, in the library's words.
    pub fn refused(number: u32, file: &str) -> Told {
        Told {
            refusal: Some(number),
            file: Some(file.to_string()),
            ..Told::new(1, words_of(number).to_string())
        }
    }

    /// A fault of a file's text, with its place.
    pub fn fault(file: &str, words: &str) -> Told {
        Told {
            file: Some(file.to_string()),
            ..Told::new(2, words.to_string())
        }
    }

    /// The same in other words, which say more.
    pub fn in_words(mut self, words: String) -> Told {
        self.words = words;
        self
    }

    pub fn at_place(mut self, place: Place) -> Told {
        self.place = place;
        self
    }

    /// The same at a byte of a text, which is shown.
    pub fn in_text(mut self, text: &[u8], at: usize) -> Told {
        let excerpt = Excerpt::of(text, at);
        self.place = Place::Column(excerpt.line, excerpt.column);
        self.excerpt = Some(excerpt);
        self
    }

    pub fn with_notes(mut self, notes: Vec<String>) -> Told {
        self.notes.extend(notes);
        self
    }

    /// The lines for standard error: `FILE:PLACE: refused NUMBER (NAME): WORDS`, the line of a text, notes.
    pub fn text(&self) -> String {
        let file = self.file.as_deref().unwrap_or_default();
        let mut text = match self.place {
            Place::Nowhere if file.is_empty() => String::new(),
            Place::Nowhere => format!("{file}: "),
            Place::Block(block) => format!("{file}: block {block}: "),
            Place::Line(line) => format!("{file}:{line}: "),
            Place::Column(line, column) => format!("{file}:{line}:{column}: "),
        };
        text += &match (self.refusal, self.status) {
            (Some(number), _) => format!("refused {number} ({})", name_of(number)),
            (None, 1) => "refused".to_string(),
            _ => String::new(),
        };
        if let Some(at) = self.at {
            text += &format!(" at byte {at}");
        }
        if self.status == 1 {
            text += ": ";
        }
        text += &self.words;
        text.push('\n');
        if let Some(excerpt) = &self.excerpt {
            text += &excerpt.text();
        }
        for note in &self.notes {
            text += &format!("note: {note}\n");
        }
        text
    }

    /// The refusal as an object.
    pub fn object(&self) -> Object {
        let mut object = Object::new();
        if let Some(file) = &self.file {
            object = object.text("file", file);
        }
        object = match (self.refusal, self.status) {
            (Some(number), _) => object
                .number("refused", i64::from(number))
                .text("name", name_of(number)),
            (None, 1) => object.raw("refused", "null"),
            _ => object,
        };
        object = match self.place {
            Place::Nowhere => object,
            Place::Block(block) => object.number("block", i64::from(block)),
            Place::Line(line) => object.number("line", line as i64),
            Place::Column(line, column) => object
                .number("line", line as i64)
                .number("column", column as i64),
        };
        if let Some(at) = self.at {
            object = object.number("at", at as i64);
        }
        object = object.text("words", &self.words);
        if !self.notes.is_empty() {
            let notes = self.notes.iter().map(|note| json::string(note));
            object = object.raw("notes", &json::list(notes));
        }
        object
    }
}

#[cfg(test)]
mod tests {
    use super::*;

    #[test]
    fn names_are_those_of_the_format() {
        let format = include_str!("../../docs/FORMAT.md");
        for number in (1..=COUNT).filter(|number| !(12..=15).contains(number)) {
            let row = format!("| {number} | {} |", name_of(number));
            assert!(format.contains(&row), "{row}");
        }
        assert!(format.contains("| 12 to 15 | text |"));
        let beyond = words_of(COUNT + 1);
        assert!(beyond.starts_with("not a refusal"), "{beyond}");
    }

    #[test]
    fn a_refusal_is_told_with_its_place() {
        let told = Told::refused(2, "a.page").at_place(Place::Block(0));
        let words = "a block's check is not that of its bytes";
        assert_eq!(
            told.text(),
            format!("a.page: block 0: refused 2 (check): {words}\n")
        );
        let object = told.object().line();
        let expected = "{\"file\":\"a.page\",\"refused\":2,\"name\":\"check\",\"block\":0,";
        assert_eq!(object, format!("{expected}\"words\":\"{words}\"}}\n"));
    }
}
