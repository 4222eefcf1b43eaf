//! The words of the command line: options and arguments.

use crate::commands::Opt;
use crate::refusals::Stop;
use std::ffi::{OsStr, OsString};

/// The words after a command.
pub(crate) struct Words {
    /// What is no option, in order.
    pub arguments: Vec<OsString>,
    /// The options that were given, by their last spelling, each with its value.
    options: Vec<(&'static str, OsString)>,
}

impl Words {
    /// Whether an option was given.
    pub fn has(&self, option: &str) -> bool {
        self.options.iter().any(|(name, _)| *name == option)
    }

    /// The value of an option, the last where there are several.
    pub fn value(&self, option: &str) -> Option<&OsStr> {
        let mut given = self.options.iter().rev();
        let found = given.find(|(name, _)| *name == option)?;
        Some(&found.1)
    }

    /// Just so many arguments, at least and at most; `usage` says which.
    pub fn expect(&self, least: usize, most: usize, usage: &str) -> Result<&[OsString], Stop> {
        let count = self.arguments.len();
        let too = match count {
            _ if count < least => "few",
            _ if count > most => "many",
            _ => return Ok(&self.arguments),
        };
        let words = format!("too {too} words: the usage is sktelbaan {usage}");
        Err(Stop::wrong(words))
    }
}

/// Whether a word is an option: one that begins with a minus, and is no `-` by itself and no number.
fn is_option(word: &OsStr) -> bool {
    match word.as_encoded_bytes() {
        [b'-', b'0'..=b'9', ..] | [b'-', b'.', ..] | [b'-'] => false,
        [b'-', ..] => true,
        _ => false,
    }
}

/// Takes the words after a command apart, by the options that it has.
pub(crate) fn parse(words: &[OsString], known: &[&Opt]) -> Result<Words, Stop> {
    let mut parsed = Words {
        arguments: Vec::new(),
        options: Vec::new(),
    };
    let mut left = words.iter();
    while let Some(word) = left.next() {
        if word == "--" {
            parsed.arguments.extend(left.by_ref().cloned());
        } else if is_option(word) {
            let (option, value) = one(word, known)?;
            let value = match (option.value, value) {
                (None, None) => OsString::new(),
                (Some(_), Some(value)) => value,
                (Some(_), None) => next_value(option, left.next())?,
                (None, Some(_)) => {
                    let words = format!("{} takes no value", option.name());
                    return Err(Stop::wrong(words));
                }
            };
            parsed.options.push((option.name(), value));
        } else {
            parsed.arguments.push(word.clone());
        }
    }
    Ok(parsed)
}

/// The value that follows an option.
fn next_value(option: &Opt, word: Option<&OsString>) -> Result<OsString, Stop> {
    let what = option.value.unwrap_or_default();
    let missing = || Stop::wrong(format!("{}: {what} is missing", option.name()));
    word.cloned().ok_or_else(missing)
}

/// The option that a word is, and what stands after its `=`.
fn one<'a>(word: &OsStr, known: &[&'a Opt]) -> Result<(&'a Opt, Option<OsString>), Stop> {
    let find = |name: &str| {
        let mut options = known.iter().copied();
        options.find(|option| option.names.contains(&name))
    };
    let text = word.to_string_lossy();
    if let Some(option) = find(&text) {
        return Ok((option, None));
    }
    let parts = word.to_str().and_then(|word| word.split_once('='));
    if let Some((name, value)) = parts.filter(|_| text.starts_with("--")) {
        if let Some(option) = find(name) {
            return Ok((option, Some(value.into())));
        }
    }
    let words = format!("no option {text} here: --help says which there are");
    Err(Stop::wrong(words))
}
