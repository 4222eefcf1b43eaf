//! Recipes in files: the binary form, words of four bytes each, big-endian; and the text form, decimal words between
//! white space, `%` beginning a comment.

use crate::args::Words;
use crate::files;
use crate::json::{self, Object};
use crate::numbers;
use crate::refusals::{Stop, Told};
use crate::spaces;
use crate::steps;
use crate::streams::Desk;
use std::ffi::OsStr;

/// How many bytes of a file are read: a recipe in text may have comments of any length.
const MOST_BYTES: usize = 1 << 24;
/// The refusal of what is no recipe.
const NO_RECIPE: u32 = 11;

/// A recipe, and the file that it was read from.
pub(crate) struct Recipe {
    pub name: String,
    pub words: Vec<i32>,
}

impl Recipe {
    /// Reads a recipe in either form that the library accepts. Run on no component it is refused, with 9 where it is well-formed.
    pub fn accepted(desk: &mut Desk<'_>, file: &OsStr) -> Result<Recipe, Stop> {
        let contents = files::read_whole(desk, file, MOST_BYTES)?;
        let name = contents.name;
        let words = words_of(&name, &contents.bytes)?;
        match sktelbaan::run(&words, &[]) {
            Err(refusal) if refusal.number == NO_RECIPE => {
                let count = format!("it has {} words", words.len());
                Err(Told::refused(NO_RECIPE, &name)
                    .with_notes(vec![count])
                    .into())
            }
            _ => Ok(Recipe { name, words }),
        }
    }
}

/// The words of a file. The binary form begins with a zero byte, for the input count is small; the text form never does.
fn words_of(name: &str, bytes: &[u8]) -> Result<Vec<i32>, Stop> {
    if bytes.first() != Some(&0) {
        return read_text(name, bytes);
    }
    let words = bytes.chunks_exact(4);
    if !words.remainder().is_empty() {
        let words = format!("{} bytes are not words of four bytes", bytes.len());
        return Err(Told::refused(NO_RECIPE, name).in_words(words).into());
    }
    let word = |b: &[u8]| b.iter().fold(0_u32, |v, b| v << 8 | u32::from(*b)) as i32;
    Ok(words.map(word).collect())
}

/// The words of the text form.
fn read_text(name: &str, text: &[u8]) -> Result<Vec<i32>, Stop> {
    let mut words = Vec::new();
    let mut at = 0;
    while let Some(&b) = text.get(at) {
        let rest = &text[at..];
        let length = |stop: &dyn Fn(&u8) -> bool| rest.iter().position(stop).unwrap_or(rest.len());
        if b.is_ascii_whitespace() {
            at += 1;
        } else if b == b'%' {
            at += length(&|b| matches!(b, b'\n' | b'\r'));
        } else {
            let word = &rest[..length(&|b| b.is_ascii_whitespace() || *b == b'%')];
            let Some(v) = numbers::whole(word) else {
                return Err(no_word(name, text, at));
            };
            words.push(v);
            at += word.len();
        }
    }
    Ok(words)
}

/// A word of the text form that is none.
fn no_word(name: &str, text: &[u8], at: usize) -> Stop {
    let words = "not a word of 32 bits".to_string();
    let told = Told::refused(NO_RECIPE, name).in_words(words);
    told.in_text(text, at).into()
}

/// `recipe PAGE SPACE`: the recipe of a space.
pub(crate) fn recipe(desk: &mut Desk<'_>, words: &Words, usage: &str) -> Result<u8, Stop> {
    let arguments = words.expect(2, 2, usage)?;
    let house = words.value("--house");
    let found = spaces::find(desk, &arguments[0], &arguments[1], house)?;
    let recipe = found.page.recipe(found.number)?;
    write(desk, words, &recipe)
}

/// `steps RECIPE`: a recipe, step by step.
pub(crate) fn steps(desk: &mut Desk<'_>, words: &Words, usage: &str) -> Result<u8, Stop> {
    let arguments = words.expect(1, 1, usage)?;
    let recipe = Recipe::accepted(desk, &arguments[0])?;
    write(desk, words, &recipe.words)
}

/// Writes a recipe in the form that the options ask for.
fn write(desk: &mut Desk<'_>, options: &Words, recipe: &[i32]) -> Result<u8, Stop> {
    let forms = ["--binary", "--c", "--plain"].map(|form| options.has(form));
    if forms.iter().filter(|form| **form).count() > 1 {
        let words = "--binary, --c and --plain are three forms: name one".to_string();
        return Err(Stop::wrong(words));
    }
    if options.has("--binary") {
        let bytes: Vec<u8> = recipe.iter().flat_map(|word| word.to_be_bytes()).collect();
        desk.put_binary(&bytes, "a binary recipe")?;
        desk.wrote(recipe.len(), "word", "words");
        return Ok(0);
    }
    let text = match options.value("--c") {
        Some(name) => steps::in_c(&identifier(name)?, recipe),
        None if desk.json => Object::new().raw("words", &json::list(recipe)).line(),
        None if options.has("--plain") => {
            let words: Vec<String> = recipe.iter().map(i32::to_string).collect();
            words.join(" ") + "\n"
        }
        None => steps::text(recipe),
    };
    desk.say(&text)?;
    Ok(0)
}

/// A name that C can give to an array.
fn identifier(name: &OsStr) -> Result<String, Stop> {
    let text = name.to_string_lossy();
    let fits = |b: u8| b.is_ascii_alphanumeric() || b == b'_';
    if text.is_empty() || !text.bytes().all(fits) || text.as_bytes()[0].is_ascii_digit() {
        let words = "a name of C has letters, digits and _, and begins with no digit";
        return Err(Stop::wrong(format!("{text}: {words}")));
    }
    Ok(text.into_owned())
}

#[cfg(test)]
mod tests {
    use super::*;

    #[test]
    fn both_forms_give_the_same_words() {
        let read = |bytes: &[u8]| words_of("r", bytes).ok();
        let binary = [0, 0, 0, 1, 0xff, 0xff, 0xff, 0xff];
        assert_eq!(read(&binary), Some(vec![1, -1]));
        assert_eq!(read(b"1 % one\n\t-1%x"), Some(vec![1, -1]));
        assert_eq!(read(b""), Some(vec![]));
        assert_eq!(read(b"% 1"), Some(vec![]));
        for bytes in [
            &b"\0"[..],
            b"\0\0\0\x01\0",
            b"1 x",
            b"1.0",
            b"2147483648",
            b"+1",
        ] {
            assert!(read(bytes).is_none(), "{bytes:?}");
        }
    }
}
