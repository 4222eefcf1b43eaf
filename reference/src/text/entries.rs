//! The dictionaries of a text: CalGray's, CalRGB's and Lab's, and a Separation's function.

use super::numbers::{whole, Number};
use super::tokens::{Token, Tokens};
use super::{Refusal, SYNTAX};
use crate::numbers::ONE;
use crate::page::Family;

/// What a number of an entry has to be, besides one of millionths.
#[derive(Clone, Copy)]
enum Asked {
    /// Any number.
    Any,
    /// "5 an N not whole in 1..4".
    Exponent,
    /// Just these whole numbers, one after the other: FunctionType 2, Domain 0 1.
    Just(&'static [u8]),
}

/// How a value is written.
#[derive(Clone, Copy)]
enum Form {
    /// A number.
    One,
    /// So many numbers in brackets.
    Array(usize),
}

/// An entry that a dictionary may have.
pub struct Entry {
    key: &'static str,
    form: Form,
    asked: Asked,
    /// "Missing optional entries get defaults"; none where the entry has to be there.
    default: Option<Vec<i32>>,
}

fn entry(key: &'static str, form: Form, default: Option<&[i32]>) -> Entry {
    Entry {
        key,
        form,
        asked: Asked::Any,
        default: default.map(<[i32]>::to_vec),
    }
}

/// The entries of a family's dictionary; of a Separation's function over an alternate of so many components.
pub fn entries_of(family: Family, components: usize) -> Vec<Entry> {
    let white = entry("WhitePoint", Form::Array(3), None);
    let black = entry("BlackPoint", Form::Array(3), Some(&[0, 0, 0]));
    match family {
        Family::CalGray => vec![white, black, entry("Gamma", Form::One, Some(&[ONE]))],
        Family::CalRgb => vec![
            white,
            black,
            entry("Gamma", Form::Array(3), Some(&[ONE; 3])),
            entry(
                "Matrix",
                Form::Array(9),
                Some(&[ONE, 0, 0, 0, ONE, 0, 0, 0, ONE]),
            ),
        ],
        Family::Lab => {
            let wide = 100 * ONE;
            vec![
                white,
                black,
                entry("Range", Form::Array(4), Some(&[-wide, wide, -wide, wide])),
            ]
        }
        _ => {
            // "left out only where that is 1"
            let alone = |value: i32| (components == 1).then_some([value]);
            let ends = Form::Array(components);
            vec![
                Entry {
                    asked: Asked::Just(&[2]),
                    ..entry("FunctionType", Form::One, None)
                },
                Entry {
                    asked: Asked::Just(&[0, 1]),
                    ..entry("Domain", Form::Array(2), None)
                },
                Entry {
                    asked: Asked::Exponent,
                    ..entry("N", Form::One, None)
                },
                entry("C0", ends, alone(0).as_ref().map(<[i32; 1]>::as_slice)),
                entry("C1", ends, alone(ONE).as_ref().map(<[i32; 1]>::as_slice)),
            ]
        }
    }
}

/// The values of a dictionary, by their keys.
pub struct Dictionary(Vec<(&'static str, Vec<i32>)>);

impl Dictionary {
    /// A whole dictionary, from its `<<` to its `>>`. "14 a missing, doubled or unknown key", "a missing key at the >>".
    pub fn read(tokens: &mut Tokens<'_>, entries: &[Entry]) -> Result<Dictionary, Refusal> {
        let (token, at) = tokens.next()?;
        if token != Token::DictOpen {
            return Err((SYNTAX, at));
        }
        let mut values: Vec<(&'static str, Vec<i32>)> = Vec::new();
        loop {
            let (token, at) = tokens.next()?;
            match token {
                Token::Name(name) => {
                    let known = entries.iter().find(|entry| entry.key.as_bytes() == name);
                    let entry = known.ok_or((14, at))?;
                    if values.iter().any(|(key, _)| *key == entry.key) {
                        return Err((14, at));
                    }
                    values.push((entry.key, entry.value(tokens)?));
                }
                Token::DictClose => {
                    for entry in entries {
                        if values.iter().all(|(key, _)| *key != entry.key) {
                            let default = entry.default.clone().ok_or((14, at))?;
                            values.push((entry.key, default));
                        }
                    }
                    return Ok(Dictionary(values));
                }
                _ => return Err((SYNTAX, at)),
            }
        }
    }

    /// The first N numbers of a value, with zeros past its end.
    pub fn row<const N: usize>(&self, key: &str) -> [i32; N] {
        let value = self.0.iter().find(|(known, _)| *known == key);
        std::array::from_fn(|i| value.and_then(|(_, row)| row.get(i).copied()).unwrap_or(0))
    }
}

impl Entry {
    /// The entry's value. "One number too many in an array: 12 at that number; too few: 12 at the `]`."
    fn value(&self, tokens: &mut Tokens<'_>) -> Result<Vec<i32>, Refusal> {
        let count = match self.form {
            Form::One => return Ok(vec![self.number(tokens, 0)?]),
            Form::Array(count) => count,
        };
        let (token, at) = tokens.next()?;
        if token != Token::ArrayOpen {
            return Err((SYNTAX, at));
        }
        let row = (0..count)
            .map(|place| self.number(tokens, place))
            .collect::<Result<_, _>>()?;
        let (token, at) = tokens.next()?;
        if token != Token::ArrayClose {
            return Err((SYNTAX, at));
        }
        Ok(row)
    }

    /// One number of the value. "A number where none may stand is 12 and not 13"; "13 before 5".
    fn number(&self, tokens: &mut Tokens<'_>, place: usize) -> Result<i32, Refusal> {
        let (token, at) = tokens.next()?;
        let Token::Number(number) = token else {
            return Err((SYNTAX, at));
        };
        match self.asked {
            Asked::Any => in_millionths(&number, at),
            Asked::Just(digits) => number.just(digits[place], at),
            Asked::Exponent => {
                let value = in_millionths(&number, at)?;
                whole(value, 1, 4).ok_or((5, at))?;
                Ok(value)
            }
        }
    }
}

/// "13 a number too large or too fine."
fn in_millionths(number: &Number, at: u64) -> Result<i32, Refusal> {
    number.millionths().ok_or((13, at))
}
