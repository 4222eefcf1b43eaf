//! The tokens of a program's text.

use super::{Op, OPERATORS};
use crate::text::numbers::Number;
use crate::text::tokens::{is_regular, is_white};

/// A token of a program.
#[derive(Clone, Copy, Debug, PartialEq, Eq)]
pub enum Token {
    /// `{`
    Open,
    /// `}`
    Close,
    /// A number in millionths.
    Number(i32),
    /// An operator that takes no count and no pair of braces.
    Op(Op),
    /// `copy`
    Copy,
    /// `index`
    Index,
    /// `roll`
    Roll,
    /// `if`
    If,
    /// `ifelse`
    IfElse,
}

/// "Calculator text .., up to the first zero or the run's end."
pub fn text_of(bytes: &[u8]) -> &[u8] {
    let end = bytes.iter().position(|b| *b == 0);
    &bytes[..end.unwrap_or(bytes.len())]
}

/// The bytes after white space and comments, which are "written as in the designer's text": a comment runs to CR or LF.
fn past_gaps(mut text: &[u8]) -> &[u8] {
    while let [first, rest @ ..] = text {
        text = match first {
            b'%' => {
                let end = rest.iter().position(|b| *b == b'\r' || *b == b'\n');
                &rest[end.unwrap_or(rest.len())..]
            }
            white if is_white(*white) => rest,
            _ => break,
        };
    }
    text
}

/// The tokens of a text; none where 16 is due for one of them: "16 unknown token, a number finer than millionths or past
/// 32 bits".
pub fn tokens(bytes: &[u8]) -> Option<Vec<Token>> {
    let mut tokens = Vec::new();
    let mut text = past_gaps(text_of(bytes));
    while let [first, ..] = text {
        let length = match first {
            b'{' | b'}' => 1,
            // "Tokens other than braces end at white space, % or a delimiter." One that begins with another delimiter
            // has no byte, and is unknown.
            _ => text.iter().take_while(|b| is_regular(**b)).count(),
        };
        let (written, rest) = text.split_at(length);
        tokens.push(token(written)?);
        text = past_gaps(rest);
    }
    Some(tokens)
}

/// The token that is written so; none for an unknown one and for a number that is no count of millionths.
fn token(written: &[u8]) -> Option<Token> {
    let known = match written {
        b"{" => Token::Open,
        b"}" => Token::Close,
        b"copy" => Token::Copy,
        b"index" => Token::Index,
        b"roll" => Token::Roll,
        b"if" => Token::If,
        b"ifelse" => Token::IfElse,
        _ => match OPERATORS.iter().find(|(word, _)| *word == written) {
            Some((_, op)) => Token::Op(*op),
            None => Token::Number(Number::of(written)?.millionths()?),
        },
    };
    Some(known)
}
