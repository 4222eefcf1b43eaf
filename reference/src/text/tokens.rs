//! The tokens of a text, clauses 7.2 and 7.3.2 to 7.3.7: each is found whole, from its first byte on.

use super::numbers::Number;
use super::{Refusal, SYNTAX};

/// A token of a text.
#[derive(Clone, Debug, PartialEq, Eq)]
pub enum Token {
    /// `/` and a name, its `#xx` taken out.
    Name(Vec<u8>),
    /// A number.
    Number(Number),
    /// Regular characters that are neither a name nor a number.
    Keyword,
    /// A string, in either form.
    Text(Vec<u8>),
    /// `[`
    ArrayOpen,
    /// `]`
    ArrayClose,
    /// `<<`
    DictOpen,
    /// `>>`
    DictClose,
    /// The end of the text.
    End,
}

/// A token and the byte that it begins at.
pub type Placed = (Token, u64);

/// The tokens of a text, one after the other.
pub struct Tokens<'a> {
    text: &'a [u8],
    /// Whether the text goes on past the most bytes that one may have.
    too_long: bool,
    at: usize,
}

/// Table 1: NUL, HT, LF, FF, CR, SP.
pub(crate) fn is_white(b: u8) -> bool {
    matches!(b, 0 | 9 | 10 | 12 | 13 | 32)
}

/// Table 2.
fn is_delimiter(b: u8) -> bool {
    b"()<>[]{}/%".contains(&b)
}

/// "All other bytes, VT, 7F and 80 to FF among them, are regular."
pub(crate) fn is_regular(b: u8) -> bool {
    !is_white(b) && !is_delimiter(b)
}

/// The value of a hexadecimal digit.
fn hex(b: u8) -> Option<u8> {
    char::from(b).to_digit(16).map(|d| d as u8)
}

impl<'a> Tokens<'a> {
    /// The tokens of a text that may have so many bytes.
    pub fn new(text: &'a [u8], most: u64) -> Tokens<'a> {
        let kept = usize::try_from(most).map_or(text.len(), |most| most.min(text.len()));
        Tokens {
            text: &text[..kept],
            too_long: kept < text.len(),
            at: 0,
        }
    }

    fn peek(&self) -> Option<u8> {
        self.text.get(self.at).copied()
    }

    /// The refusal at the end: of an unfinished text, or of the first byte that is too many, which stands there.
    fn end(&self) -> Refusal {
        (SYNTAX, self.text.len() as u64)
    }

    /// The next byte within a token that has to go on.
    fn within(&mut self) -> Result<u8, Refusal> {
        let b = self.peek().ok_or(self.end())?;
        self.at += 1;
        Ok(b)
    }

    /// Passes white space and comments, which run to CR or LF.
    fn pass_gaps(&mut self) {
        while let Some(b) = self.peek() {
            if b == b'%' {
                while self.peek().is_some_and(|b| b != b'\r' && b != b'\n') {
                    self.at += 1;
                }
            } else if is_white(b) {
                self.at += 1;
            } else {
                return;
            }
        }
    }

    /// The next token. Bad syntax is 12 at the token's first byte; a token that the text does not finish is 12 at its end.
    #[allow(clippy::should_implement_trait)]
    pub fn next(&mut self) -> Result<Placed, Refusal> {
        self.pass_gaps();
        let first = self.at as u64;
        let Some(b) = self.peek() else {
            return self.at_end((Token::End, first));
        };
        self.at += 1;
        let token = match b {
            b'[' => Token::ArrayOpen,
            b']' => Token::ArrayClose,
            b'(' => Token::Text(self.literal()?),
            b'<' => self.less(first)?,
            b'>' => {
                // `>` followed by anything but `>`
                if self.within()? != b'>' {
                    return Err((SYNTAX, first));
                }
                Token::DictClose
            }
            b'/' => return self.name(first),
            b')' | b'{' | b'}' => return Err((SYNTAX, first)),
            _ => return self.regular(first),
        };
        Ok((token, first))
    }

    /// What the end of the text ends. A byte too many stands there instead, "before anything else".
    fn at_end(&self, token: Placed) -> Result<Placed, Refusal> {
        if self.too_long && self.at == self.text.len() {
            return Err(self.end());
        }
        Ok(token)
    }

    /// A number or a keyword, from its first byte on.
    fn regular(&mut self, first: u64) -> Result<Placed, Refusal> {
        let start = self.at - 1;
        while self.peek().is_some_and(is_regular) {
            self.at += 1;
        }
        let token = Number::of(&self.text[start..self.at]).map_or(Token::Keyword, Token::Number);
        self.at_end((token, first))
    }

    /// A name: "#xx; #00 or # without two hexadecimal digits is 12".
    fn name(&mut self, first: u64) -> Result<Placed, Refusal> {
        let mut name = Vec::new();
        while let Some(b) = self.peek().filter(|b| is_regular(*b)) {
            self.at += 1;
            if b == b'#' {
                name.push(self.hash(first)?);
            } else {
                name.push(b);
            }
        }
        self.at_end((Token::Name(name), first))
    }

    /// The byte of the two digits after a #. The end of the text ends the name there, as white space would.
    fn hash(&mut self, first: u64) -> Result<u8, Refusal> {
        let mut value = 0;
        for _ in 0..2 {
            let next = match self.peek() {
                None if self.too_long => return Err(self.end()),
                next => next,
            };
            let digit = next.and_then(hex).ok_or((SYNTAX, first))?;
            self.at += 1;
            value = 16 * value + digit;
        }
        if value == 0 {
            return Err((SYNTAX, first));
        }
        Ok(value)
    }

    /// `<<`, or a hexadecimal string: "white space ignored, an odd last digit is followed by 0, anything else is bad".
    fn less(&mut self, first: u64) -> Result<Token, Refusal> {
        if self.peek() == Some(b'<') {
            self.at += 1;
            return Ok(Token::DictOpen);
        }
        let mut digits = Vec::new();
        loop {
            let b = self.within()?;
            if b == b'>' {
                break;
            }
            if !is_white(b) {
                digits.push(hex(b).ok_or((SYNTAX, first))?);
            }
        }
        let byte = |pair: &[u8]| 16 * pair[0] + pair.get(1).copied().unwrap_or(0);
        Ok(Token::Text(digits.chunks(2).map(byte).collect()))
    }

    /// A literal string, after its first parenthesis: nested parentheses are part of it, and CR and CR LF read as LF.
    fn literal(&mut self) -> Result<Vec<u8>, Refusal> {
        let mut string = Vec::new();
        let mut depth = 1;
        loop {
            let b = self.within()?;
            match b {
                b'\\' => {
                    string.extend(self.escape()?);
                    continue;
                }
                b'(' => depth += 1,
                b')' => depth -= 1,
                _ => {}
            }
            if depth == 0 {
                return Ok(string);
            }
            string.push(if b == b'\r' { self.line_feed() } else { b });
        }
    }

    /// The end of line that a CR began, with the LF that may follow it.
    fn line_feed(&mut self) -> u8 {
        if self.peek() == Some(b'\n') {
            self.at += 1;
        }
        b'\n'
    }

    /// What stands after a backslash, Table 3: "\n \r \t \b \f \( \) \\, \ddd of one to three digits modulo 256, \ before an
    /// end of line continues, any other \ is dropped".
    fn escape(&mut self) -> Result<Option<u8>, Refusal> {
        let b = self.within()?;
        Ok(Some(match b {
            b'n' => b'\n',
            b'r' => b'\r',
            b't' => b'\t',
            b'b' => 8,
            b'f' => 12,
            b'\n' => return Ok(None),
            b'\r' => {
                self.line_feed();
                return Ok(None);
            }
            b'0'..=b'7' => {
                let mut value = u32::from(b - b'0');
                for _ in 0..2 {
                    match self.peek() {
                        Some(d @ b'0'..=b'7') => {
                            self.at += 1;
                            value = 8 * value + u32::from(d - b'0');
                        }
                        _ => break,
                    }
                }
                (value % 256) as u8
            }
            other => other,
        }))
    }
}
