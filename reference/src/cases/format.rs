//! How a case is written: its line, and how bytes, floats, answers and records stand in one.

use crate::block::Body;
use crate::cie::Answer;
use crate::colour::Reply;

/// One worked case: a label, an operation's number, its whole numbers and a last run of bytes.
#[derive(Clone, Debug, PartialEq, Eq)]
pub struct Case {
    /// What the case shows, in words without a colon, at most 100 bytes.
    pub label: String,
    /// Which operation is put to the program.
    pub op: u32,
    /// The operation's whole numbers, in order.
    pub args: Vec<i32>,
    /// The run of bytes that ends the arguments, where there is one.
    pub bytes: Option<Vec<u8>>,
}

impl Case {
    /// The line that puts this case to the program, without its newline.
    pub fn input_line(&self) -> String {
        let mut line = format!("{}: {}", self.label, self.op);
        for v in &self.args {
            line += &format!(" {v}");
        }
        if let Some(bytes) = &self.bytes {
            // The first operations keep to two digits for each byte, so that both notations are read.
            let text = if self.op < 20 {
                hex_of(bytes)
            } else {
                dotted(bytes)
            };
            line += &format!(" x{text}");
        }
        line
    }
}

/// Bytes as lower-case hexadecimal digits, two to a byte.
pub fn hex_of(bytes: &[u8]) -> String {
    bytes.iter().map(|byte| format!("{byte:02x}")).collect()
}

/// Bytes as lower-case hexadecimal digits, two to a byte, and a full stop for a byte that is zero.
pub fn dotted(bytes: &[u8]) -> String {
    let text = |byte: &u8| match byte {
        0 => ".".to_string(),
        _ => format!("{byte:02x}"),
    };
    bytes.iter().map(text).collect()
}

/// A float as the 16 lower-case hexadecimal digits of its bits.
pub fn float_text(v: f64) -> String {
    format!("{:016x}", v.to_bits())
}

/// An answer in words: what it is in and its floats, of which `NoMark` has none.
pub fn answer_text(answer: &Answer) -> String {
    let (name, floats): (&str, &[f64]) = match answer {
        Answer::Gray(v) => ("Gray", std::slice::from_ref(v)),
        Answer::Rgb(v) => ("RGB", v),
        Answer::Cmyk(v) => ("CMYK", v),
        Answer::Xyz(v) => ("XYZ", v),
        Answer::NoMark => ("NoMark", &[]),
        Answer::EveryInk(v) => ("EveryInk", std::slice::from_ref(v)),
    };
    floats.iter().fold(name.to_string(), |text, v| {
        format!("{text} {}", float_text(*v))
    })
}

/// A refusal with its block in words.
pub(super) fn refusal_text((number, block): (u32, u32)) -> String {
    format!("refused {number} block {block}")
}

/// What comes back for a colour in words: its answer, then ` moved` where something was moved; or the refusal.
pub fn reply_text(reply: &Reply) -> String {
    match reply {
        Ok(colour) if colour.moved => answer_text(&colour.answer) + " moved",
        Ok(colour) => answer_text(&colour.answer),
        Err(refusal) => refusal_text(*refusal),
    }
}

/// Words as bytes, four to a word, high byte first.
pub(super) fn bytes_of(words: &[i32]) -> Vec<u8> {
    words.iter().flat_map(|word| word.to_be_bytes()).collect()
}

/// The numbers of a record's body, in the order of the paper's table.
pub(super) fn numbers_of(body: &Body) -> Vec<i32> {
    match body {
        Body::Free | Body::Palette | Body::Program => Vec::new(),
        Body::CalGray {
            white,
            black,
            gamma,
        } => [&white[..], black, &[*gamma]].concat(),
        Body::CalRgb {
            white,
            black,
            gammas,
            matrix,
        } => [&white[..], black, gammas, matrix].concat(),
        Body::Lab {
            white,
            black,
            range,
        } => [&white[..], black, range].concat(),
        Body::Indexed { base, hival } => vec![i32::from(*base), i32::from(*hival)],
        Body::Separation {
            alternate,
            exponent,
            name_length,
            c0,
            c1,
        } => {
            let small = [*exponent, *name_length].map(i32::from);
            [&[i32::from(*alternate)][..], &small, c0, c1].concat()
        }
        Body::DeviceN { alternate, count } => vec![i32::from(*alternate), i32::from(*count)],
    }
}

/// A number of millionths in decimal, for labels.
pub(super) fn decimal(v: i32) -> String {
    match v {
        i32::MIN => return "the least number".to_string(),
        i32::MAX => return "the greatest number".to_string(),
        _ => {}
    }
    let sign = if v < 0 { "-" } else { "" };
    let (whole, rest) = (v.unsigned_abs() / 1_000_000, v.unsigned_abs() % 1_000_000);
    let text = format!("{sign}{whole}.{rest:06}");
    text.trim_end_matches('0').trim_end_matches('.').to_string()
}
