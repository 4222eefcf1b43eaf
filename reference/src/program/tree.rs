//! A program as a tree: what stands in braces is a branch.

use super::tokens::{tokens, Token};
use super::{Op, MOST_NESTING, MOST_TOKENS};

/// A literal count as it is written, in millionths; none where none stands "straight before".
pub type Count = Option<i32>;

/// An item of a program.
#[derive(Clone, Debug, PartialEq, Eq)]
pub enum Item {
    /// A number in millionths.
    Number(i32),
    /// An operator that takes no count and no pair of braces.
    Op(Op),
    /// `n copy`
    Copy(Count),
    /// `n index`
    Index(Count),
    /// `n j roll`
    Roll(Count, Count),
    /// `{ .. } if`
    If(Program),
    /// `{ .. } { .. } ifelse`
    IfElse(Program, Program),
}

/// A program, or a branch of one: its items in order.
pub type Program = Vec<Item>;

/// The program of a text; none where 16 is due: "16 unknown token, a number finer than millionths or past 32 bits, too
/// many tokens or bad nesting". There is "one outer pair, with only white space and comments around it".
pub fn parse(text: &[u8]) -> Option<Program> {
    let tokens = tokens(text)?;
    if tokens.len() > MOST_TOKENS {
        return None;
    }
    let (Token::Open, inside) = tokens.split_first()? else {
        return None;
    };
    let (program, after) = pair(inside, 1)?;
    after.is_empty().then_some(program)
}

/// What stands in a pair of braces at this depth, from behind its `{` on, and the tokens behind its `}`. Bad nesting is
/// "also if or ifelse without its pairs straight before it, or pairs without either".
fn pair(tokens: &[Token], depth: usize) -> Option<(Program, &[Token])> {
    if depth > MOST_NESTING {
        return None;
    }
    let mut items = Vec::new();
    // The pairs straight before the next token.
    let mut pairs: Vec<Program> = Vec::new();
    let mut left = tokens;
    loop {
        let (token, rest) = left.split_first()?;
        left = rest;
        match (token, pairs.len()) {
            (Token::Open, _) => {
                let (inner, after) = pair(left, depth + 1)?;
                pairs.push(inner);
                left = after;
            }
            (Token::If, 1) => items.push(Item::If(pairs.pop()?)),
            (Token::IfElse, 2) => {
                let second = pairs.pop()?;
                items.push(Item::IfElse(pairs.pop()?, second));
            }
            (Token::Close, 0) => return Some((items, left)),
            (Token::If | Token::IfElse, _) | (_, 1..) => return None,
            (Token::Number(number), 0) => items.push(Item::Number(*number)),
            (Token::Op(op), 0) => items.push(Item::Op(*op)),
            (Token::Copy, 0) => {
                let count = literal(&mut items);
                items.push(Item::Copy(count));
            }
            (Token::Index, 0) => {
                let count = literal(&mut items);
                items.push(Item::Index(count));
            }
            (Token::Roll, 0) => {
                let by = literal(&mut items);
                let count = literal(&mut items);
                items.push(Item::Roll(count, by));
            }
        }
    }
}

/// "Copy, index and roll have literal counts straight before them": takes the last item, where it is a number.
fn literal(items: &mut Program) -> Count {
    match items.last() {
        Some(Item::Number(count)) => {
            let count = *count;
            items.pop();
            Some(count)
        }
        _ => None,
    }
}
