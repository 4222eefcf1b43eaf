//! Change request 2026-06, "Calculator functions for tints": a program as a tree, which is its meaning.
//!
//! "Carry add, sub, mul, neg, abs, the six comparisons on numbers only, and, or, not on truth values only, true, false,
//! pop, exch, dup, copy, index, roll, if, ifelse and numbers."
//!
//! A text is read into its [`tokens`] and these into a [`tree`] (refusal 16); [`kinds`] follows the stack through the
//! tree (refusal 17); [`meaning`] runs the tree, "the nested form is the meaning"; [`flat`] has the words that a recipe
//! carries.

pub mod flat;
pub mod kinds;
pub mod meaning;
pub mod tokens;
pub mod tree;

pub use flat::words_of;
pub use meaning::results;
pub use tree::{parse, Item, Program};

/// "At most 400 tokens, braces counted."
pub const MOST_TOKENS: usize = 400;
/// "Nesting 8 with the outer pair."
pub const MOST_NESTING: usize = 8;
/// "Stack 100, the literal counts not on it."
pub const MOST_HEIGHT: usize = 100;

/// An operator that takes no count and no pair of braces.
#[derive(Clone, Copy, Debug, PartialEq, Eq)]
pub enum Op {
    /// The sum of two numbers.
    Add,
    /// The difference of two numbers.
    Sub,
    /// The product of two numbers.
    Mul,
    /// A number with the other sign.
    Neg,
    /// A number without its sign.
    Abs,
    /// Whether two numbers are equal.
    Eq,
    /// Whether two numbers differ.
    Ne,
    /// Whether the deeper of two numbers is the greater.
    Gt,
    /// Whether the deeper of two numbers is the greater, or they are equal.
    Ge,
    /// Whether the deeper of two numbers is the lesser.
    Lt,
    /// Whether the deeper of two numbers is the lesser, or they are equal.
    Le,
    /// Whether both of two truth values are true.
    And,
    /// Whether one of two truth values is true.
    Or,
    /// The other truth value.
    Not,
    /// The truth value true.
    True,
    /// The truth value false.
    False,
    /// Takes the top off.
    Pop,
    /// The two on top in the other order.
    Exch,
    /// The top once more.
    Dup,
}

/// Every operator with the word that it is written as.
pub const OPERATORS: [(&[u8], Op); 19] = [
    (b"add", Op::Add),
    (b"sub", Op::Sub),
    (b"mul", Op::Mul),
    (b"neg", Op::Neg),
    (b"abs", Op::Abs),
    (b"eq", Op::Eq),
    (b"ne", Op::Ne),
    (b"gt", Op::Gt),
    (b"ge", Op::Ge),
    (b"lt", Op::Lt),
    (b"le", Op::Le),
    (b"and", Op::And),
    (b"or", Op::Or),
    (b"not", Op::Not),
    (b"true", Op::True),
    (b"false", Op::False),
    (b"pop", Op::Pop),
    (b"exch", Op::Exch),
    (b"dup", Op::Dup),
];

/// A text judged for so many tints and an alternate of so many components: 16 of the whole text, then 17. "The program
/// takes one limited tint and leaves the alternate's count of numbers"; a DeviceN's takes "all tints, the first deepest".
pub fn judge(text: &[u8], taken: usize, left: usize) -> Result<Program, u32> {
    let program = parse(text).ok_or(16u32)?;
    if !kinds::leaves(&program, taken, left) {
        return Err(17);
    }
    Ok(program)
}
