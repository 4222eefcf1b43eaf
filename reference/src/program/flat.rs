//! The words of a program in a recipe: "the recipe's flat form with forward jumps", "one for an operator, true or false,
//! two for a number, copy, index or jump, three for roll, codes listed in docs/".

use super::kinds::whole;
use super::tree::{Count, Item};
use super::Op;

/// The words of a judged program or of a branch, by the table of codes in docs/RECIPES.md.
pub fn words_of(program: &[Item]) -> Vec<i32> {
    program.iter().flat_map(item_words).collect()
}

/// The words of one item. "`{ b } if`: `5 k`, the words of b"; "`{ a } { b } ifelse`: `5 k`, the words of a, `6 j`, the
/// words of b".
fn item_words(item: &Item) -> Vec<i32> {
    match item {
        Item::Number(v) => vec![1, *v],
        Item::Copy(count) => vec![2, plain(*count)],
        Item::Index(count) => vec![3, plain(*count)],
        Item::Roll(count, by) => vec![4, plain(*count), plain(*by)],
        Item::Op(op) => vec![code(*op)],
        Item::If(branch) => {
            let branch = words_of(branch);
            [vec![5, branch.len() as i32], branch].concat()
        }
        Item::IfElse(first, second) => {
            let (first, second) = (words_of(first), words_of(second));
            let (past_first, past_second) = (first.len() as i32 + 2, second.len() as i32);
            [vec![5, past_first], first, vec![6, past_second], second].concat()
        }
    }
}

/// "Counts and jumps are plain numbers." A judged program's counts are all there and whole; -1 stands for any other.
fn plain(count: Count) -> i32 {
    whole(count).unwrap_or(-1)
}

/// An operator's code.
fn code(op: Op) -> i32 {
    match op {
        Op::Add => 7,
        Op::Sub => 8,
        Op::Mul => 9,
        Op::Eq => 10,
        Op::Ne => 11,
        Op::Gt => 12,
        Op::Ge => 13,
        Op::Lt => 14,
        Op::Le => 15,
        Op::And => 16,
        Op::Or => 17,
        Op::Neg => 18,
        Op::Abs => 19,
        Op::Not => 20,
        Op::True => 21,
        Op::False => 22,
        Op::Pop => 23,
        Op::Exch => 24,
        Op::Dup => 25,
    }
}
