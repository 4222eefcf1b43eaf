//! "Judging fixes height and kinds of the stack at every point, both branches ending alike, so nothing accepted sticks."

use super::tree::{Count, Item};
use super::{Op, MOST_HEIGHT};
use crate::numbers::ONE;

/// What a place of the stack holds.
#[derive(Clone, Copy, Debug, PartialEq, Eq)]
pub enum Kind {
    /// A number.
    Number,
    /// A truth value.
    Truth,
}

/// The kinds on the stack, the deepest first.
pub type Kinds = Vec<Kind>;

/// "The program takes one limited tint", or so many of them, "and leaves the alternate's count of numbers"; where it does
/// not, or a count or a kind is wrong on the way, 17 is due.
pub fn leaves(program: &[Item], taken: usize, left: usize) -> bool {
    after(program, vec![Kind::Number; taken]) == Some(vec![Kind::Number; left])
}

/// The kinds after a program or a branch; none where 17 is due: "17 stack, kind, or a count missing, not whole, below 0
/// or past the stack (roll's second: any whole one)".
pub fn after(program: &[Item], before: Kinds) -> Option<Kinds> {
    let mut kinds = before;
    for item in program {
        kinds = after_item(item, kinds)?;
        if kinds.len() > MOST_HEIGHT {
            return None;
        }
    }
    Some(kinds)
}

/// The kinds after one item.
fn after_item(item: &Item, mut kinds: Kinds) -> Option<Kinds> {
    let height = kinds.len();
    match item {
        Item::Number(_) => kinds.push(Kind::Number),
        Item::Op(op) => return after_op(*op, kinds),
        Item::Copy(count) => {
            let from = height.checked_sub(size(*count)?)?;
            kinds.extend_from_within(from..);
        }
        Item::Index(count) => {
            let place = height.checked_sub(size(*count)? + 1)?;
            kinds.push(kinds[place]);
        }
        Item::Roll(count, by) => {
            let from = height.checked_sub(size(*count)?)?;
            turn(&mut kinds[from..], whole(*by)?);
        }
        // "`if` leaves the kinds that it found."
        Item::If(branch) => {
            pop(&mut kinds, Kind::Truth)?;
            return after(branch, kinds.clone()).filter(|end| *end == kinds);
        }
        // "Both branches ending alike."
        Item::IfElse(first, second) => {
            pop(&mut kinds, Kind::Truth)?;
            let end = after(first, kinds.clone())?;
            return after(second, kinds).filter(|other| *other == end);
        }
    }
    Some(kinds)
}

/// The kinds after an operator: "the six comparisons on numbers only, and, or, not on truth values only".
fn after_op(op: Op, mut kinds: Kinds) -> Option<Kinds> {
    match op {
        Op::Add | Op::Sub | Op::Mul => {
            pop(&mut kinds, Kind::Number)?;
            pop(&mut kinds, Kind::Number)?;
            kinds.push(Kind::Number);
        }
        Op::Neg | Op::Abs => {
            pop(&mut kinds, Kind::Number)?;
            kinds.push(Kind::Number);
        }
        Op::Eq | Op::Ne | Op::Gt | Op::Ge | Op::Lt | Op::Le => {
            pop(&mut kinds, Kind::Number)?;
            pop(&mut kinds, Kind::Number)?;
            kinds.push(Kind::Truth);
        }
        Op::And | Op::Or => {
            pop(&mut kinds, Kind::Truth)?;
            pop(&mut kinds, Kind::Truth)?;
            kinds.push(Kind::Truth);
        }
        Op::Not => {
            pop(&mut kinds, Kind::Truth)?;
            kinds.push(Kind::Truth);
        }
        Op::True | Op::False => kinds.push(Kind::Truth),
        Op::Pop => {
            kinds.pop()?;
        }
        Op::Exch => {
            let (top, below) = (kinds.pop()?, kinds.pop()?);
            kinds.extend([top, below]);
        }
        Op::Dup => kinds.push(*kinds.last()?),
    }
    Some(kinds)
}

/// Takes the top off, where it is of this kind.
fn pop(kinds: &mut Kinds, kind: Kind) -> Option<()> {
    (kinds.pop()? == kind).then_some(())
}

/// A literal count as a whole number: "whole by value (`2.0 copy` is fine)".
pub fn whole(count: Count) -> Option<i32> {
    let millionths = count?;
    (millionths % ONE == 0).then_some(millionths / ONE)
}

/// A literal count as a size, which is whole and not below 0.
pub fn size(count: Count) -> Option<usize> {
    usize::try_from(whole(count)?).ok()
}

/// Clause 7.10.5's roll: the top goes below the others by times, or where by is below 0 the lowest comes to the top.
pub fn turn<T>(top: &mut [T], by: i32) {
    if !top.is_empty() {
        let places = i64::from(by).rem_euclid(top.len() as i64);
        top.rotate_right(places as usize);
    }
}
