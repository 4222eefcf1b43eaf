//! Running a program: "The nested form is the meaning."

use super::kinds::{size, turn, whole};
use super::tree::Item;
use super::Op;
use crate::numbers::half_up;

/// What stands on the stack.
#[derive(Clone, Copy, Debug, PartialEq, Eq)]
pub enum Value {
    /// A number in millionths.
    Number(i32),
    /// A truth value.
    Truth(bool),
}

/// The numbers that a program leaves of limited tints, "the first deepest" in both; none where it sticks or leaves a
/// truth value, which no judged program does.
pub fn results(program: &[Item], tints: &[i32]) -> Option<Vec<i32>> {
    let mut stack: Vec<Value> = tints.iter().map(|tint| Value::Number(*tint)).collect();
    run(program, &mut stack)?;
    let number = |value: &Value| match value {
        Value::Number(v) => Some(*v),
        Value::Truth(_) => None,
    };
    stack.iter().map(number).collect()
}

/// Runs a program or a branch; none where it sticks.
pub fn run(program: &[Item], stack: &mut Vec<Value>) -> Option<()> {
    program.iter().try_for_each(|item| step(item, stack))
}

/// Runs one item.
fn step(item: &Item, stack: &mut Vec<Value>) -> Option<()> {
    let height = stack.len();
    match item {
        Item::Number(v) => stack.push(Value::Number(*v)),
        Item::Op(op) => return operate(*op, stack),
        Item::Copy(count) => {
            let from = height.checked_sub(size(*count)?)?;
            stack.extend_from_within(from..);
        }
        Item::Index(count) => {
            let place = height.checked_sub(size(*count)? + 1)?;
            stack.push(stack[place]);
        }
        Item::Roll(count, by) => {
            let from = height.checked_sub(size(*count)?)?;
            turn(&mut stack[from..], whole(*by)?);
        }
        Item::If(branch) => {
            if truth(stack)? {
                return run(branch, stack);
            }
        }
        Item::IfElse(first, second) => {
            let branch = if truth(stack)? { first } else { second };
            return run(branch, stack);
        }
    }
    Some(())
}

/// Runs an operator. "Numbers are millionths; mul rounds half up, results go to the nearest that fits 32 bits."
fn operate(op: Op, stack: &mut Vec<Value>) -> Option<()> {
    let result = match op {
        Op::Add => with_two(stack, |x, y| nearest(x + y))?,
        Op::Sub => with_two(stack, |x, y| nearest(x - y))?,
        Op::Mul => with_two(stack, |x, y| nearest(half_up(x * y, 1_000_000)))?,
        Op::Neg => nearest(-number(stack)?),
        Op::Abs => nearest(number(stack)?.abs()),
        Op::Eq => with_two(stack, |x, y| Value::Truth(x == y))?,
        Op::Ne => with_two(stack, |x, y| Value::Truth(x != y))?,
        Op::Gt => with_two(stack, |x, y| Value::Truth(x > y))?,
        Op::Ge => with_two(stack, |x, y| Value::Truth(x >= y))?,
        Op::Lt => with_two(stack, |x, y| Value::Truth(x < y))?,
        Op::Le => with_two(stack, |x, y| Value::Truth(x <= y))?,
        Op::And => {
            let (top, below) = (truth(stack)?, truth(stack)?);
            Value::Truth(top && below)
        }
        Op::Or => {
            let (top, below) = (truth(stack)?, truth(stack)?);
            Value::Truth(top || below)
        }
        Op::Not => Value::Truth(!truth(stack)?),
        Op::True => Value::Truth(true),
        Op::False => Value::Truth(false),
        Op::Pop => return stack.pop().map(|_| ()),
        Op::Exch => {
            let (top, below) = (stack.pop()?, stack.pop()?);
            stack.push(top);
            below
        }
        Op::Dup => *stack.last()?,
    };
    stack.push(result);
    Some(())
}

/// What comes of the two numbers on top, the deeper one first.
fn with_two(stack: &mut Vec<Value>, result: impl Fn(i64, i64) -> Value) -> Option<Value> {
    let (top, below) = (number(stack)?, number(stack)?);
    Some(result(below, top))
}

/// Takes a number off.
fn number(stack: &mut Vec<Value>) -> Option<i64> {
    match stack.pop()? {
        Value::Number(v) => Some(i64::from(v)),
        Value::Truth(_) => None,
    }
}

/// Takes a truth value off.
fn truth(stack: &mut Vec<Value>) -> Option<bool> {
    match stack.pop()? {
        Value::Truth(v) => Some(v),
        Value::Number(_) => None,
    }
}

/// "Results go to the nearest that fits 32 bits."
fn nearest(v: i64) -> Value {
    let fits = v.clamp(i64::from(i32::MIN), i64::from(i32::MAX));
    Value::Number(fits as i32)
}
