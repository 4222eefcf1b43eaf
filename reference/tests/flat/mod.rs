//! A slow second look at flat forms: every stack that some path brings to a place is kept, and judged at the end.

use std::collections::BTreeSet;

/// What stands on the stack: a number or a truth value.
#[derive(Clone, Copy, Debug, PartialEq, Eq, PartialOrd, Ord)]
enum Held {
    Number(i128),
    Truth(bool),
}

/// How many words the item of a code has.
fn length(code: i32) -> Option<usize> {
    Some(match code {
        7..=25 => 1,
        1 | 2 | 3 | 5 | 6 => 2,
        4 => 3,
        _ => return None,
    })
}

/// Where the items of a flat form begin, and its end; none where the words are no items.
fn starts(words: &[i32]) -> Option<Vec<usize>> {
    let mut found = vec![0];
    let mut at = 0;
    while at < words.len() {
        at += length(words[at])?;
        found.push(at);
    }
    (at == words.len()).then_some(found)
}

/// The stack after an item that is no jump; none where it sticks.
fn stepped(item: &[i32], mut stack: Vec<Held>) -> Option<Vec<Held>> {
    use Held::{Number, Truth};
    let (most, least) = (i128::from(i32::MAX), i128::from(i32::MIN));
    let number = |exact: i128| Number(exact.min(most).max(least));
    match item[0] {
        1 => stack.push(Number(item[1].into())),
        2 => {
            let n = usize::try_from(item[1])
                .ok()
                .filter(|n| *n <= stack.len())?;
            let from = stack.len() - n;
            for place in from..from + n {
                stack.push(stack[place]);
            }
        }
        3 => {
            let n = usize::try_from(item[1]).ok().filter(|n| *n < stack.len())?;
            stack.push(stack[stack.len() - 1 - n]);
        }
        4 => {
            let n = usize::try_from(item[1])
                .ok()
                .filter(|n| *n <= stack.len())?;
            let mut turns = if n == 0 {
                0
            } else {
                i64::from(item[2]) % n as i64
            };
            while turns > 0 {
                let top = stack.pop()?;
                stack.insert(stack.len() + 1 - n, top);
                turns -= 1;
            }
            while turns < 0 {
                let lowest = stack.remove(stack.len() - n);
                stack.push(lowest);
                turns += 1;
            }
        }
        code @ 7..=15 => {
            let (Number(y), Number(x)) = (stack.pop()?, stack.pop()?) else {
                return None;
            };
            stack.push(match code {
                7 => number(x + y),
                8 => number(x - y),
                // The floor of twice the product and one million, over two million.
                9 => number((2 * x * y + 1_000_000).div_euclid(2_000_000)),
                10 => Truth(x == y),
                11 => Truth(x != y),
                12 => Truth(x > y),
                13 => Truth(x >= y),
                14 => Truth(x < y),
                _ => Truth(x <= y),
            });
        }
        code @ (16 | 17) => {
            let (Truth(y), Truth(x)) = (stack.pop()?, stack.pop()?) else {
                return None;
            };
            stack.push(Truth(if code == 16 { x & y } else { x | y }));
        }
        code @ (18 | 19) => match stack.pop()? {
            Number(x) if code == 18 || x < 0 => stack.push(number(-x)),
            Number(x) => stack.push(number(x)),
            Truth(_) => return None,
        },
        20 => match stack.pop()? {
            Truth(x) => stack.push(Truth(!x)),
            Number(_) => return None,
        },
        21 => stack.push(Truth(true)),
        22 => stack.push(Truth(false)),
        23 => {
            stack.pop()?;
        }
        24 => {
            let height = stack.len().checked_sub(2)?;
            stack.swap(height, height + 1);
        }
        25 => stack.push(*stack.last()?),
        _ => return None,
    }
    (stack.len() <= 100).then_some(stack)
}

/// The same stack with every value forgotten, so that only kinds are left.
fn kinds(stack: Vec<Held>) -> Vec<Held> {
    let forgotten = |held| match held {
        Held::Number(_) => Held::Number(0),
        Held::Truth(_) => Held::Truth(false),
    };
    stack.into_iter().map(forgotten).collect()
}

/// Whether words are a flat form that takes so many values and leaves so many numbers: to each place just one stack of
/// kinds comes.
pub fn holds(words: &[i32], taken: usize, left: usize) -> bool {
    let Some(starts) = starts(words) else {
        return false;
    };
    let end = words.len();
    let mut come: Vec<BTreeSet<Vec<Held>>> = vec![BTreeSet::new(); end + 1];
    come[0].insert(vec![Held::Number(0); taken]);
    for pair in starts.windows(2) {
        let (at, next) = (pair[0], pair[1]);
        let item = &words[at..next];
        for stack in come[at].clone() {
            let mut to = vec![next];
            let mut stack = stack;
            if let [code @ (5 | 6), k] = *item {
                let target = next as i64 + i64::from(k);
                match starts.iter().find(|start| **start as i64 == target) {
                    Some(start) if *start >= next => to.push(*start),
                    _ => return false,
                }
                if code == 6 {
                    to.remove(0);
                } else if !matches!(stack.pop(), Some(Held::Truth(_))) {
                    return false;
                }
            } else {
                match stepped(item, stack) {
                    Some(after) => stack = kinds(after),
                    None => return false,
                }
            }
            for place in to {
                come[place].insert(stack.clone());
            }
        }
    }
    let one_each = starts.iter().all(|start| come[*start].len() == 1);
    one_each && come[end].contains(&vec![Held::Number(0); left])
}

/// The numbers that a flat form leaves of tints; none where it sticks.
pub fn run(words: &[i32], tints: &[i32]) -> Option<Vec<i32>> {
    let mut stack: Vec<Held> = tints.iter().map(|v| Held::Number((*v).into())).collect();
    let mut at = 0;
    while at < words.len() {
        let next = at + length(words[at])?;
        let item = words.get(at..next)?;
        at = next;
        match *item {
            [5, k] => {
                if stack.pop()? == Held::Truth(false) {
                    at += usize::try_from(k).ok()?;
                }
            }
            [6, k] => at += usize::try_from(k).ok()?,
            _ => stack = stepped(item, stack)?,
        }
    }
    let number = |held| match held {
        Held::Number(v) => i32::try_from(v).ok(),
        Held::Truth(_) => None,
    };
    stack.into_iter().map(number).collect()
}
