//! Flat forms, the words of steps 12 and 13: whether they are well-formed, and running them. By the table of codes in
//! docs/RECIPES.md.
//!
//! "A flat form is 11 exactly for other words than these, a height below 0, past 100 or not fixed somewhere (as where no
//! path comes), a kind wrong or not fixed, a count (but roll's second) below 0 or past the stack, a jump back, past the
//! end or into the middle of an item, or an end without just that count of numbers."

/// The greatest height of the stack.
const MOST_HEIGHT: usize = 100;

/// The stack's kinds in letters, the deepest first: `n` for a number, `t` for a truth value.
type Letters = Vec<u8>;

/// How many words the item of a code has; none for a code that there is not.
fn length(code: i32) -> Option<usize> {
    match code {
        4 => Some(3),
        1..=3 | 5 | 6 => Some(2),
        7..=25 => Some(1),
        _ => None,
    }
}

/// What an item of one word takes and leaves, in letters, the last on top; none for a code whose operands are of any kind.
fn letters(code: i32) -> Option<(&'static [u8], &'static [u8])> {
    match code {
        7..=9 => Some((b"nn", b"n")),
        10..=15 => Some((b"nn", b"t")),
        16 | 17 => Some((b"tt", b"t")),
        18 | 19 => Some((b"n", b"n")),
        20 => Some((b"t", b"t")),
        21 | 22 => Some((b"", b"t")),
        _ => None,
    }
}

/// A count that is not below 0 and not past so many.
fn count(word: i32, most: usize) -> Option<usize> {
    usize::try_from(word).ok().filter(|count| *count <= most)
}

/// The top n, turned by j places: "for j = 1 the top goes below the n - 1 others .. any j, modulo n; nothing where n is
/// 0".
fn rolled<T: Copy>(top: &[T], j: i32) -> Vec<T> {
    let n = top.len() as i64;
    let from = |place: i64| top[(place - i64::from(j)).rem_euclid(n) as usize];
    (0..n).map(from).collect()
}

/// The stack's kinds after an item; none where it is refused.
fn after(item: &[i32], before: &[u8]) -> Option<Letters> {
    let height = before.len();
    let mut stack = before.to_vec();
    match *item {
        [1, _] => stack.push(b'n'),
        [2, n] => stack.extend(&before[height - count(n, height)?..]),
        [3, n] => stack.push(before[height.checked_sub(1 + count(n, height)?)?]),
        [4, n, j] => {
            let from = height - count(n, height)?;
            stack.truncate(from);
            stack.extend(rolled(&before[from..], j));
        }
        [5, _] => stack.truncate(before.strip_suffix(b"t")?.len()),
        [6, _] => {}
        [23] => {
            stack.pop()?;
        }
        [24] => match *before {
            [ref below @ .., x, y] => stack = [below, &[y, x]].concat(),
            _ => return None,
        },
        [25] => stack.push(*before.last()?),
        [code] => {
            let (takes, leaves) = letters(code)?;
            stack = [before.strip_suffix(takes)?, leaves].concat();
        }
        _ => return None,
    }
    (stack.len() <= MOST_HEIGHT).then_some(stack)
}

/// What is known of a flat form's places, each a word's or the end.
struct Places {
    /// With which kinds paths come to a place.
    kinds: Vec<Option<Letters>>,
}

impl Places {
    /// A path comes to a place with these kinds; none where it is past the end or another came with others.
    fn come(&mut self, place: usize, stack: &Letters) -> Option<()> {
        let kinds = self.kinds.get_mut(place)?;
        match kinds {
            Some(known) if known != stack => None,
            _ => {
                *kinds = Some(stack.clone());
                Some(())
            }
        }
    }
}

/// Whether words are a flat form that takes so many values and leaves just so many numbers.
pub fn holds(words: &[i32], taken: usize, left: usize) -> bool {
    end_kinds(words, taken).is_some_and(|end| end == vec![b'n'; left])
}

/// The stack's kinds at the end of a flat form; none where it is refused before. "Since jumps go forward alone, one pass
/// over the words is enough."
fn end_kinds(words: &[i32], taken: usize) -> Option<Letters> {
    let mut places = Places {
        kinds: vec![None; words.len() + 1],
    };
    // The stack holds "value 0, limited to 0..1000000, alone", or as many values as step 13 takes.
    places.come(0, &vec![b'n'; taken])?;
    let mut at = 0;
    while at < words.len() {
        let end = at + length(words[at])?;
        let item = words.get(at..end)?;
        // "A place to which no path comes."
        let before = places.kinds[at].clone()?;
        let stack = after(item, &before)?;
        if let [5 | 6, k] = *item {
            places.come(end.checked_add(usize::try_from(k).ok()?)?, &stack)?;
        }
        if item[0] != 6 {
            places.come(end, &stack)?;
        }
        // "Into the middle of an item."
        if places.kinds[at + 1..end].iter().any(Option::is_some) {
            return None;
        }
        at = end;
    }
    places.kinds.pop()?
}

/// The number nearest to an exact result that fits 32 bits.
fn nearest(exact: i64) -> i64 {
    exact.min(i64::from(i32::MAX)).max(i64::from(i32::MIN))
}

/// "x × y / 1000000, rounded half up once": a rest of half a millionth or more counts as one more.
fn product(x: i64, y: i64) -> i64 {
    let exact = x * y;
    exact.div_euclid(1_000_000) + i64::from(exact.rem_euclid(1_000_000) >= 500_000)
}

/// What an operator on two operands leaves, a truth value being 1 or 0.
fn of_two(code: i32, x: i64, y: i64) -> i64 {
    match code {
        7 => nearest(x + y),
        8 => nearest(x - y),
        9 => nearest(product(x, y)),
        10 => i64::from(x == y),
        11 => i64::from(x != y),
        12 => i64::from(x > y),
        13 => i64::from(x >= y),
        14 => i64::from(x < y),
        15 => i64::from(x <= y),
        16 => x.min(y),
        _ => x.max(y),
    }
}

/// The numbers that a well-formed flat form leaves of limited tints, the deepest first. Kinds need not be looked at.
pub fn run(words: &[i32], tints: &[i32]) -> Vec<i32> {
    let mut stack: Vec<i64> = tints.iter().map(|tint| i64::from(*tint)).collect();
    let mut left = words;
    while let [code, rest @ ..] = left {
        let pop = |stack: &mut Vec<i64>| stack.pop().unwrap_or(0);
        let operand = rest.first().copied().unwrap_or(0);
        let size = operand.max(0) as usize;
        let from = stack.len().saturating_sub(size);
        let mut pass = length(*code).unwrap_or(1) - 1;
        match code {
            1 => stack.push(i64::from(operand)),
            2 => stack.extend_from_within(from..),
            3 => stack.push(stack.iter().rev().nth(size).copied().unwrap_or(0)),
            4 => {
                let turned = rolled(&stack[from..], rest.get(1).copied().unwrap_or(0));
                stack.splice(from.., turned);
            }
            5 if pop(&mut stack) == 0 => pass += size,
            5 => {}
            6 => pass += size,
            7..=17 => {
                let (y, x) = (pop(&mut stack), pop(&mut stack));
                stack.push(of_two(*code, x, y));
            }
            18 => {
                let x = pop(&mut stack);
                stack.push(nearest(-x));
            }
            19 => {
                let x = pop(&mut stack);
                stack.push(nearest(x.abs()));
            }
            20 => {
                let x = pop(&mut stack);
                stack.push(1 - x);
            }
            21 => stack.push(1),
            22 => stack.push(0),
            23 => {
                stack.pop();
            }
            24 => {
                let (y, x) = (pop(&mut stack), pop(&mut stack));
                stack.extend([y, x]);
            }
            _ => stack.push(stack.last().copied().unwrap_or(0)),
        }
        left = rest.get(pass..).unwrap_or_default();
    }
    stack.iter().map(|v| *v as i32).collect()
}
