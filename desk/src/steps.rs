//! A recipe said step by step. The library has accepted it: here its words are only shown.

use crate::numbers::{row, written};

/// Some words of a recipe, and what they say.
struct Line {
    words: String,
    says: String,
}

/// The words of the text stand in no wider a column than this.
const WIDEST: usize = 48;
/// What is said of words that this program does not know.
const NOT_KNOWN: &str = "not known to this program";

fn line(words: &[i32], says: String) -> Line {
    let words: Vec<String> = words.iter().map(i32::to_string).collect();
    Line {
        words: words.join(" "),
        says,
    }
}

/// The same, set in by two columns: a part of the step above it.
fn part(words: &[i32], says: String) -> Line {
    let Line { words, says } = line(words, says);
    let words = format!("  {words}");
    Line { words, says }
}

/// The recipe as text that reads back as the same words.
pub(crate) fn text(recipe: &[i32]) -> String {
    let lines = lines(recipe);
    let width = lines.iter().map(|line| line.words.len());
    let width = width.filter(|width| *width <= WIDEST).max().unwrap_or(0);
    let lines = lines
        .iter()
        .map(|Line { words, says }| format!("{words:<width$}  % {says}\n"));
    lines.collect()
}

/// The recipe as an array of C.
pub(crate) fn in_c(name: &str, recipe: &[i32]) -> String {
    let count = recipe.len();
    let mut text = format!("/* A recipe of {count} words. */\n#include <stdint.h>\n\n");
    text += &format!("const int32_t {name}[{count}] = {{\n");
    for Line { words, says } in lines(recipe) {
        let indent = words.len() - words.trim_start().len();
        // C has no number -2147483648: it is one less than the next.
        let numbers: Vec<String> = words
            .split_whitespace()
            .map(|word| word.replace("-2147483648", "-2147483647 - 1"))
            .collect();
        let margin = " ".repeat(4 + indent);
        text += &format!("{margin}{}, /* {says} */\n", numbers.join(", "));
    }
    text + "};\n"
}

/// A small count in words.
fn counted(count: i32, one: &str) -> String {
    let names = [
        "one", "two", "three", "four", "five", "six", "seven", "eight",
    ];
    match usize::try_from(count - 1).ok().and_then(|k| names.get(k)) {
        Some(name) if count == 1 => format!("{name} {one}"),
        Some(name) => format!("{name} {one}s"),
        None => format!("{count} {one}s"),
    }
}

/// The lines of a recipe. Words that are not known here stand on the last line, as they are.
fn lines(recipe: &[i32]) -> Vec<Line> {
    let mut lines = Vec::new();
    let mut left = recipe;
    if let Some((count, rest)) = left.split_first() {
        lines.push(line(&[*count], counted(*count, "component")));
        left = rest;
    }
    while !left.is_empty() {
        match step(left) {
            Some((made, size)) => {
                lines.extend(made);
                left = left.get(size..).unwrap_or_default();
            }
            None => {
                lines.push(line(left, NOT_KNOWN.to_string()));
                break;
            }
        }
    }
    lines
}

/// The lines of the step that begins here, and how many words it has.
fn step(left: &[i32]) -> Option<(Vec<Line>, usize)> {
    match left[0] {
        1 => limit(left),
        2 => rows(left),
        3 => tint(left),
        12 => program(left, 3),
        13 => program(left, 4),
        _ => closing(left),
    }
}

fn limit(left: &[i32]) -> Option<(Vec<Line>, usize)> {
    let own = left.get(..4)?;
    let (low, high) = (written(own[2]), written(own[3]));
    let says = format!("value {} within {low} to {high}", own[1]);
    Some((vec![line(own, says)], 4))
}

fn rows(left: &[i32]) -> Option<(Vec<Line>, usize)> {
    let head = left.get(..3)?;
    let (size, last) = (
        usize::try_from(head[1]).ok()?,
        usize::try_from(head[2]).ok()?,
    );
    let count = size.checked_mul(last.checked_add(1)?)?;
    let entries = left.get(3..count.checked_add(3)?)?;
    let unit = if size == 1 { "number" } else { "numbers" };
    let says = format!("index, 0 to {last}, picks a row of {size} {unit}");
    let mut lines = vec![line(head, says)];
    for (k, entry) in entries.chunks(size.max(1)).enumerate() {
        lines.push(part(entry, format!("row {k} is {}", row(entry))));
    }
    Some((lines, 3 + count))
}

fn tint(left: &[i32]) -> Option<(Vec<Line>, usize)> {
    let head = left.get(..3)?;
    let size = usize::try_from(head[2]).ok()?;
    let whole = size.checked_mul(2)?.checked_add(3)?;
    let (c0, c1) = left.get(3..whole)?.split_at(size);
    let says = format!("tint, exponent {}, makes {size}", head[1]);
    let lines = vec![
        line(head, says),
        part(c0, format!("tint 0 is {}", row(c0))),
        part(c1, format!("tint 1 is {}", row(c1))),
    ];
    Some((lines, whole))
}

/// A program of one tint, whose step has 3 words before it, or of several, whose step has 4.
fn program(left: &[i32], words: usize) -> Option<(Vec<Line>, usize)> {
    let head = left.get(..words)?;
    let size = usize::try_from(head[words - 1]).ok()?;
    let whole = size.checked_add(words)?;
    let items = left.get(words..whole)?;
    let leaves = counted(head[words - 2], "number");
    let takes = match words {
        3 => String::new(),
        _ => format!("takes {} and ", counted(head[1], "tint")),
    };
    let says = format!("a program of {size} words, which {takes}leaves {leaves}");
    let mut lines = vec![line(head, says)];
    lines.extend(program_items(items));
    Some((lines, whole))
}

/// The items of a program, each with its place.
fn program_items(items: &[i32]) -> Vec<Line> {
    let mut lines = Vec::new();
    let mut at = 0;
    while let Some(code) = items.get(at) {
        let size = match code {
            4 => 3,
            1..=3 | 5 | 6 => 2,
            _ => 1,
        };
        let end = (at + size).min(items.len());
        let own = &items[at..end];
        lines.push(part(own, format!("{at:>3}: {}", item(own, end))));
        at = end;
    }
    lines
}

/// What an item of a program does; the next one stands at this place.
fn item(own: &[i32], next: usize) -> String {
    let to = |k: i32| next as i64 + i64::from(k);
    match *own {
        [1, z] => written(z),
        [2, n] => format!("{n} copy"),
        [3, n] => format!("{n} index"),
        [4, n, j] => format!("{n} {j} roll"),
        [5, k] => format!("if false, to {}", to(k)),
        [6, k] => format!("to {}", to(k)),
        [code] => usize::try_from(code - 7)
            .ok()
            .and_then(|k| OPERATORS.get(k).copied())
            .unwrap_or(NOT_KNOWN)
            .to_string(),
        _ => NOT_KNOWN.to_string(),
    }
}

/// The operators of a program, from code 7 on.
const OPERATORS: [&str; 19] = [
    "add", "sub", "mul", "eq", "ne", "gt", "ge", "lt", "le", "and", "or", "neg", "abs", "not",
    "true", "false", "pop", "exch", "dup",
];

fn closing(left: &[i32]) -> Option<(Vec<Line>, usize)> {
    let alone = |says: &str| Some((vec![line(&left[..1], says.to_string())], 1));
    match left[0] {
        4 => alone("Gray"),
        5 => alone("RGB"),
        6 => alone("CMYK"),
        7 => {
            let own = left.get(..4)?;
            let [x, z, gamma] = [own[1], own[2], own[3]].map(written);
            let says = format!("CalGray, white {x} 1 {z}, gamma {gamma}");
            Some((vec![line(own, says)], 4))
        }
        8 => cal_rgb(left),
        9 => {
            let own = left.get(..3)?;
            let [x, z] = [own[1], own[2]].map(written);
            Some((vec![line(own, format!("Lab, white {x} 1 {z}"))], 3))
        }
        10 => alone("no mark"),
        11 => alone("every ink"),
        _ => None,
    }
}

fn cal_rgb(left: &[i32]) -> Option<(Vec<Line>, usize)> {
    let own = left.get(..13)?;
    let gammas = &own[1..4];
    let mut lines = vec![
        line(&own[..1], "CalRGB".to_string()),
        part(gammas, format!("gammas {}", row(gammas))),
    ];
    for (name, numbers) in "ABC".chars().zip(own[4..].chunks(3)) {
        lines.push(part(numbers, format!("{name} gives {}", row(numbers))));
    }
    Some((lines, 13))
}

#[cfg(test)]
mod tests {
    use super::*;

    #[test]
    fn every_operator_is_that_of_the_document() {
        let document = include_str!("../../docs/RECIPES.md");
        for (code, name) in (7..).zip(OPERATORS) {
            let start = format!("| {code} | `{code}` | {name} |");
            assert!(document.contains(&start), "{start}");
        }
    }

    #[test]
    fn the_example_of_the_document_is_said() {
        let words = [
            1, 12, 1, 11, 25, 1, 500_000, 14, 5, 3, 1, 500_000, 9, 1, 0, 4,
        ];
        let said = text(&words);
        for line in [
            "12 1 11     % a program of 11 words, which leaves one number\n",
            "  1 500000  %   1: 0.5\n",
            "  5 3       %   4: if false, to 9\n",
        ] {
            assert!(said.contains(line), "{said}");
        }
    }

    #[test]
    fn words_that_are_not_known_are_still_shown() {
        for words in [
            &[1, 99, 3][..],
            &[1, 2, 4],
            &[1, 3, 1, -1],
            &[],
            &[1, 12, 1, 9, 1],
        ] {
            let shown: Vec<i32> = text(words)
                .lines()
                .flat_map(|line| {
                    let words = line.split('%').next().unwrap();
                    words.split_whitespace().map(|word| word.parse().unwrap())
                })
                .collect();
            assert_eq!(shown, words);
        }
    }

    #[test]
    fn the_least_word_is_a_number_of_c() {
        let c = in_c("gold", &[1, 1, 0, i32::MIN, 0, 4]);
        let line = "    1, 0, -2147483647 - 1, 0, /* value 0 within -2147.483648 to 0 */\n";
        assert!(c.contains(line), "{c}");
    }
}
