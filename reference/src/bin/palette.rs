//! Prints the values of the 256 palette bytes over 0..1, as the proved library has them: `palette rt` the
//! file of its code, `palette antt` the file of its proofs.

use reference::numbers::{palette_value, ONE};
use std::process::ExitCode;

/// The most characters of a row of code.
const WIDTH: usize = 100;

/// The words as rt lays out a list: in rows of four spaces and as many words as fit into 100 characters.
fn rows(words: impl Iterator<Item = String>) -> String {
    let mut rows: Vec<String> = Vec::new();
    for word in words {
        match rows.last_mut() {
            Some(row) if row.len() + 1 + word.len() <= WIDTH => {
                row.push(' ');
                row.push_str(&word);
            }
            _ => rows.push(format!("    {word}")),
        }
    }
    rows.iter().map(|row| format!("{row}\n")).collect()
}

/// The file that the word after the program's name asks for.
fn text(mut words: impl Iterator<Item = String>) -> Option<String> {
    let values = (0..=255).map(|byte| palette_value(byte, 0, ONE));
    let text = match words.next()?.as_str() {
        "rt" => {
            let lines = rows(values.map(|value| format!("{value},")));
            format!(
                "// The values of palette bytes over 0..1, in millionths. The command `palette` of reference/ writes this file, by way of .ci/cases.\n\
                 pub const OVER_ONE: [u32; 256] = [\n{lines}];\n"
            )
        }
        "antt" => {
            let list: String = values.map(|value| format!("{value} ∷ ")).collect();
            format!(
                "-- The table of src/table.rt, for the test of its rule. The command `palette` of reference/ writes this file, by way of .ci/cases.\n\
                 use Prim.Native.Nat.{{ℕ}}\n\
                 use mathlib.Core.List.{{List, [], ◌∷◌}}\n\n\
                 unfoldable pub over_one : List ℕ\n\
                 over_one = {list}[]\n"
            )
        }
        _ => return None,
    };
    words.next().is_none().then_some(text)
}

fn main() -> ExitCode {
    let Some(text) = text(std::env::args().skip(1)) else {
        eprintln!("usage: palette rt|antt");
        return ExitCode::from(2);
    };
    print!("{text}");
    ExitCode::SUCCESS
}
