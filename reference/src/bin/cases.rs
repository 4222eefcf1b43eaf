//! Prints the worked cases: `cases stdin` the text that is put to the program under test,
//! `cases stdout` the text that it is expected to write.

use reference::cases::{all, input_text, output_text};
use std::io::Write;
use std::process::ExitCode;

/// The text that the word after the program's name asks for.
fn text(mut words: impl Iterator<Item = String>) -> Option<String> {
    let text = match words.next()?.as_str() {
        "stdin" => input_text(&all()),
        "stdout" => output_text(&all()),
        _ => return None,
    };
    words.next().is_none().then_some(text)
}

fn main() -> ExitCode {
    let Some(text) = text(std::env::args().skip(1)) else {
        eprintln!("usage: cases stdin|stdout");
        return ExitCode::from(2);
    };
    match std::io::stdout().lock().write_all(text.as_bytes()) {
        Ok(()) => ExitCode::SUCCESS,
        Err(_) => ExitCode::FAILURE,
    }
}
