//! The program itself: the process's words and streams.
#![forbid(unsafe_code)]

use std::ffi::OsString;
use std::io::{stderr, stdin, stdout, IsTerminal};
use std::process::ExitCode;

fn main() -> ExitCode {
    let words: Vec<OsString> = std::env::args_os().skip(1).collect();
    let (input, output, errors) = (stdin(), stdout(), stderr());
    let streams = desk::Streams {
        output_is_terminal: output.is_terminal(),
        errors_is_terminal: errors.is_terminal(),
        input: &mut input.lock(),
        output: &mut output.lock(),
        errors: &mut errors.lock(),
    };
    ExitCode::from(desk::run_on(&words, streams))
}
