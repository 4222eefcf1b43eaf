//! The desk program `sktelbaan`: one command for every job of a print shop's desk, over the proved library.
//!
//! Nothing is decided here. Whether a page, a record, a text, a count of components or a recipe is right is asked of the
//! library, which also computes every colour; what it refuses is told as it came, and only what it accepted is taken
//! apart. docs/DESK.md is the command reference.
//!
//! ```
//! let words = ["explain".into(), "9".into()];
//! let (mut output, mut errors) = (Vec::new(), Vec::new());
//! assert_eq!(desk::run(&words, &mut &b""[..], &mut output, &mut errors), 0);
//! assert!(output.starts_with(b"9 (components): the wrong number of components\n"));
//! ```
#![forbid(unsafe_code)]

mod args;
mod blocks;
mod colours;
mod commands;
mod explain;
mod files;
mod help;
mod inks;
mod json;
mod layout;
mod lines;
mod list;
mod names;
mod notes;
mod numbers;
mod pages;
mod pasted;
mod progress;
mod recipes;
mod records;
mod refusals;
mod show;
mod spaces;
mod spell;
mod steps;
mod streams;
mod texts;

pub use commands::{Command, Opt, COMMANDS, EVERYWHERE};
pub use streams::Streams;

use refusals::{worse, Stop};
use std::ffi::OsString;
use std::io::{Read, Write};
use streams::Desk;

/// Runs the program on its words, the first being the command, with these three streams, none of them a terminal. Gives
/// its exit status: 0 done, 1 refused, 2 wrong use or a file that cannot be read or written, 3 with `--strict` alone.
pub fn run(
    words: &[OsString],
    input: &mut dyn Read,
    output: &mut dyn Write,
    errors: &mut dyn Write,
) -> u8 {
    let streams = Streams {
        input,
        output,
        errors,
        output_is_terminal: false,
        errors_is_terminal: false,
    };
    run_on(words, streams)
}

/// The same, on streams that may be terminals.
pub fn run_on(words: &[OsString], streams: Streams<'_>) -> u8 {
    let mut desk = Desk::new(streams);
    let done = commands::dispatch(words, &mut desk);
    let status = settled(done, &mut desk);
    let finished = desk.finish(status).map(|()| status);
    worse(status, settled(finished, &mut desk))
}

/// The status of what a command came to. What stopped it is told; a closed pipe ends it in silence, at what it was.
fn settled(done: Result<u8, Stop>, desk: &mut Desk<'_>) -> u8 {
    match done {
        Ok(status) => status,
        Err(Stop::Closed) => desk.worst(),
        Err(Stop::Told(told)) => {
            let status = told.status;
            desk.tell(&told);
            status
        }
    }
}
