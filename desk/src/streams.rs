//! The streams that a command reads and writes, and the file that `-o` names.

use crate::files::{reason, Beside};
use crate::json::Object;
use crate::refusals::{Stop, Told};
use std::io::{self, BufWriter, Read, Write};

/// The streams of the program, and whether the two that are written are terminals.
pub struct Streams<'a> {
    /// What `-` reads.
    pub input: &'a mut dyn Read,
    /// Where answers go without `-o`.
    pub output: &'a mut dyn Write,
    /// Where refusals and faults go.
    pub errors: &'a mut dyn Write,
    /// Whether answers go to a terminal: pages and binary recipes then do not.
    pub output_is_terminal: bool,
    /// Whether refusals go to a terminal: how far a long job is may then be shown.
    pub errors_is_terminal: bool,
}

/// What a command works with.
pub(crate) struct Desk<'a> {
    input: Option<&'a mut dyn Read>,
    output: BufWriter<&'a mut dyn Write>,
    errors: &'a mut dyn Write,
    output_is_terminal: bool,
    errors_is_terminal: bool,
    file: Option<Beside>,
    /// What is said of the file once it stands.
    wrote: Option<Wrote>,
    /// The worst status so far of a command that goes on after a refusal.
    worst: u8,
    /// Whether objects are printed in place of text.
    pub json: bool,
}

/// What was written to a file: so many of something, as 11 blocks.
struct Wrote {
    count: usize,
    one: &'static str,
    many: &'static str,
}

/// A fault of the standard output: a closed pipe is none.
fn output_fault(error: &io::Error) -> Stop {
    match error.kind() {
        io::ErrorKind::BrokenPipe => Stop::Closed,
        _ => Stop::wrong(format!("standard output: {}", reason(error))),
    }
}

impl<'a> Desk<'a> {
    pub fn new(streams: Streams<'a>) -> Self {
        Desk {
            input: Some(streams.input),
            output: BufWriter::with_capacity(1 << 16, streams.output),
            errors: streams.errors,
            output_is_terminal: streams.output_is_terminal,
            errors_is_terminal: streams.errors_is_terminal,
            file: None,
            wrote: None,
            worst: 0,
            json: false,
        }
    }

    /// Sends what is answered from here on to a file, which is put in its place where the command succeeds.
    pub fn write_to(&mut self, file: Beside) {
        self.file = Some(file);
    }

    /// The standard input, which can be read once.
    pub fn input(&mut self) -> Result<&'a mut dyn Read, Stop> {
        let twice = || Stop::wrong("standard input can be read once: - stands twice".into());
        self.input.take().ok_or_else(twice)
    }

    /// Writes a part of the answer.
    pub fn put(&mut self, bytes: &[u8]) -> Result<(), Stop> {
        match &mut self.file {
            Some(file) => file.put(bytes),
            None => self
                .output
                .write_all(bytes)
                .map_err(|error| output_fault(&error)),
        }
    }

    /// Writes a part of the answer that is text.
    pub fn say(&mut self, text: &str) -> Result<(), Stop> {
        self.put(text.as_bytes())
    }

    /// Writes bytes that no terminal should get: `what` names them.
    pub fn put_binary(&mut self, bytes: &[u8], what: &str) -> Result<(), Stop> {
        if self.file.is_none() && self.output_is_terminal {
            let words = format!("{what} is not written to a terminal: name a file with -o");
            return Err(Stop::wrong(words));
        }
        self.put(bytes)
    }

    /// Notes what is said of the file once it stands. Of the standard output nothing is said.
    pub fn wrote(&mut self, count: usize, one: &'static str, many: &'static str) {
        self.wrote = Some(Wrote { count, one, many });
    }

    /// Tells a refusal or a fault: in words on standard error, or a refusal as an object on standard output.
    pub fn tell(&mut self, told: &Told) {
        self.worst = self.worst.max(told.status);
        if self.json && told.status == 1 {
            let _ = self.output.write_all(told.object().line().as_bytes());
            return;
        }
        self.remark(&told.text());
    }

    /// Writes to standard error, after what was answered so far. That it cannot be written is no fault of the command.
    pub fn remark(&mut self, text: &str) {
        let _ = self.output.flush();
        let _ = self.errors.write_all(text.as_bytes());
        let _ = self.errors.flush();
    }

    /// Lets what was answered so far be seen: before more input is waited for.
    pub fn flush(&mut self) -> Result<(), Stop> {
        self.output.flush().map_err(|error| output_fault(&error))
    }

    /// Whether to show how far a long job is: where standard error is a terminal that gets no answers too.
    pub fn shows_progress(&self) -> bool {
        self.errors_is_terminal && (self.file.is_some() || !self.output_is_terminal)
    }

    /// The worst status so far.
    pub fn worst(&self) -> u8 {
        self.worst
    }

    /// Ends the answer: the file is put in its place where nothing was refused, and else left as it was.
    pub fn finish(&mut self, status: u8) -> Result<(), Stop> {
        if let Some(file) = self.file.take() {
            if status == 0 || status == 3 {
                let shown = file.commit()?;
                self.say_wrote(&shown);
            }
        }
        self.flush()
    }

    /// Says what was written to a file.
    fn say_wrote(&mut self, file: &str) {
        let Some(Wrote { count, one, many }) = self.wrote.take() else {
            return;
        };
        if self.json {
            let object = Object::new().text("file", file).number(many, count as i64);
            let _ = self.output.write_all(object.line().as_bytes());
        } else {
            let unit = if count == 1 { one } else { many };
            self.remark(&format!("{file}: {count} {unit}\n"));
        }
    }
}
