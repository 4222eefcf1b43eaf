//! What the tests of the program share: running it in this process, and folders of their own.
#![allow(dead_code)]

use reference::cie::Answer;
use reference::colour::Reply;
use std::ffi::OsString;
use std::path::{Path, PathBuf};
use std::sync::atomic::{AtomicU32, Ordering};

/// What the program came to.
pub struct Ran {
    pub status: u8,
    pub output: Vec<u8>,
    pub errors: String,
}

impl Ran {
    pub fn text(&self) -> &str {
        std::str::from_utf8(&self.output).expect("the output is text")
    }

    /// The output of a command that succeeded.
    pub fn done(self) -> Vec<u8> {
        assert_eq!(self.status, 0, "{}", self.errors);
        self.output
    }
}

/// Runs the program in this process.
pub fn desk(words: &[&str], input: &[u8]) -> Ran {
    let words: Vec<OsString> = words.iter().map(OsString::from).collect();
    let (mut output, mut errors) = (Vec::new(), Vec::new());
    let mut input = input;
    let status = desk::run(&words, &mut input, &mut output, &mut errors);
    let errors = String::from_utf8_lossy(&errors).into_owned();
    Ran {
        status,
        output,
        errors,
    }
}

/// The root of the repository.
pub fn root() -> PathBuf {
    Path::new(env!("CARGO_MANIFEST_DIR")).join("..")
}

/// A folder that goes with the test.
pub struct Folder(PathBuf);

impl Folder {
    pub fn new() -> Self {
        static COUNT: AtomicU32 = AtomicU32::new(0);
        let turn = COUNT.fetch_add(1, Ordering::Relaxed);
        let name = format!("sktelbaan-desk-{}-{turn}", std::process::id());
        let path = std::env::temp_dir().join(name);
        std::fs::create_dir_all(&path).expect("a folder for the test");
        Folder(path)
    }

    pub fn path(&self) -> &Path {
        &self.0
    }

    /// The name of a file in it.
    pub fn file(&self, name: &str) -> String {
        self.0.join(name).to_string_lossy().into_owned()
    }

    /// A file in it, with these bytes.
    pub fn with(&self, name: &str, bytes: &[u8]) -> String {
        let file = self.file(name);
        std::fs::write(&file, bytes).expect("a file for the test");
        file
    }
}

impl Drop for Folder {
    fn drop(&mut self) {
        let _ = std::fs::remove_dir_all(&self.0);
    }
}

/// What the program prints for a reply of the second implementation; none for a refusal.
pub fn answer_text(reply: &Reply) -> Option<String> {
    let colour = reply.ok()?;
    let (name, floats): (&str, &[f64]) = match &colour.answer {
        Answer::Gray(v) => ("Gray", std::slice::from_ref(v)),
        Answer::Rgb(v) => ("RGB", v),
        Answer::Cmyk(v) => ("CMYK", v),
        Answer::Xyz(v) => ("XYZ", v),
        Answer::NoMark => ("NoMark", &[]),
        Answer::EveryInk(v) => ("EveryInk", std::slice::from_ref(v)),
    };
    let floats: String = floats.iter().map(|v| format!(" {v}")).collect();
    let moved = if colour.moved { " moved" } else { "" };
    Some(format!("{name}{floats}{moved}\n"))
}

/// A count of millionths as it is typed.
pub fn typed(v: i32) -> String {
    let sign = if v < 0 { "-" } else { "" };
    let size = v.unsigned_abs();
    format!("{sign}{}.{:06}", size / 1_000_000, size % 1_000_000)
}

/// How many inputs a random test tries: as many as named by the environment, or the fewer that the gate takes.
pub fn turns(name: &str, gate: u64) -> u64 {
    let named = std::env::var(name).ok();
    named.and_then(|text| text.parse().ok()).unwrap_or(gate)
}
