//! What becomes of files and streams: a full disk, a file that may not be written, a closed pipe and an interrupted write leave the old file as it was.

mod common;

use common::{desk, root, Folder};
use std::cell::RefCell;
use std::ffi::OsString;
use std::fs::{self, File};
use std::io::{self, Read, Write};
use std::os::unix::fs::{symlink, PermissionsExt};
use std::process::{Command, Stdio};
use std::rc::Rc;
use std::time::Duration;

const PROGRAM: &str = env!("CARGO_BIN_EXE_sktelbaan");

fn sample(name: &str) -> String {
    root()
        .join("samples")
        .join(name)
        .to_string_lossy()
        .into_owned()
}

/// The program, with what it says kept.
fn program(words: &[&str]) -> Command {
    let mut command = Command::new(PROGRAM);
    command.args(words).stderr(Stdio::piped());
    command
}

/// The files of a folder.
fn names(folder: &Folder) -> Vec<String> {
    let entries = fs::read_dir(folder.path()).unwrap();
    let names = entries.map(|entry| entry.unwrap().file_name().to_string_lossy().into_owned());
    let mut names: Vec<String> = names.collect();
    names.sort();
    names
}

#[test]
fn a_full_disk_is_status_2() {
    let full = || Stdio::from(File::options().write(true).open("/dev/full").unwrap());
    for words in [
        &["list", &sample("full.page")][..],
        &["new", "128"],
        &["--help"],
    ] {
        let ran = program(words).stdout(full()).output().unwrap();
        assert_eq!(ran.status.code(), Some(2), "{words:?}");
        let said = String::from_utf8_lossy(&ran.stderr);
        assert!(said.starts_with("standard output: No space left"), "{said}");
    }
    // That comes before a colour that was pulled in.
    let mut strict = program(&["colour", "--strict", &sample("gray.page"), "0", "2"]);
    let ran = strict.stdout(full()).output().unwrap();
    assert_eq!(ran.status.code(), Some(2));
    let ran = program(&["new", "128", "-o", "/dev/full"])
        .output()
        .unwrap();
    assert_eq!(ran.status.code(), Some(2));
    assert!(String::from_utf8_lossy(&ran.stderr).starts_with("/dev/full: No space left"));
}

/// The program in a shell that lets no file grow past 4 kB: where the signal is ignored writing fails, and else it ends the program.
fn limited(words: &str, ignored: &str) -> Option<i32> {
    let script = format!("ulimit -f 4; {ignored} exec {PROGRAM} {words}");
    let shell = Command::new("bash").args(["-c", &script]).output().unwrap();
    shell.status.code()
}

#[test]
fn a_write_that_fails_or_ends_leaves_the_old_file() {
    let folder = Folder::new();
    let file = folder.with("old.page", b"old");
    let words = format!("new 128 -o {file}");
    assert_eq!(limited(&words, "trap '' XFSZ;"), Some(2));
    assert_eq!(fs::read(&file).unwrap(), b"old");
    assert_eq!(names(&folder), ["old.page"], "nothing is left beside it");
    assert_eq!(limited(&words, ""), None, "the signal ends it");
    assert_eq!(fs::read(&file).unwrap(), b"old");
    assert_eq!(limited("new 4 -o /dev/null", ""), Some(0));
}

#[test]
fn an_interrupt_leaves_the_old_file() {
    let folder = Folder::new();
    let file = folder.with("old.txt", b"old");
    let mut child = program(&["colour", &sample("gray.page"), "0", "-", "-o", &file])
        .stdin(Stdio::piped())
        .spawn()
        .unwrap();
    let mut input = child.stdin.take().unwrap();
    input.write_all("0.5\n".repeat(100_000).as_bytes()).unwrap();
    child.kill().unwrap();
    child.wait().unwrap();
    assert_eq!(fs::read(&file).unwrap(), b"old");
}

#[test]
fn a_refusal_leaves_the_old_file() {
    let folder = Folder::new();
    let file = folder.with("old", b"old");
    let refused = sample("refused.txt");
    let damaged = sample("damaged.page");
    for words in [
        &["read", &refused, "-o", &file][..],
        &["list", &damaged, "-o", &file],
        &["list", "--plain", &damaged, "-o", &file],
        &[
            "check",
            "--json",
            &sample("gray.page"),
            &damaged,
            "-o",
            &file,
        ],
        &["colour", &sample("gray.page"), "0", "1", "1", "-o", &file],
    ] {
        assert_eq!(desk(words, b"").status, 1, "{words:?}");
        assert_eq!(fs::read(&file).unwrap(), b"old");
        assert_eq!(names(&folder), ["old"]);
    }
    // A bad line among colours is told, and the file left.
    let ran = desk(
        &["colour", &sample("gray.page"), "0", "-", "-o", &file],
        b"1\nx\n",
    );
    assert_eq!(ran.status, 2);
    assert_eq!(fs::read(&file).unwrap(), b"old");
}

#[test]
fn a_file_that_may_not_be_written_or_read_is_status_2() {
    let folder = Folder::new();
    let file = folder.with("old.page", b"old");
    fs::set_permissions(&file, fs::Permissions::from_mode(0o444)).unwrap();
    let ran = desk(&["new", "1", "-o", &file], b"");
    assert_eq!(ran.status, 2);
    assert!(ran.errors.contains("ermission denied"), "{}", ran.errors);
    assert_eq!(fs::read(&file).unwrap(), b"old");
    fs::set_permissions(&file, fs::Permissions::from_mode(0o000)).unwrap();
    // Who may read every file reads this one too.
    if File::open(&file).is_err() {
        assert_eq!(desk(&["list", &file], b"").status, 2);
    }
    let folder_name = folder.file("");
    for words in [
        &["list", &folder.file("none.page")][..],
        &["list", &folder_name],
        &["new", "1", "-o", &folder_name],
        &["new", "1", "-o", &folder.file("none/none.page")],
        &["check", &folder.file("none.page"), &sample("gray.page")],
    ] {
        let ran = desk(words, b"");
        assert_eq!(ran.status, 2, "{words:?}");
        assert!(!ran.errors.is_empty());
    }
    assert_eq!(names(&folder), ["old.page"]);
}

#[test]
fn a_closed_pipe_ends_in_silence() {
    for words in [
        &["colour", &sample("lab.page"), "0", "-"][..],
        &["colour", "--json", &sample("lab.page"), "0", "-"],
    ] {
        let mut child = program(words)
            .stdin(Stdio::piped())
            .stdout(Stdio::piped())
            .spawn()
            .unwrap();
        let mut input = child.stdin.take().unwrap();
        let writer = std::thread::spawn(move || {
            let lines = "50 20 -30\n".repeat(100_000);
            let _ = input.write_all(lines.as_bytes());
        });
        let mut some = [0; 10];
        child
            .stdout
            .as_mut()
            .unwrap()
            .read_exact(&mut some)
            .unwrap();
        drop(child.stdout.take());
        let ran = child.wait_with_output().unwrap();
        writer.join().unwrap();
        assert_eq!(String::from_utf8_lossy(&ran.stderr), "");
        assert_eq!(ran.status.code(), Some(0));
    }
}

#[test]
fn what_is_written_takes_the_place_of_the_old_file() {
    let folder = Folder::new();
    let page = fs::read(sample("separation.page")).unwrap();
    let file = folder.with("gold", &page);
    fs::set_permissions(&file, fs::Permissions::from_mode(0o640)).unwrap();
    let link = folder.file("link");
    symlink("gold", &link).unwrap();
    // Read and written by one command, through a link that stays.
    assert_eq!(desk(&["spell", &link, "-o", &link], b"").status, 0);
    assert!(fs::symlink_metadata(&link).unwrap().is_symlink());
    assert!(fs::read(&file).unwrap().starts_with(b"[/Separation /Gold"));
    let ran = desk(&["read", &link, "-o", &link], b"");
    assert_eq!(ran.errors, format!("{link}: 1 block\n"));
    assert_eq!(fs::read(&file).unwrap(), page);
    assert_eq!(
        fs::metadata(&file).unwrap().permissions().mode() & 0o777,
        0o640
    );
    assert_eq!(names(&folder), ["gold", "link"]);
    // `-` is standard output.
    assert_eq!(desk(&["new", "2", "-o", "-"], b"").done().len(), 1024);
}

/// Runs the program in this process with an input of its own and streams that may be terminals.
fn on_terminals(
    words: &[&str],
    input: &mut dyn Read,
    output: bool,
    errors: bool,
) -> (u8, Vec<u8>, String) {
    let words: Vec<OsString> = words.iter().map(OsString::from).collect();
    let (mut out, mut err) = (Vec::new(), Vec::new());
    let streams = desk::Streams {
        input,
        output: &mut out,
        errors: &mut err,
        output_is_terminal: output,
        errors_is_terminal: errors,
    };
    let status = desk::run_on(&words, streams);
    (status, out, String::from_utf8(err).unwrap())
}

#[test]
fn no_terminal_gets_a_page() {
    let page = sample("separation.page");
    for words in [
        &["new", "1"][..],
        &["read", &sample("deck.txt")],
        &["recipe", "--binary", &page, "0"],
    ] {
        let (status, out, err) = on_terminals(words, &mut io::empty(), true, true);
        assert_eq!((status, out.len()), (2, 0), "{words:?}");
        assert!(
            err.ends_with("is not written to a terminal: name a file with -o\n"),
            "{err}"
        );
    }
    let (status, out, _) = on_terminals(&["list", &page], &mut io::empty(), true, true);
    assert_eq!(status, 0);
    assert!(out.starts_with(b"block"));
}

/// An input that takes its time.
struct Slow(usize);

impl Read for Slow {
    fn read(&mut self, buffer: &mut [u8]) -> io::Result<usize> {
        if self.0 == 0 {
            return Ok(0);
        }
        self.0 -= 1;
        std::thread::sleep(Duration::from_millis(120));
        let lines = "0.5\n".repeat(4096);
        buffer[..lines.len()].copy_from_slice(lines.as_bytes());
        Ok(lines.len())
    }
}

#[test]
fn progress_is_shown_on_a_terminal_alone() {
    let words = ["colour", &sample("gray.page"), "0", "-"];
    let (status, out, err) = on_terminals(&words, &mut Slow(4), false, true);
    assert_eq!(
        (status, out.iter().filter(|b| **b == b'\n').count()),
        (0, 4 * 4096)
    );
    assert!(err.contains(" colours") && err.contains(','), "{err:?}");
    assert!(err.ends_with("\r\x1b[K"), "{err:?}");
    for (output, errors) in [(false, false), (true, true)] {
        let (_, _, err) = on_terminals(&words, &mut Slow(4), output, errors);
        assert_eq!(err, "");
    }
}

/// An output that is looked at while it is written, and an input that looks: each answer is there before more is read.
#[derive(Clone)]
struct Seen(Rc<RefCell<Vec<u8>>>);

impl Write for Seen {
    fn write(&mut self, bytes: &[u8]) -> io::Result<usize> {
        self.0.borrow_mut().extend_from_slice(bytes);
        Ok(bytes.len())
    }

    fn flush(&mut self) -> io::Result<()> {
        Ok(())
    }
}

struct Asking {
    seen: Seen,
    asked: usize,
}

impl Read for Asking {
    fn read(&mut self, buffer: &mut [u8]) -> io::Result<usize> {
        let answers = self.seen.0.borrow().iter().filter(|b| **b == b'\n').count();
        assert_eq!(
            answers, self.asked,
            "each answer is there before the next is asked"
        );
        if self.asked == 3 {
            return Ok(0);
        }
        self.asked += 1;
        buffer[..4].copy_from_slice(b"0.5\n");
        Ok(4)
    }
}

#[test]
fn answers_come_before_more_is_waited_for() {
    let seen = Seen(Rc::default());
    let mut input = Asking {
        seen: seen.clone(),
        asked: 0,
    };
    let words = ["colour", &sample("gray.page"), "0", "-"].map(OsString::from);
    let mut output = seen.clone();
    let status = desk::run(&words, &mut input, &mut output, &mut io::sink());
    assert_eq!((status, input.asked), (0, 3));
}
