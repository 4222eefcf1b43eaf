//! Files: what is read from them, and how one is written beside its place and renamed.

use crate::refusals::Stop;
use crate::streams::Desk;
use std::ffi::OsStr;
use std::fs::{self, File, OpenOptions};
use std::io::{self, BufWriter, Read, Write};
use std::path::{Path, PathBuf};

/// How the standard input is named in what is told.
const STANDARD_INPUT: &str = "standard input";

/// The bytes of a file, or of the standard input, and the name that it is told by.
pub(crate) struct Contents {
    pub name: String,
    pub bytes: Vec<u8>,
}

/// A file's name as it is told.
pub(crate) fn shown(file: &OsStr) -> String {
    match file.to_str() {
        Some("-") => STANDARD_INPUT.to_string(),
        _ => file.to_string_lossy().into_owned(),
    }
}

/// Why a file cannot be read or written, in the system's words, without its number for them.
pub(crate) fn reason(error: &io::Error) -> String {
    let words = error.to_string();
    match words.find(" (os error") {
        Some(end) => words[..end].to_string(),
        None => words,
    }
}

/// Reads a file, or for `-` the standard input, to its end, or to one byte more than `most`.
pub(crate) fn read_up_to(desk: &mut Desk<'_>, file: &OsStr, most: usize) -> Result<Contents, Stop> {
    let name = shown(file);
    let mut bytes = Vec::new();
    let limit = most as u64 + 1;
    let read = if file == "-" {
        desk.input()?.take(limit).read_to_end(&mut bytes)
    } else {
        File::open(file).and_then(|open| open.take(limit).read_to_end(&mut bytes))
    };
    match read {
        Ok(_) => Ok(Contents { name, bytes }),
        Err(error) => Err(Stop::wrong(format!("{name}: {}", reason(&error)))),
    }
}

/// Reads a file whole, if it has no more than `most` bytes: what a longer one holds is not looked at.
pub(crate) fn read_whole(desk: &mut Desk<'_>, file: &OsStr, most: usize) -> Result<Contents, Stop> {
    let contents = read_up_to(desk, file, most)?;
    if contents.bytes.len() > most {
        let words = format!("{}: more than {most} bytes", contents.name);
        return Err(Stop::wrong(words));
    }
    Ok(contents)
}

/// A file that is being written: beside its place, until all of it is there.
pub(crate) struct Beside {
    shown: String,
    place: PathBuf,
    /// Where it is written; none for what is no file, as a pipe or a device, which is written as it stands.
    beside: Option<PathBuf>,
    file: Option<BufWriter<File>>,
}

impl Beside {
    /// Begins to write a file. One that may not be written, or that is a folder, is a fault at once.
    pub fn open(file: &OsStr) -> Result<Beside, Stop> {
        let shown = shown(file);
        let opened = Self::begin(Path::new(file));
        let (place, beside, file) =
            opened.map_err(|error| Stop::wrong(format!("{shown}: {}", reason(&error))))?;
        let file = Some(BufWriter::with_capacity(1 << 16, file));
        Ok(Beside {
            shown,
            place,
            beside,
            file,
        })
    }

    fn begin(file: &Path) -> io::Result<(PathBuf, Option<PathBuf>, File)> {
        let place = match fs::metadata(file) {
            Err(error) if error.kind() == io::ErrorKind::NotFound => file.to_path_buf(),
            Err(error) => return Err(error),
            // What is no file is written as it stands; a folder says here that it is one.
            Ok(known) if !known.is_file() => {
                let open = OpenOptions::new().write(true).open(file)?;
                return Ok((file.to_path_buf(), None, open));
            }
            Ok(known) if known.permissions().readonly() => {
                return Err(io::ErrorKind::PermissionDenied.into());
            }
            // Who may not write the file may not replace it either. A link stays, and what it leads to is replaced.
            Ok(_) => {
                OpenOptions::new().write(true).open(file)?;
                fs::canonicalize(file)?
            }
        };
        let (beside, open) = create_beside(&place)?;
        // Who may not read the old file may not read the new one either, from its first byte on.
        if let Ok(known) = fs::metadata(&place) {
            fs::set_permissions(&beside, known.permissions())?;
        }
        Ok((place, Some(beside), open))
    }

    /// Writes the next bytes.
    pub fn put(&mut self, bytes: &[u8]) -> Result<(), Stop> {
        let written = match &mut self.file {
            Some(file) => file.write_all(bytes),
            None => Ok(()),
        };
        written.map_err(|error| Stop::wrong(format!("{}: {}", self.shown, reason(&error))))
    }

    /// Puts the file in its place, and gives the name that it is told by.
    pub fn commit(mut self) -> Result<String, Stop> {
        let shown = self.shown.clone();
        self.put_in_place()
            .map_err(|error| Stop::wrong(format!("{shown}: {}", reason(&error))))?;
        Ok(shown)
    }

    fn put_in_place(&mut self) -> io::Result<()> {
        let Some(mut written) = self.file.take() else {
            return Ok(());
        };
        written.flush()?;
        let Some(beside) = &self.beside else {
            return Ok(());
        };
        written.get_ref().sync_all()?;
        fs::rename(beside, &self.place)?;
        self.beside = None;
        Ok(())
    }
}

impl Drop for Beside {
    /// What was not put in its place goes.
    fn drop(&mut self) {
        if let Some(beside) = &self.beside {
            let _ = fs::remove_file(beside);
        }
    }
}

/// A new file in the folder of the place, hidden, with a name that no other file has.
fn create_beside(place: &Path) -> io::Result<(PathBuf, File)> {
    let name = place.file_name().unwrap_or(OsStr::new("sktelbaan"));
    let process = std::process::id();
    for turn in 0..100 {
        let mut beside = OsStr::new(".").to_os_string();
        beside.push(name);
        beside.push(format!(".{process}.{turn}.part"));
        let beside = place.with_file_name(beside);
        match OpenOptions::new()
            .write(true)
            .create_new(true)
            .open(&beside)
        {
            Ok(open) => return Ok((beside, open)),
            Err(error) if error.kind() == io::ErrorKind::AlreadyExists => {}
            Err(error) => return Err(error),
        }
    }
    Err(io::ErrorKind::AlreadyExists.into())
}
