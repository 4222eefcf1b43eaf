//! `samples DIR`: writes the sample pages, the listings of these and of the designers' texts, the colours and inks to try and what is said of them into a folder.

use reference::listing::list;
use reference::samples::{all, colours, inks, readme, TEXTS};
use std::path::Path;
use std::process::ExitCode;

/// Writes every file.
fn write(folder: &Path) -> std::io::Result<()> {
    for sample in all() {
        std::fs::write(folder.join(format!("{}.page", sample.name)), &sample.page)?;
        let listing = folder.join(format!("{}.txt", sample.name));
        std::fs::write(listing, list(&sample.page))?;
    }
    for text in TEXTS {
        std::fs::write(folder.join(format!("{}.lst", text.name)), text.listing())?;
    }
    std::fs::write(folder.join("colours.txt"), colours())?;
    std::fs::write(folder.join("inks.txt"), inks())?;
    std::fs::write(folder.join("README.md"), readme())
}

fn main() -> ExitCode {
    let mut words = std::env::args_os().skip(1);
    let (Some(folder), None) = (words.next(), words.next()) else {
        eprintln!("usage: samples DIR");
        return ExitCode::from(2);
    };
    match write(Path::new(&folder)) {
        Ok(()) => ExitCode::SUCCESS,
        Err(error) => {
            eprintln!("samples: {error}");
            ExitCode::FAILURE
        }
    }
}
