//! Whether pages are accepted, and the spaces of one.

use crate::args::Words;
use crate::files::reason;
use crate::json::{self, Object};
use crate::layout;
use crate::names;
use crate::pages::{family, ink_name, inside, Page};
use crate::progress::Progress;
use crate::refusals::{Place, Stop, Told};
use crate::streams::Desk;
use sktelbaan::{Body, Record};
use std::ffi::{OsStr, OsString};
use std::path::{Path, PathBuf};

/// `check PAGE..`: says of each page whether it is accepted. The status is the worst.
pub(crate) fn check(desk: &mut Desk<'_>, words: &Words, usage: &str) -> Result<u8, Stop> {
    let files = files_of(words.expect(1, usize::MAX, usage)?)?;
    let plain = words.has("--plain");
    let mut progress = Progress::new(desk);
    let mut worst = 0;
    for (k, file) in files.iter().enumerate() {
        progress.show(desk, || format!("{k} of {} pages", files.len()));
        let line = check_one(desk, file, plain);
        progress.clear(desk);
        match line {
            Ok(line) => desk.say(&line)?,
            Err(Stop::Told(told)) => {
                if plain && !desk.json {
                    desk.say(&plain_refusal(&told))?;
                }
                worst = worst.max(told.status);
                desk.tell(&told);
            }
            Err(Stop::Closed) => return Err(Stop::Closed),
        }
    }
    Ok(worst)
}

/// The plain line of a page that is refused; nothing for a file that cannot be read.
fn plain_refusal(told: &Told) -> String {
    let block = match told.place {
        Place::Block(block) => block,
        _ => 0,
    };
    let line = |number| {
        let file = told.file.as_deref().unwrap_or_default();
        format!("{file}: refused {number} block {block}\n")
    };
    told.refusal.map_or(String::new(), line)
}

/// The files that the words name: for a folder, its pages.
fn files_of(words: &[OsString]) -> Result<Vec<OsString>, Stop> {
    let mut files = Vec::new();
    for word in words {
        if Path::new(word).is_dir() {
            files.extend(pages_in(word)?);
        } else {
            files.push(word.clone());
        }
    }
    Ok(files)
}

/// The files of a folder that end in `.page`, in order.
fn pages_in(folder: &OsStr) -> Result<Vec<OsString>, Stop> {
    let shown = folder.to_string_lossy();
    let entries = std::fs::read_dir(folder);
    let entries = entries.map_err(|error| Stop::wrong(format!("{shown}: {}", reason(&error))))?;
    let paths = entries.filter_map(Result::ok).map(|entry| entry.path());
    let is_page = |path: &PathBuf| path.extension().is_some_and(|end| end == "page");
    let mut pages: Vec<OsString> = paths.filter(is_page).map(OsString::from).collect();
    pages.sort();
    if pages.is_empty() {
        return Err(Stop::wrong(format!("{shown}: a folder with no .page file")));
    }
    Ok(pages)
}

/// The line of a page that is accepted.
fn check_one(desk: &mut Desk<'_>, file: &OsStr, plain: bool) -> Result<String, Stop> {
    let page = Page::accepted(desk, file)?;
    let (name, blocks) = (&page.name, page.blocks());
    let spaces = page.spaces()?.len();
    if desk.json {
        let object = Object::new().text("file", name).truth("accepted", true);
        let object = object.number("blocks", i64::from(blocks));
        return Ok(object.number("spaces", spaces as i64).line());
    }
    if plain {
        return Ok(format!("{name}: blocks {blocks}\n"));
    }
    let of_blocks = if blocks == 1 { "block" } else { "blocks" };
    let of_spaces = if spaces == 1 { "space" } else { "spaces" };
    Ok(format!(
        "{name}: accepted, {blocks} {of_blocks}, {spaces} {of_spaces}\n"
    ))
}

/// `list PAGE`: the spaces of a page.
pub(crate) fn list(desk: &mut Desk<'_>, words: &Words, usage: &str) -> Result<u8, Stop> {
    let arguments = words.expect(1, 1, usage)?;
    let page = Page::read(desk, &arguments[0])?;
    if words.has("--plain") && !desk.json {
        return plain(desk, &page);
    }
    page.validate()?;
    let spaces = page.spaces()?;
    if !desk.json {
        desk.say("block  family      in  over        words  name\n")?;
    }
    for (number, record) in &spaces {
        let line = line_of(desk, &page, *number, record)?;
        desk.say(&line)?;
    }
    Ok(0)
}

/// The listing of FORMAT.md, byte by byte.
fn plain(desk: &mut Desk<'_>, page: &Page) -> Result<u8, Stop> {
    if let Err(refusal) = sktelbaan::validate(&page.bytes) {
        let (number, block) = (refusal.number, refusal.block);
        desk.say(&format!("refused {number} block {block}\n"))?;
        return Err(page.refused(&refusal).into());
    }
    desk.say(&format!("blocks {}\n", page.blocks()))?;
    for (number, record) in page.spaces()? {
        let recipe = page.recipe(number)?;
        let family = family(&record.body).unwrap_or_default();
        let count = recipe.first().copied().unwrap_or(0);
        let words = recipe.len();
        desk.say(&format!("{number} {family} {count} {words}\n"))?;
    }
    Ok(0)
}

/// The last column: an ink's name, or how many rows a palette has.
fn last_column(record: &Record) -> String {
    match (record.body, ink_name(record)) {
        (Body::Indexed { hival: 0, .. }, _) => "1 row".to_string(),
        (Body::Indexed { hival, .. }, _) => format!("{} rows", u32::from(hival) + 1),
        (_, Some(name)) => names::written(name),
        _ => names::all(record).join(" "),
    }
}

/// The line of a space, as a row of a table or as an object.
fn line_of(desk: &Desk<'_>, page: &Page, number: u32, record: &Record) -> Result<String, Stop> {
    let recipe = page.recipe(number)?;
    let family = family(&record.body).unwrap_or_default();
    let count = recipe.first().copied().unwrap_or(0);
    let words = recipe.len();
    let over = inside(&record.body);
    if !desk.json {
        let over = over.map_or("-".to_string(), layout::reference);
        let last = last_column(record);
        let row = format!("{number:>5}  {family:<10}  {count:>2}  {over:<10}  {words:>5}  {last}");
        return Ok(format!("{}\n", row.trim_end()));
    }
    let mut object = Object::new()
        .number("block", i64::from(number))
        .text("family", family)
        .number("in", i64::from(count));
    object = match over {
        None => object.raw("over", "null"),
        Some(over) => match layout::device_name(over) {
            Some(device) => object.text("over", device),
            None => object.number("over", i64::from(over)),
        },
    };
    object = object.number("words", words as i64);
    if let Body::Indexed { hival, .. } = record.body {
        object = object.number("rows", i64::from(hival) + 1);
    }
    if let Some(name) = ink_name(record) {
        object = object.text("ink", &names::written(name));
    }
    if let Body::DeviceN { .. } = record.body {
        let inks = names::all(record);
        object = object.raw(
            "inks",
            &json::list(inks.iter().map(|ink| json::string(ink))),
        );
    }
    Ok(object.line())
}
