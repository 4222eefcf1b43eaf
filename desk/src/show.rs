//! A space and those inside it, in words.

use crate::args::Words;
use crate::json::{self, Object};
use crate::layout;
use crate::names;
use crate::numbers::{hexadecimal, row, written};
use crate::pages::{family, ink_name, inside, Page};
use crate::refusals::Stop;
use crate::spaces;
use crate::streams::Desk;
use sktelbaan::{Body, Record};

/// How many rows of a palette are shown without `--all`.
const ROWS: usize = 4;

/// `show PAGE SPACE`: a space and those inside it, in words.
pub(crate) fn show(desk: &mut Desk<'_>, words: &Words, usage: &str) -> Result<u8, Stop> {
    let arguments = words.expect(2, 2, usage)?;
    let found = spaces::find(desk, &arguments[0], &arguments[1], words.value("--house"))?;
    let recipe = found.page.recipe(found.number)?;
    if desk.json {
        let object = object_of(&found.page, found.number)?;
        let object = object.number("words", recipe.len() as i64);
        desk.say(&object.line())?;
        return Ok(0);
    }
    let rows = if words.has("--all") { usize::MAX } else { ROWS };
    let mut lines = Vec::new();
    lines_of(&found.page, found.number, rows, 0, &mut lines)?;
    lines.push(format!("recipe of {} words", recipe.len()));
    desk.say(&(lines.join("\n") + "\n"))?;
    Ok(0)
}

/// The lines of a space and of those inside it, each deeper by two columns.
fn lines_of(
    page: &Page,
    number: u32,
    rows: usize,
    depth: usize,
    lines: &mut Vec<String>,
) -> Result<(), Stop> {
    let margin = "  ".repeat(depth);
    if let Some(device) = layout::device_name(number) {
        lines.push(format!("{margin}{device}"));
        return Ok(());
    }
    let record = page.record(number)?;
    let family = family(&record.body).unwrap_or_default();
    let (title, own) = own_lines(page, number, &record, rows)?;
    lines.push(format!("{margin}{family}, block {number}{title}"));
    lines.extend(own.iter().map(|line| format!("{margin}  {line}")));
    if let Some(over) = inside(&record.body) {
        lines.push(format!("{margin}over"));
        lines_of(page, over, rows, depth + 1, lines)?;
    }
    Ok(())
}

/// What is said of a record itself: beside its family, and in lines of its own.
fn own_lines(
    page: &Page,
    number: u32,
    record: &Record,
    rows: usize,
) -> Result<(String, Vec<String>), Stop> {
    match &record.body {
        Body::Indexed { base, hival } => {
            let palette = page.palette(number, u32::from(*base), *hival)?;
            let title = format!(": index 0 to {hival}");
            Ok((title, palette_lines(&palette, rows)))
        }
        Body::Separation { .. } => separation_lines(page, number, record),
        Body::DeviceN { .. } => {
            let inks: Vec<String> = record.names().into_iter().map(names::quoted).collect();
            let mut lines = vec!["program".to_string()];
            lines.extend(program_lines(&page.program(number)));
            Ok((format!(": inks {}", inks.join(", ")), lines))
        }
        plain => Ok((String::new(), plain_lines(plain))),
    }
}

/// The numbers of a plain space.
fn plain_lines(body: &Body) -> Vec<String> {
    let points =
        |white: &[i32; 3], black: &[i32; 3]| format!("white {}  black {}", row(white), row(black));
    match body {
        Body::CalGray {
            white,
            black,
            gamma,
        } => vec![points(white, black), format!("gamma {}", written(*gamma))],
        Body::CalRgb {
            white,
            black,
            gammas,
            matrix,
        } => {
            let mut lines = vec![points(white, black), format!("gammas {}", row(gammas))];
            let columns = "ABC".chars().zip(matrix.chunks(3));
            lines.extend(columns.map(|(name, part)| format!("{name} gives {}", row(part))));
            lines
        }
        Body::Lab {
            white,
            black,
            range,
        } => {
            let [amin, amax, bmin, bmax] = range.map(written);
            let range = format!("a* {amin} to {amax}, b* {bmin} to {bmax}");
            vec![points(white, black), range]
        }
        Body::Indexed { .. } | Body::Separation { .. } | Body::DeviceN { .. } => Vec::new(),
        Body::Free | Body::Palette | Body::Program => Vec::new(),
    }
}

/// The first rows of a palette, and how many more there are.
fn palette_lines(palette: &[Vec<u8>], rows: usize) -> Vec<String> {
    let shown = palette.iter().enumerate().take(rows);
    let mut lines: Vec<String> = shown
        .map(|(index, row)| format!("{index}: {}", hexadecimal(row)))
        .collect();
    match palette.len().saturating_sub(rows) {
        0 => {}
        1 => lines.push("and 1 more row".to_string()),
        more => lines.push(format!("and {more} more rows")),
    }
    lines
}

/// An ink's name, and what its tint makes.
fn separation_lines(
    page: &Page,
    number: u32,
    record: &Record,
) -> Result<(String, Vec<String>), Stop> {
    let Body::Separation {
        alternate,
        exponent,
        c0,
        c1,
        ..
    } = record.body
    else {
        return Ok((String::new(), Vec::new()));
    };
    let name = ink_name(record).unwrap_or_default();
    let mark = match name {
        b"None" => ", which leaves no mark",
        b"All" => ", which is every ink",
        _ => "",
    };
    let title = format!(": ink {}{mark}", names::quoted(name));
    if exponent == 0 {
        let mut lines = vec!["program".to_string()];
        lines.extend(program_lines(&page.program(number)));
        return Ok((title, lines));
    }
    let count = page.components(u32::from(alternate))?.min(c0.len());
    let tints = [(0, c0), (1, c1)].map(|(tint, c)| format!("tint {tint} is {}", row(&c[..count])));
    let mut lines = tints.to_vec();
    lines.push(format!("exponent {exponent}"));
    Ok((title, lines))
}

/// The text of a program, as it stands, each line set in by two columns.
fn program_lines(text: &[u8]) -> Vec<String> {
    let text = String::from_utf8_lossy(text).replace('\r', "\n");
    let printed = |line: &str| -> String {
        let kept = line.chars().map(|c| if c.is_control() { ' ' } else { c });
        kept.collect::<String>().trim_end().to_string()
    };
    let lines = text.trim_end().lines().map(printed);
    lines.map(|line| format!("  {line}")).collect()
}

/// A space as an object, with the one inside it.
fn object_of(page: &Page, number: u32) -> Result<Object, Stop> {
    if let Some(device) = layout::device_name(number) {
        return Ok(Object::new().text("family", device));
    }
    let record = page.record(number)?;
    let mut object = Object::new()
        .number("block", i64::from(number))
        .text("family", family(&record.body).unwrap_or_default());
    if let Some(name) = ink_name(&record) {
        object = object.text("ink", &names::written(name));
    }
    object = match &record.body {
        Body::Indexed { base, hival } => {
            let palette = page.palette(number, u32::from(*base), *hival)?;
            let rows = palette.iter().map(|row| json::string(&hexadecimal(row)));
            object.raw("rows", &json::list(rows))
        }
        Body::Separation { .. } => tint_object(page, number, &record, object)?,
        Body::DeviceN { .. } => {
            let inks = json::list(names::all(&record).iter().map(|ink| json::string(ink)));
            let text = page.program(number);
            object
                .raw("inks", &inks)
                .text("program", &String::from_utf8_lossy(&text))
        }
        _ => plain_object(&record, object),
    };
    match inside(&record.body) {
        Some(over) => Ok(object.raw("over", &object_of(page, over)?.whole())),
        None => Ok(object),
    }
}

/// The numbers of a plain space, as keys of an object.
fn plain_object(record: &Record, object: Object) -> Object {
    let numbers = record.numbers();
    let kind = layout::kind_of(numbers[1]);
    let mut left = &numbers[2..];
    let mut object = object;
    for field in kind.map_or(&[][..], |kind| kind.fields) {
        let (own, rest) = left.split_at(field.count.min(left.len()));
        left = rest;
        object = match own {
            [v] => object.raw(field.key, &written(*v)),
            _ => object.raw(field.key, &json::list(own.iter().map(|v| written(*v)))),
        };
    }
    object
}

/// What a tint makes, as keys of an object.
fn tint_object(page: &Page, number: u32, record: &Record, object: Object) -> Result<Object, Stop> {
    let Body::Separation {
        alternate,
        exponent,
        c0,
        c1,
        ..
    } = record.body
    else {
        return Ok(object);
    };
    if exponent == 0 {
        let text = page.program(number);
        return Ok(object.text("program", &String::from_utf8_lossy(&text)));
    }
    let count = page.components(u32::from(alternate))?.min(c0.len());
    let list = |values: &[i32]| json::list(values[..count].iter().map(|v| written(*v)));
    Ok(object
        .raw("C0", &list(&c0))
        .raw("C1", &list(&c1))
        .number("exponent", i64::from(exponent)))
}
