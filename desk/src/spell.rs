//! The way back: a page or a space as a designer's text.

use crate::args::Words;
use crate::files::Contents;
use crate::json::Object;
use crate::layout;
use crate::names;
use crate::numbers::{hexadecimal, row, written};
use crate::pages::{ink_name, inside, Page};
use crate::refusals::{Place, Stop, Told};
use crate::spaces;
use crate::streams::Desk;
use crate::texts;
use sktelbaan::{Body, Record};
use std::collections::HashSet;

/// How many bytes of a palette stand on a line.
const LINE: usize = 32;

/// `spell PAGE [SPACE]`: a page, or one space of it, as a designer's text.
pub(crate) fn spell(desk: &mut Desk<'_>, words: &Words, usage: &str) -> Result<u8, Stop> {
    let arguments = words.expect(1, 2, usage)?;
    let text = match arguments.get(1) {
        Some(space) => {
            let found = spaces::find(desk, &arguments[0], space, words.value("--house"))?;
            found.page.recipe(found.number)?;
            let text = space_text(&found.page, found.number, 0)? + "\n";
            asked_back(&found.page.name, text)?
        }
        None => {
            let page = Page::accepted(desk, &arguments[0])?;
            asked_back(&page.name, page_text(&page)?)?
        }
    };
    if desk.json {
        desk.say(&Object::new().text("text", &text).line())?;
    } else {
        desk.say(&text)?;
    }
    Ok(0)
}

/// The text, where the library reads it. A space that several are over is spelled in each, so that it may have too many blocks.
fn asked_back(file: &str, text: String) -> Result<String, Stop> {
    let Err(unread) = texts::page_of(text.as_bytes()) else {
        return Ok(text);
    };
    let bytes = text.into_bytes();
    let name = format!("the text of {file}");
    let told = texts::refused(&Contents { name, bytes }, &unread);
    let help = match unread.number {
        15 => vec!["a space that several others are over stands in each of them: spell the spaces one by one".to_string()],
        _ => Vec::new(),
    };
    Err(told.with_notes(help).into())
}

/// The spaces of a page that no other is over, one after the other: the others stand inside these.
fn page_text(page: &Page) -> Result<String, Stop> {
    let spaces = page.spaces()?;
    let used: HashSet<u32> = spaces.iter().filter_map(|(_, r)| inside(&r.body)).collect();
    let mut text = String::new();
    for (number, _) in spaces.iter().filter(|(number, _)| !used.contains(number)) {
        text += &space_text(page, *number, 0)?;
        text.push('\n');
    }
    Ok(text)
}

/// A space, with those inside it set in by two columns.
fn space_text(page: &Page, number: u32, depth: usize) -> Result<String, Stop> {
    if let Some(device) = layout::device_name(number) {
        return Ok(format!("/{device}"));
    }
    let record = page.record(number)?;
    match &record.body {
        Body::Indexed { base, hival } => indexed(page, number, u32::from(*base), *hival, depth),
        Body::Separation { .. } => separation(page, number, &record, depth),
        Body::DeviceN { .. } => {
            let words = "a DeviceN is made by a program, which no designer's text can have";
            Err(no_text(page, number, words))
        }
        plain => {
            let margin = format!("\n{}", "  ".repeat(depth + 1));
            plain_text(plain, &margin).ok_or_else(|| no_text(page, number, "it is no space"))
        }
    }
}

/// A plain space: its family and its dictionary.
fn plain_text(body: &Body, margin: &str) -> Option<String> {
    let points = |white: &[i32; 3], black: &[i32; 3]| {
        format!("/WhitePoint [{}] /BlackPoint [{}]", row(white), row(black))
    };
    match body {
        Body::CalGray {
            white,
            black,
            gamma,
        } => {
            let (points, gamma) = (points(white, black), written(*gamma));
            Some(format!("[/CalGray << {points} /Gamma {gamma} >>]"))
        }
        Body::CalRgb {
            white,
            black,
            gammas,
            matrix,
        } => {
            let (points, gammas, matrix) = (points(white, black), row(gammas), row(matrix));
            let entries = format!("/Gamma [{gammas}]{margin}/Matrix [{matrix}]");
            Some(format!("[/CalRGB << {points}{margin}{entries} >>]"))
        }
        Body::Lab {
            white,
            black,
            range,
        } => {
            let points = points(white, black);
            Some(format!("[/Lab << {points} /Range [{}] >>]", row(range)))
        }
        Body::Indexed { .. } | Body::Separation { .. } | Body::DeviceN { .. } => None,
        Body::Free | Body::Palette | Body::Program => None,
    }
}

/// What a designer's text has no words for.
fn no_text(page: &Page, number: u32, words: &str) -> Stop {
    let told = Told {
        file: Some(page.name.clone()),
        ..Told::new(1, words.to_string())
    };
    told.at_place(Place::Block(number)).into()
}

fn indexed(page: &Page, number: u32, base: u32, hival: u16, depth: usize) -> Result<String, Stop> {
    let margin = format!("\n{}", "  ".repeat(depth + 1));
    let inner = space_text(page, base, depth + 1)?;
    let palette = page.palette(number, base, hival)?.concat();
    let lines: Vec<String> = palette.chunks(LINE).map(hexadecimal).collect();
    let palette = lines.join(&format!("{margin}  "));
    let between = if inner.starts_with('/') { " " } else { &margin };
    Ok(format!(
        "[/Indexed{between}{inner}{margin}{hival} <{palette}>]"
    ))
}

fn separation(page: &Page, number: u32, record: &Record, depth: usize) -> Result<String, Stop> {
    let Body::Separation {
        alternate,
        exponent,
        c0,
        c1,
        ..
    } = record.body
    else {
        return Err(no_text(page, number, "it is no Separation"));
    };
    if exponent == 0 {
        let words = "its tint is a program's, which no designer's text can have";
        return Err(no_text(page, number, words));
    }
    let alternate = u32::from(alternate);
    let margin = format!("\n{}", "  ".repeat(depth + 1));
    let name = names::written(ink_name(record).unwrap_or_default());
    let inner = space_text(page, alternate, depth + 1)?;
    let count = page.components(alternate)?.min(c0.len());
    let (c0, c1) = (row(&c0[..count]), row(&c1[..count]));
    let between = if inner.starts_with('/') { " " } else { &margin };
    let function = format!("/FunctionType 2 /Domain [0 1] /N {exponent} /C0 [{c0}] /C1 [{c1}]");
    Ok(format!(
        "[/Separation /{name}{between}{inner}{margin}<< {function} >>]"
    ))
}
