//! Colours: of a space on a page, or of a recipe; one on the command line, or many from standard input.

use crate::args::Words;
use crate::files;
use crate::json::{self, Object};
use crate::numbers::{self, thousands};
use crate::progress::Progress;
use crate::recipes::Recipe;
use crate::refusals::{worse, Place, Stop, Told};
use crate::spaces;
use crate::streams::Desk;
use sktelbaan::{Answer, Colour, Refusal};
use std::ffi::OsString;
use std::fmt::Write;
use std::io::{ErrorKind, Read};

/// How many bytes a line of colours may have.
const LONGEST_LINE: usize = 1 << 20;

/// How answers are printed.
#[derive(Clone, Copy)]
struct Style {
    json: bool,
    plain: bool,
    strict: bool,
}

impl Style {
    fn of(desk: &Desk<'_>, words: &Words) -> Style {
        Style {
            json: desk.json,
            plain: words.has("--plain"),
            strict: words.has("--strict"),
        }
    }

    /// Writes an answer, on a line.
    fn write(self, colour: &Colour, line: &mut String) {
        let floats = colour.answer.floats();
        if self.json {
            let object = Object::new()
                .text("in", name_of(&colour.answer))
                .raw("floats", &json::list(floats))
                .truth("moved", colour.moved);
            line.push_str(&object.line());
            return;
        }
        if !self.plain {
            // A string takes whatever is written to it.
            let _ = writeln!(line, "{colour}");
            return;
        }
        for (k, v) in floats.iter().enumerate() {
            let _ = write!(line, "{}{v}", if k > 0 { " " } else { "" });
        }
        line.push_str(if floats.is_empty() { "-\n" } else { "\n" });
    }

    /// The status that an answer gives.
    fn status(self, colour: &Colour) -> u8 {
        if self.strict && colour.moved {
            3
        } else {
            0
        }
    }
}

/// What an answer is in.
fn name_of(answer: &Answer) -> &'static str {
    match answer {
        Answer::Gray(_) => "Gray",
        Answer::Rgb(_) => "RGB",
        Answer::Cmyk(_) => "CMYK",
        Answer::Xyz(_) => "XYZ",
        Answer::NoMark => "NoMark",
        Answer::EveryInk(_) => "EveryInk",
    }
}

/// What answers colours: the words of a recipe, and how they are named in what is told.
struct Source {
    words: Vec<i32>,
    file: String,
    /// What takes so many components, as `space 0 has`.
    takes: String,
}

impl Source {
    /// A refusal of a colour with so many components.
    fn refused(&self, refusal: &Refusal, given: usize) -> Told {
        let told = Told::refused(refusal.number, &self.file);
        let count = self.words.first().copied().unwrap_or(0);
        match refusal.number {
            9 => told.in_words(format!("{given} given, {} {count}", self.takes)),
            _ => told,
        }
    }
}

/// `colour PAGE SPACE COMPONENT..`: the answer of a space on a page.
pub(crate) fn colour(desk: &mut Desk<'_>, words: &Words, usage: &str) -> Result<u8, Stop> {
    let arguments = words.expect(2, usize::MAX, usage)?;
    let (place, components) = arguments.split_at(2);
    let found = spaces::find(desk, &place[0], &place[1], words.value("--house"))?;
    let source = Source {
        words: found.page.recipe(found.number)?,
        file: found.page.name.clone(),
        takes: format!("{} has", found.shown()),
    };
    let style = Style::of(desk, words);
    if is_bulk(components) {
        // The recipe answers every colour as the page does; the page is validated once.
        return bulk(desk, &source, style);
    }
    let components = components_of(components)?;
    let reply = sktelbaan::evaluate(&found.page.bytes, found.number, &components);
    let colour = reply.map_err(|refusal| source.refused(&refusal, components.len()))?;
    one(desk, &colour, style)
}

/// `run RECIPE COMPONENT..`: the answer of a recipe, without its page.
pub(crate) fn run(desk: &mut Desk<'_>, words: &Words, usage: &str) -> Result<u8, Stop> {
    let arguments = words.expect(1, usize::MAX, usage)?;
    let (file, components) = arguments.split_at(1);
    let recipe = Recipe::accepted(desk, &file[0])?;
    let source = Source {
        words: recipe.words,
        file: recipe.name,
        takes: "the recipe takes".to_string(),
    };
    let style = Style::of(desk, words);
    if is_bulk(components) {
        return bulk(desk, &source, style);
    }
    let components = components_of(components)?;
    let reply = sktelbaan::run(&source.words, &components);
    let colour = reply.map_err(|refusal| source.refused(&refusal, components.len()))?;
    one(desk, &colour, style)
}

/// Whether the components are to be read from standard input.
fn is_bulk(components: &[OsString]) -> bool {
    matches!(components, [only] if only == "-")
}

fn components_of(words: &[OsString]) -> Result<Vec<i32>, Stop> {
    words.iter().map(|word| numbers::argument(word)).collect()
}

fn one(desk: &mut Desk<'_>, colour: &Colour, style: Style) -> Result<u8, Stop> {
    let mut line = String::new();
    style.write(colour, &mut line);
    desk.say(&line)?;
    Ok(style.status(colour))
}

/// Answers one colour a line, each line by itself: what is refused or no colour is told, and the rest still answered.
fn bulk(desk: &mut Desk<'_>, source: &Source, style: Style) -> Result<u8, Stop> {
    let mut lines = Lines::new(desk.input()?);
    let mut progress = Progress::new(desk);
    let (mut status, mut number) = (0, 0_u64);
    let mut text = String::new();
    let mut components = Vec::new();
    while let Some(line) = lines.next(desk)? {
        number += 1;
        text.clear();
        match answered(source, line, &mut components) {
            Ok(Some(colour)) => {
                style.write(&colour, &mut text);
                status = worse(status, style.status(&colour));
            }
            Ok(None) => text.push('\n'),
            Err(told) => {
                progress.clear(desk);
                let told = Told {
                    file: Some("standard input".to_string()),
                    place: placed(told.place, number),
                    ..*told
                };
                status = worse(status, told.status);
                text.push_str(&stands_for(&told, style));
                desk.tell(&told);
            }
        }
        desk.say(&text)?;
        if number % 4096 == 0 {
            progress.show(desk, || format!("{} colours", thousands(number)));
        }
    }
    progress.clear(desk);
    Ok(status)
}

/// The place of a fault in a line that has this number.
fn placed(place: Place, number: u64) -> Place {
    match place {
        Place::Column(_, column) => Place::Column(number as usize, column),
        _ => Place::Line(number),
    }
}

/// What stands among the answers for a line that has none, so that answers and lines stay together.
fn stands_for(told: &Told, style: Style) -> String {
    match (style.json, told.refusal) {
        // The refusal's own object stands there.
        (true, Some(_)) => String::new(),
        (true, None) => told.object().line(),
        (false, Some(number)) => format!("refused {number}\n"),
        (false, None) => "no colour\n".to_string(),
    }
}

/// The colour of a line; none where the line has nothing but white space and a comment.
fn answered(
    source: &Source,
    line: &[u8],
    components: &mut Vec<i32>,
) -> Result<Option<Colour>, Box<Told>> {
    components.clear();
    let mut at = 0;
    while let Some(&b) = line.get(at) {
        if b.is_ascii_whitespace() {
            at += 1;
            continue;
        }
        if b == b'%' {
            break;
        }
        let rest = &line[at..];
        let end = rest.iter().position(u8::is_ascii_whitespace);
        let word = &rest[..end.unwrap_or(rest.len())];
        match numbers::component(word) {
            Ok(v) => components.push(v),
            Err(fault) => return Err(Box::new(bad_word(word, at, fault))),
        }
        at += word.len();
    }
    if components.is_empty() {
        return Ok(None);
    }
    let reply = sktelbaan::run(&source.words, components);
    let refused = |refusal| Box::new(source.refused(&refusal, components.len()));
    reply.map(Some).map_err(refused)
}

/// A word of a line that is no component.
fn bad_word(word: &[u8], at: usize, fault: numbers::Fault) -> Told {
    let shown: String = String::from_utf8_lossy(word).chars().take(40).collect();
    let shown = shown.replace(char::is_control, " ");
    let words = format!("{shown}: {}", fault.words());
    Told::new(2, words).at_place(Place::Column(1, at + 1))
}

/// The lines of an input, as they come: answers are let through before more is waited for.
struct Lines<'a> {
    input: &'a mut dyn Read,
    buffer: Vec<u8>,
    from: usize,
    to: usize,
    ended: bool,
}

impl<'a> Lines<'a> {
    fn new(input: &'a mut dyn Read) -> Self {
        Lines {
            input,
            buffer: vec![0; 1 << 16],
            from: 0,
            to: 0,
            ended: false,
        }
    }

    /// The next line, without its end.
    fn next(&mut self, desk: &mut Desk<'_>) -> Result<Option<&[u8]>, Stop> {
        loop {
            let left = &self.buffer[self.from..self.to];
            let end = left.iter().position(|b| *b == b'\n');
            if end.is_some() || self.ended {
                let size = end.unwrap_or(left.len());
                if end.is_none() && size == 0 {
                    return Ok(None);
                }
                let line = self.from..self.from + size;
                self.from = (line.end + 1).min(self.to);
                return Ok(Some(&self.buffer[line]));
            }
            self.fill(desk)?;
        }
    }

    /// Reads more, after what is left.
    fn fill(&mut self, desk: &mut Desk<'_>) -> Result<(), Stop> {
        self.buffer.copy_within(self.from..self.to, 0);
        self.to -= self.from;
        self.from = 0;
        if self.to == self.buffer.len() {
            if self.to >= LONGEST_LINE {
                let words = format!("standard input: a line of more than {LONGEST_LINE} bytes");
                return Err(Stop::wrong(words));
            }
            self.buffer.resize(2 * self.to, 0);
        }
        desk.flush()?;
        match self.input.read(&mut self.buffer[self.to..]) {
            Ok(0) => self.ended = true,
            Ok(count) => self.to += count,
            Err(error) if error.kind() == ErrorKind::Interrupted => {}
            Err(error) => {
                return Err(Stop::wrong(format!(
                    "standard input: {}",
                    files::reason(&error)
                )))
            }
        }
        Ok(())
    }
}
