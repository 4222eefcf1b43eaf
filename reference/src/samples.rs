//! Pages to try, and what is said of them.

mod map;
mod varnish;

pub use map::{INKS as MAP_INKS, TWO_INKS};

use crate::block::{Record, BLOCK, BODY, DEVICE_CMYK, DEVICE_GRAY, DEVICE_RGB, MOST_BLOCKS};
use crate::cie::Answer;
use crate::colour::{evaluate, Reply};
use crate::inks::{find, found_text};
use crate::listing::list;
use crate::numbers::ONE;
use crate::recipe::recipe_of;
use crate::records::{cal_gray, cal_rgb, free, indexed_run, lab, named, page, separation, USUAL};
use crate::runner::run;
use crate::text::read;

/// A page to try.
#[derive(Clone, Debug)]
pub struct Sample {
    /// The file's name, without its ending.
    pub name: &'static str,
    /// What the page is, in a sentence or two.
    pub about: &'static str,
    /// The page.
    pub page: Vec<u8>,
}

/// Gold over DeviceCMYK: 0.2 magenta, 0.65 yellow, 0.15 black at tint 1.
fn gold(number: u16, exponent: u8) -> Record {
    let c1 = [0, 200_000, 650_000, 150_000];
    separation(number, DEVICE_CMYK, exponent, [0; 4], c1)
}

/// A tint over a Lab space: white at tint 0, a dark blue at tint 1.
fn blue_over(number: u16, alternate: u16) -> Record {
    let white = [100 * ONE, 0, 0, 0];
    let blue = [20 * ONE, 15 * ONE, -45 * ONE, 0];
    separation(number, alternate, 1, white, blue)
}

/// Eight colours: the corners of the RGB cube, black first and white last.
fn corners() -> Vec<u8> {
    let bit = |v: u8, k: u8| if v & (4 >> k) == 0 { 0 } else { 255 };
    (0..8)
        .flat_map(|v| [bit(v, 0), bit(v, 1), bit(v, 2)])
        .collect()
}

/// This many bytes of a palette, none like the one before it.
fn palette_bytes(count: usize) -> Vec<u8> {
    (0..count).map(|place| (place * 73 % 256) as u8).collect()
}

/// A page of this many blocks with every family but DeviceN, and Indexed spaces over every kind of base.
pub fn full_page(blocks: usize) -> Vec<u8> {
    let mut records: Vec<Record> = Vec::new();
    let mut turn = 0;
    while records.len() < blocks {
        let at = records.len() as u16;
        let left = blocks - records.len();
        let gamma = i32::from(at % 4 + 1) * ONE;
        // The first four blocks are the bases of the spaces after them.
        let run = match turn % 12 {
            0 => vec![cal_gray(at, gamma)],
            1 => vec![cal_rgb(at, [gamma, ONE, 2 * ONE])],
            2 => vec![lab(at, USUAL)],
            3 => vec![blue_over(at, 2)],
            4 => indexed_run(at, DEVICE_GRAY, 255, &palette_bytes(256)),
            5 => indexed_run(at, DEVICE_RGB, 7, &corners()),
            6 => indexed_run(at, DEVICE_CMYK, 255, &palette_bytes(1024)),
            7 => indexed_run(at, 3, 15, &palette_bytes(16)),
            8 => indexed_run(at, 2, 167, &palette_bytes(BODY)),
            9 => indexed_run(at, 1, 255, &palette_bytes(768)),
            10 => vec![gold(at, (at % 4 + 1) as u8)],
            _ => vec![free(at)],
        };
        turn += 1;
        if run.len() <= left {
            records.extend(run);
        }
    }
    page(&records)
}

/// The two Separations that are no inks, each with an Indexed space over it.
fn marks_page() -> Vec<u8> {
    let mut records = vec![named(gold(0, 1), b"None"), named(gold(1, 1), b"All")];
    records.extend(indexed_run(2, 0, 3, &[0, 85, 170, 255]));
    records.extend(indexed_run(4, 1, 3, &[0, 85, 170, 255]));
    page(&records)
}

/// All the samples.
pub fn all() -> Vec<Sample> {
    let gray = page(&[cal_gray(0, ONE)]);
    let mut damaged = gray.clone();
    if let Some(last) = damaged.last_mut() {
        *last ^= 1;
    }
    let mut nested = indexed_run(0, 2, 15, &palette_bytes(16));
    nested.extend([blue_over(2, 3), lab(3, USUAL)]);
    let sample = |name, about, page| Sample { name, about, page };
    vec![
        sample(
            "gray",
            "A CalGray space: white 0.9505 1 1.089, black 0, gamma 1.",
            gray,
        ),
        sample(
            "rgb",
            "A CalRGB space: the same white, gammas 2, the primaries of sRGB.",
            page(&[cal_rgb(0, [2 * ONE; 3])]),
        ),
        sample(
            "scanner",
            "Gammas in tenths, as scanners write them: a CalGray space with gamma 1.8 (block 0) and a CalRGB space with gammas 2.2 (block 1).",
            page(&[cal_gray(0, 1_800_000), cal_rgb(1, [2_200_000; 3])]),
        ),
        sample(
            "lab",
            "A Lab space: the same white, a* and b* from -100 to 100.",
            page(&[lab(0, USUAL)]),
        ),
        sample(
            "indexed",
            "An Indexed space over DeviceRGB: eight colours, the corners of the RGB cube.",
            page(&indexed_run(0, DEVICE_RGB, 7, &corners())),
        ),
        sample(
            "separation",
            "A Separation named Gold over DeviceCMYK, exponent 1.",
            page(&[gold(0, 1)]),
        ),
        sample(
            "marks",
            "The Separations that are no inks, over DeviceCMYK: None (block 0), which leaves no mark, and All (block 1), which is every ink; an Indexed space over None (block 2) and one over All (block 4).",
            marks_page(),
        ),
        sample(
            "varnish",
            "A varnish job, whose tints are calculator programs: Gloss varnish (block 0) over DeviceCMYK, with a text of two blocks, Matt varnish (block 3) over a Lab space (block 5), and an Indexed space (block 6) over the first.",
            varnish::varnish_page(),
        ),
        sample(
            "map",
            "A deck plan's map in two inks: a DeviceN of Blue and Buff (block 0) over DeviceCMYK, whose program makes process colours of its two tints, and an Indexed space over it (block 2); three names, of which one is None, over DeviceRGB (block 4) and over a CalRGB space (block 7); and a DeviceN of None twice (block 9), which leaves no mark.",
            map::map_page(),
        ),
        sample(
            "large",
            "An Indexed space over DeviceCMYK with hival 255: 1,024 palette bytes in three blocks.",
            page(&indexed_run(0, DEVICE_CMYK, 255, &palette_bytes(1024))),
        ),
        sample(
            "nested",
            "An Indexed space (block 0) over a Separation (block 2) over a Lab space (block 3).",
            page(&nested),
        ),
        sample(
            "full",
            "As many blocks as a page has, with every family but DeviceN.",
            full_page(MOST_BLOCKS),
        ),
        sample(
            "job",
            "A job's page of inks: Blue (block 1) over a Lab space (block 0), Buff (block 2), and Blue once more (block 4).",
            page(&[
                lab(0, USUAL),
                named(blue_over(1, 0), b"Blue"),
                named(gold(2, 1), b"Buff"),
                free(3),
                named(blue_over(4, 0), b"Blue"),
            ]),
        ),
        sample(
            "house",
            "A house page of inks: Gold (block 0), Buff (block 1) and Varnish (block 2).",
            page(&[
                gold(0, 1),
                named(gold(1, 2), b"Buff"),
                named(separation(2, DEVICE_GRAY, 1, [ONE, 0, 0, 0], [0; 4]), b"Varnish"),
            ]),
        ),
        sample(
            "zero",
            "A block of zeros: an accepted page of no spaces, on which device colours can be asked for.",
            vec![0; BLOCK],
        ),
        sample(
            "damaged",
            "The page of gray.page with one bit of its check changed.",
            damaged,
        ),
    ]
}

/// Colours to try: a sample's name, a number asked for, and components in millionths.
const COLOURS: &[(&str, u32, &[i32])] = &[
    ("gray", 0, &[ONE]),
    ("rgb", 0, &[250_000, 500_000, 750_000]),
    ("scanner", 0, &[500_000]),
    ("scanner", 1, &[250_000, 500_000, 750_000]),
    ("lab", 0, &[50 * ONE, 20 * ONE, -30 * ONE]),
    ("lab", 0, &[50 * ONE, 20 * ONE, -130 * ONE]),
    ("indexed", 0, &[5 * ONE]),
    ("indexed", 0, &[7_400_000]),
    ("indexed", 0, &[7_500_000]),
    ("separation", 0, &[500_000]),
    ("marks", 0, &[500_000]),
    ("marks", 0, &[1_500_000]),
    ("marks", 1, &[250_000]),
    ("marks", 1, &[1_500_000]),
    ("marks", 2, &[ONE]),
    ("marks", 2, &[-ONE]),
    ("marks", 4, &[ONE]),
    ("varnish", 0, &[40_000]),
    ("varnish", 0, &[500_000]),
    ("varnish", 0, &[1_200_000]),
    ("varnish", 3, &[250_000]),
    ("varnish", 3, &[ONE]),
    ("varnish", 6, &[2_500_000]),
    ("map", 0, &[ONE, 0]),
    ("map", 0, &[250_000, 500_000]),
    ("map", 0, &[1_500_000, -ONE]),
    ("map", 2, &[3 * ONE]),
    ("map", 2, &[4_500_000]),
    ("map", 4, &[300_000, 600_000, 900_000]),
    ("map", 7, &[300_000, 600_000, 900_000]),
    ("map", 9, &[500_000, 2 * ONE]),
    ("large", 0, &[181 * ONE]),
    ("nested", 0, &[2_500_000]),
    ("nested", 2, &[ONE]),
    ("zero", DEVICE_RGB as u32, &[100_000, 200_000, 300_000]),
];

/// A float as C's `%.17g` prints it.
fn float_text(v: f64) -> String {
    if v == 0.0 {
        return if v.is_sign_negative() { "-0" } else { "0" }.to_string();
    }
    let sign = if v < 0.0 { "-" } else { "" };
    let text = format!("{:.16e}", v.abs());
    // One digit, a point, sixteen more, then the exponent.
    let (digits, exponent) = text.split_once('e').unwrap_or((&text, "0"));
    let exponent: i32 = exponent.parse().unwrap_or(0);
    let digits = digits.replace('.', "");
    let digits = digits.trim_end_matches('0');
    let with_point = |digits: &str, whole: usize| match digits.len() {
        length if length <= whole => format!("{digits}{}", "0".repeat(whole - length)),
        _ => format!("{}.{}", &digits[..whole], &digits[whole..]),
    };
    match exponent {
        0..=16 => format!("{sign}{}", with_point(digits, exponent as usize + 1)),
        -4..=-1 => format!("{sign}0.{}{digits}", "0".repeat(-exponent as usize - 1)),
        _ => {
            let mark = if exponent < 0 { '-' } else { '+' };
            let size = exponent.unsigned_abs();
            format!("{sign}{}e{mark}{size:02}", with_point(digits, 1))
        }
    }
}

/// A colour's reply as the C program prints it.
fn reply_text(reply: &Reply) -> String {
    let colour = match reply {
        Ok(colour) => colour,
        Err((number, block)) => return format!("refused {number} block {block}"),
    };
    let (name, floats): (&str, &[f64]) = match &colour.answer {
        Answer::Gray(v) => ("Gray", std::slice::from_ref(v)),
        Answer::Rgb(v) => ("RGB", v),
        Answer::Cmyk(v) => ("CMYK", v),
        Answer::Xyz(v) => ("XYZ", v),
        Answer::NoMark => ("NoMark", &[]),
        Answer::EveryInk(v) => ("EveryInk", std::slice::from_ref(v)),
    };
    let text = floats.iter().fold(name.to_string(), |text, v| {
        format!("{text} {}", float_text(*v))
    });
    text + if colour.moved { " moved" } else { "" }
}

/// The text that the C program prints for the colours to try, each after the words that it is started with.
pub fn colours() -> String {
    let samples = all();
    let mut text = String::new();
    for &(name, number, components) in COLOURS {
        let Some(sample) = samples.iter().find(|sample| sample.name == name) else {
            continue;
        };
        let words: Vec<String> = components.iter().map(i32::to_string).collect();
        text += &format!("colour {name}.page {number} {}\n", words.join(" "));
        let reply = evaluate(&sample.page, number, components);
        text += &format!("page {}\n", reply_text(&reply));
        if let Ok(recipe) = recipe_of(&sample.page, number) {
            text += &format!("recipe of {} words\n", recipe.len());
            text += &format!("run {}\n", reply_text(&run(&recipe, components)));
        }
    }
    text
}

/// Inks to ask for: the names of two samples, the job's and the house's, and an ink's name.
const INKS: &[(&str, &str, &str)] = &[
    ("job", "house", "Blue"),
    ("job", "house", "Buff"),
    ("job", "house", "Gold"),
    ("job", "house", "Varnish"),
    ("job", "house", "blue"),
    ("job", "house", "Varnis"),
    ("job", "house", "Varnishes"),
    ("job", "house", ""),
    ("house", "job", "Buff"),
    ("zero", "zero", "Gold"),
    ("damaged", "house", "Gold"),
    ("job", "damaged", "Blue"),
];

/// The text that the C program prints for the inks to ask for, each after the words that it is started with.
pub fn inks() -> String {
    let samples = all();
    let page = |name| samples.iter().find(|sample| sample.name == name);
    let mut text = String::new();
    for &(job, house, name) in INKS {
        let (Some(job), Some(house)) = (page(job), page(house)) else {
            continue;
        };
        let words = format!("ink {}.page {}.page {name}", job.name, house.name);
        text += &format!("{}\n", words.trim_end());
        let reply = find(&job.page, &house.page, name.as_bytes());
        let own = reply.map_or(String::new(), |ink| {
            format!(" {}", String::from_utf8_lossy(ink.name))
        });
        text += &format!("{}{own}\n", found_text(&job.page, &house.page, &reply));
    }
    text
}

/// A designer's text to try, which is written by hand.
#[derive(Clone, Copy, Debug)]
pub struct Written {
    /// The file's name, without its ending.
    pub name: &'static str,
    /// What the text is, in a sentence or two.
    pub about: &'static str,
    /// The text.
    pub text: &'static [u8],
}

/// The designers' texts.
pub const TEXTS: [Written; 2] = [
    Written {
        name: "deck",
        about: "A designer's text of all five families, with comments and odd layout, both forms of strings, and entries left out that have defaults.",
        text: include_bytes!("../../samples/deck.txt"),
    },
    Written {
        name: "refused",
        about: "A designer's text with a comma for a point: no page is written of it.",
        text: include_bytes!("../../samples/refused.txt"),
    },
];

impl Written {
    /// What the listing program prints for the text's page, or the line that the reading program prints for a refused
    /// text.
    pub fn listing(&self) -> String {
        match read(self.text, MOST_BLOCKS) {
            Ok(page) => list(&page),
            Err((number, at)) => format!("refused {number} at {at}\n"),
        }
    }
}

/// The text that says what each sample is and what the listing program prints for it.
pub fn readme() -> String {
    let mut text = String::from(
        "# Samples

Pages and texts to try. `NAME.page` is a page of 512-byte blocks, `NAME.txt` beside it what the listing program prints for it. All of them,
`deck.lst`, `refused.lst` and this text are written by the second implementation:

    cargo run --release --offline --manifest-path reference/Cargo.toml --bin samples -- samples

`colour.c` is a C program that evaluates a colour, writes the space's recipe, runs it and prints both answers, with the word `moved` after one whose
colour was pulled in. `run.c` runs a recipe that it wrote, with the plate setter's library alone. `ink.c` asks for an ink by its name, of a job's page and
a house page. `edges.c` checks the C interface at its edges, and `stack.c` measures the machine's stack that a run takes. With the libraries in
`target/staticlib/` (`tools/staticlib sktelbaan sktelbaan_runner` puts them there), `samples/build` compiles all five, runs the first two
on the colours of `colours.txt` and the third on the inks of `inks.txt`, and compares what they print with these texts.

`deck.txt` and `refused.txt` are designers' texts, written by hand. `deck.lst` has what is printed by

    crates/reading/out/reading < samples/deck.txt | crates/listing/out/listing

and `refused.lst` the line that `crates/reading/out/reading < samples/refused.txt` prints to standard error.

`desk.lst` has sessions of the desk program, which `desk/replay` runs; a test holds its floats to the second implementation's.
",
    );
    for written in TEXTS {
        let Written { name, about, .. } = written;
        text += &format!("\n## {name}.txt\n\n{about}\n\n");
        for line in written.listing().lines() {
            text += &format!("    {line}\n");
        }
    }
    for Sample { name, about, page } in all() {
        let listing = list(&page);
        text += &format!("\n## {name}.page\n\n{about}\n\n");
        if listing.lines().count() > 10 {
            text += &format!("Its listing is in `{name}.txt`.\n");
        } else {
            for line in listing.lines() {
                text += &format!("    {line}\n");
            }
        }
    }
    text
}

#[cfg(test)]
mod tests {
    use super::*;

    #[test]
    fn floats_are_printed_as_c_prints_them() {
        for (v, text) in [
            (0.0, "0"),
            (-0.0, "-0"),
            (1.0, "1"),
            (0.1, "0.10000000000000001"),
            (-2.5, "-2.5"),
            (0.00025, "0.00025000000000000001"),
            (0.00001, "1.0000000000000001e-05"),
            (1_000_000.0, "1000000"),
            (1e16, "10000000000000000"),
            (1e17, "1e+17"),
            (1.5e300, "1.5000000000000001e+300"),
        ] {
            assert_eq!(float_text(v), text);
        }
    }

    #[test]
    fn every_ink_to_ask_for_has_its_lines() {
        let text = inks();
        assert_eq!(text.lines().count(), 2 * INKS.len());
        assert!(text.contains("Buff\nfound job block 2 byte 1032 Buff\n"));
        assert!(text.contains("Gold\nfound house block 0 byte 8 Gold\n"));
        assert!(text.contains("blue\nrefused 8 neither block 0\n"));
        assert!(text.contains("refused 2 job block 0\n"));
        assert!(text.ends_with("refused 2 house block 0\n"));
    }

    #[test]
    fn every_colour_to_try_is_answered() {
        let text = colours();
        assert_eq!(text.lines().count(), 4 * COLOURS.len());
        assert!(!text.contains("refused"));
        assert!(text.contains("\npage XYZ 0.95050000000000001 1 1.089\n"));
        assert!(text.contains("\npage NoMark\nrecipe of 2 words\nrun NoMark\n"));
        assert!(text.contains("\npage EveryInk 0.25\nrecipe of 6 words\nrun EveryInk 0.25\n"));
        assert!(text.contains("\npage EveryInk 1 moved\nrecipe of 6 words\nrun EveryInk 1 moved\n"));
        assert!(text.contains("\npage NoMark moved\nrecipe of 9 words\nrun NoMark moved\n"));
    }
}
