//! The commands: what each is called, takes and does. Help, the documents and the completion are held to this table.

use crate::args::{self, Words};
use crate::files::Beside;
use crate::refusals::Stop;
use crate::streams::Desk;
use crate::{blocks, colours, explain, help, inks, list, recipes, show, spell, texts};
use std::ffi::OsString;

/// An option.
pub struct Opt {
    /// Its spellings, the longest last.
    pub names: &'static [&'static str],
    /// What its value is, for one that takes a value.
    pub value: Option<&'static str>,
    /// What it does, in a line.
    pub about: &'static str,
}

impl Opt {
    /// The spelling that it goes by.
    pub fn name(&self) -> &'static str {
        self.names.last().copied().unwrap_or_default()
    }
}

/// What runs a command: its words, and its usage for what is told.
type Runs = fn(&mut Desk<'_>, &Words, &str) -> Result<u8, Stop>;

/// A command.
pub struct Command {
    /// What it is called.
    pub name: &'static str,
    /// Its options and arguments, as its usage has them.
    pub takes: &'static str,
    /// What it does, in a line.
    pub summary: &'static str,
    /// What it does, in full: a line to a sentence or two.
    pub about: &'static [&'static str],
    /// Its own options.
    pub options: &'static [Opt],
    /// An example, with what it prints, as run in samples/.
    pub example: &'static str,
    runs: Runs,
}

const fn flag(names: &'static [&'static str], about: &'static str) -> Opt {
    Opt {
        names,
        value: None,
        about,
    }
}

const fn taking(names: &'static [&'static str], value: &'static str, about: &'static str) -> Opt {
    Opt {
        names,
        value: Some(value),
        about,
    }
}

/// The options that every command has.
pub const EVERYWHERE: &[Opt] = &[
    taking(
        &["-o"],
        "FILE",
        "write to FILE: beside it first, then renamed; a refusal leaves it as it was",
    ),
    flag(&["--json"], "print an object to a line, with fixed keys"),
    flag(&["-h", "--help"], "print this"),
    flag(
        &["--version"],
        "print the versions of the program and of the library",
    ),
];

const HOUSE: Opt = taking(&["--house"], "PAGE", "look for an ink on this page next");
const STRICT: Opt = flag(
    &["--strict"],
    "end with status 3 where a colour was pulled in",
);
const ANSWERS: Opt = flag(&["--plain"], "print the floats alone");
const FORMS: &[Opt] = &[
    flag(
        &["--binary"],
        "write the binary form: words of four bytes, big-endian",
    ),
    taking(&["--c"], "NAME", "write an array of C of this name"),
    flag(&["--plain"], "print the words alone, on one line"),
];

/// The commands, in the order of help.
pub const COMMANDS: &[Command] = &[
    Command {
        name: "check",
        takes: "[--plain] PAGE..",
        summary: "whether pages are accepted",
        about: &[
            "Says of each page whether it is accepted, and why not.",
            "A folder stands for the files in it that end in .page. All are looked at; the status is the worst.",
        ],
        options: &[flag(&["--plain"], "print FILE: blocks N, or FILE: refused N block N")],
        example: "sktelbaan check nested.page damaged.page
nested.page: accepted, 4 blocks, 3 spaces
damaged.page: block 0: refused 2 (check): a block's check is not that of its bytes
note: the check stored is 1066 and 3031, that of the bytes 1066 and 3030",
        runs: list::check,
    },
    Command {
        name: "list",
        takes: "[--plain] PAGE",
        summary: "the spaces of a page",
        about: &[
            "The spaces of a page: block, family, components, what each is over, the words of its recipe, an ink's name or a palette's rows.",
        ],
        options: &[flag(&["--plain"], "print the listing of FORMAT.md, byte by byte")],
        example: "sktelbaan list nested.page
block  family      in  over        words  name
    0  Indexed      1  2              44  16 rows
    2  Separation   1  3              25  Gold
    3  Lab          3  -              16",
        runs: list::list,
    },
    Command {
        name: "show",
        takes: "[--all] [--house PAGE] PAGE SPACE",
        summary: "a space and those inside it, in words",
        about: &["A space and those inside it, in words: four rows of a palette, a program as its text."],
        options: &[flag(&["--all"], "show every row of a palette"), HOUSE],
        example: "sktelbaan show separation.page /Gold
Separation, block 0: ink \"Gold\"
  tint 0 is 0 0 0 0
  tint 1 is 0 0.2 0.65 0.15
  exponent 1
over
  DeviceCMYK
recipe of 29 words",
        runs: show::show,
    },
    Command {
        name: "colour",
        takes: "[--strict] [--plain] [--house PAGE] PAGE SPACE COMPONENT..",
        summary: "what a colour of a space answers",
        about: &[
            "The answer of a colour, in the shortest decimals that read back as the same floats, and `moved` where it was pulled in.",
            "For - in place of the components one colour a line is read from standard input, and one answered a line.",
        ],
        options: &[STRICT, ANSWERS, HOUSE],
        example: "sktelbaan colour nested.page 0 2.5
XYZ 0.07741697369779252 0.06777138752516292 0.23633480890570688",
        runs: colours::colour,
    },
    Command {
        name: "recipe",
        takes: "[--binary | --c NAME | --plain] [--house PAGE] PAGE SPACE",
        summary: "the recipe of a space",
        about: &["The recipe of a space, as text that runs as it stands, with what each step does."],
        options: &[
            flag(&["--binary"], "write the binary form: words of four bytes, big-endian"),
            taking(&["--c"], "NAME", "write an array of C of this name"),
            flag(&["--plain"], "print the words alone, on one line"),
            HOUSE,
        ],
        example: "sktelbaan recipe separation.page /Gold
1                         % one component
3 1 4                     % tint, exponent 1, makes 4
  0 0 0 0                 % tint 0 is 0 0 0 0
  0 200000 650000 150000  % tint 1 is 0 0.2 0.65 0.15
1 0 0 1000000             % value 0 within 0 to 1
1 1 0 1000000             % value 1 within 0 to 1
1 2 0 1000000             % value 2 within 0 to 1
1 3 0 1000000             % value 3 within 0 to 1
6                         % CMYK",
        runs: recipes::recipe,
    },
    Command {
        name: "steps",
        takes: "[--binary | --c NAME | --plain] RECIPE",
        summary: "a recipe, step by step",
        about: &["What each step of a recipe does, a program item by item with its places. The recipe may be text or binary, and is written in either form."],
        options: FORMS,
        example: "echo 1 1 0 0 1000000 4 | sktelbaan steps -
1              % one component
1 0 0 1000000  % value 0 within 0 to 1
4              % Gray",
        runs: recipes::steps,
    },
    Command {
        name: "run",
        takes: "[--strict] [--plain] RECIPE COMPONENT..",
        summary: "what a recipe answers, without its page",
        about: &[
            "The answer of a recipe, text or binary, to a colour.",
            "For - in place of the components one colour a line is read from standard input, and one answered a line.",
        ],
        options: &[STRICT, ANSWERS],
        example: "sktelbaan recipe separation.page /Gold | sktelbaan run - 50%
CMYK 0 0.1 0.325 0.075",
        runs: colours::run,
    },
    Command {
        name: "read",
        takes: "TEXT",
        summary: "a designer's text, as a page",
        about: &["Reads a designer's text into a page. A refusal is told with its line, and names what is not carried."],
        options: &[],
        example: "sktelbaan read deck.txt -o deck.page
deck.page: 11 blocks",
        runs: texts::read,
    },
    Command {
        name: "spell",
        takes: "[--house PAGE] PAGE [SPACE]",
        summary: "a page or a space, as a designer's text",
        about: &[
            "The way back: what read makes of the text has the same spaces, in the text's order of blocks.",
            "A space that several are over stands in each of them. A program cannot stand in such a text, and is refused.",
        ],
        options: &[HOUSE],
        example: "sktelbaan spell separation.page
[/Separation /Gold /DeviceCMYK
  << /FunctionType 2 /Domain [0 1] /N 1 /C0 [0 0 0 0] /C1 [0 0.2 0.65 0.15] >>]",
        runs: spell::spell,
    },
    Command {
        name: "ink",
        takes: "NAME JOB [HOUSE]",
        summary: "where an ink is, on the job's page or the house page",
        about: &["The page, the block and the byte of an ink's name: the lowest block of the job's page that has it, else the lowest of the house page."],
        options: &[],
        example: "sktelbaan ink Gold job.page house.page
house.page block 0 byte 8",
        runs: inks::ink,
    },
    Command {
        name: "block",
        takes: "PAGE NUMBER | TEXT",
        summary: "one block as text, and such a text as a block",
        about: &[
            "With two words the record of a block, by itself, so also of a page that is refused elsewhere.",
            "With one the 512 bytes of such a text; of a palette or a program as many blocks as it takes.",
        ],
        options: &[],
        example: "sktelbaan block separation.page 0
number 0
kind Separation
alternate DeviceCMYK
exponent 1
name Gold
C0 0 0 0 0
C1 0 0.2 0.65 0.15",
        runs: blocks::block,
    },
    Command {
        name: "new",
        takes: "BLOCKS",
        summary: "a page of free blocks",
        about: &["A page of so many free blocks, each written by the library."],
        options: &[],
        example: "sktelbaan new 4 -o empty.page
empty.page: 4 blocks",
        runs: blocks::new,
    },
    Command {
        name: "explain",
        takes: "[NUMBER]",
        summary: "a refusal by its number, and what usually helps",
        about: &["When a refusal is given, and what usually helps; without a number all of them, a line each."],
        options: &[],
        example: "sktelbaan explain 9
9 (components): the wrong number of components
`sktelbaan list` has how many components a space takes, in the column `in`; the first word of a
recipe is how many it takes.",
        runs: explain::explain,
    },
];

/// Runs the command that the words name.
pub(crate) fn dispatch(words: &[OsString], desk: &mut Desk<'_>) -> Result<u8, Stop> {
    let Some((first, rest)) = words.split_first() else {
        let usage = "the usage is sktelbaan COMMAND ..; sktelbaan --help has the commands";
        return Err(Stop::wrong(usage.to_string()));
    };
    let name = first.to_string_lossy();
    match &*name {
        "-h" | "--help" => desk.say(&help::program())?,
        "--version" => desk.say(&help::version())?,
        _ => {
            let Some(command) = COMMANDS.iter().find(|command| command.name == name) else {
                return Err(Stop::wrong(help::unknown(&name)));
            };
            return command.run(rest, desk);
        }
    }
    Ok(0)
}

impl Command {
    /// Its usage, without the program's name.
    pub fn usage(&self) -> String {
        format!("{} {}", self.name, self.takes)
    }

    fn run(&self, words: &[OsString], desk: &mut Desk<'_>) -> Result<u8, Stop> {
        let known: Vec<&Opt> = self.options.iter().chain(EVERYWHERE).collect();
        let words = args::parse(words, &known)?;
        if words.has("--help") {
            desk.say(&help::command(self))?;
            return Ok(0);
        }
        if words.has("--version") {
            desk.say(&help::version())?;
            return Ok(0);
        }
        desk.json = words.has("--json");
        if let Some(file) = words.value("-o").filter(|file| *file != "-") {
            desk.write_to(Beside::open(file)?);
        }
        (self.runs)(desk, &words, &self.usage())
    }
}
