//! Help, docs/DESK.md, the man page and the completion have the same commands and options, and what they show is replayed.
//!
//! The man page and the completion are written from the table of commands: `DESK_WRITE=1 cargo test --package desk --test
//! documents` writes them anew.

mod common;

use common::{answer_text, desk, root};
use desk::{Command, Opt, COMMANDS, EVERYWHERE};
use std::collections::{BTreeMap, BTreeSet};
use std::fs;

fn text_of(file: &str) -> String {
    fs::read_to_string(root().join(file)).unwrap_or_default()
}

/// A document is what is written of the table; with `DESK_WRITE` it is written where it is not.
fn held(file: &str, made: &str) {
    let stands = text_of(file) == made;
    if !stands && std::env::var_os("DESK_WRITE").is_some() {
        fs::write(root().join(file), made).expect("the document is written");
        return;
    }
    assert!(stands, "{file} is stale: DESK_WRITE=1 writes it anew");
}

/// A text of the man page: minus signs and backslashes as roff has them.
fn roff(text: &str) -> String {
    let text = text.replace('\\', "\\e").replace('-', "\\-");
    let lines = text.lines().map(|line| match line.as_bytes().first() {
        Some(b'.' | b'\'') => format!("\\&{line}"),
        _ => line.to_string(),
    });
    lines.collect::<Vec<_>>().join("\n")
}

fn roff_options(options: &[Opt]) -> String {
    let lines = options.iter().map(|option| {
        let names: Vec<String> = option.names.iter().map(|name| roff(name)).collect();
        let value = option
            .value
            .map_or(String::new(), |v| format!(" \\fI{v}\\fR"));
        let names = names.join("\\fR, \\fB");
        format!(".TP\n\\fB{names}\\fR{value}\n{}\n", roff(option.about))
    });
    lines.collect()
}

fn roff_command(command: &Command) -> String {
    let about = roff(&command.about.join("\n"));
    let mut text = format!(
        ".SS {}\n.B sktelbaan {}\n",
        command.name,
        roff(&command.usage())
    );
    text += &format!(".PP\n{about}\n{}", roff_options(command.options));
    text + &format!(".PP\n.nf\n.RS\n$ {}\n.RE\n.fi\n", roff(command.example))
}

/// The man page.
fn man_page() -> String {
    let version = env!("CARGO_PKG_VERSION");
    let mut page = format!(".\\\" Written by desk/tests/documents.rs from the table of commands.\n.TH SKTELBAAN 1 \"\" \"Sktelbaan {version}\"\n");
    page += ".SH NAME\nsktelbaan \\- colour\\-space records of PDF, at the desk: pages, colours, recipes, designers' texts\n";
    page += ".SH SYNOPSIS\n.B sktelbaan\n.I COMMAND\n[\\fIOPTION\\fR..] \\fIARGUMENT\\fR..\n";
    page += ".SH DESCRIPTION\n";
    page += &roff("Every judgement is the proved library's: whether a page, a record, a text, a count of components or a recipe is right, and every colour.
A file may be -, which is standard input or output.
A SPACE is a block's number, gray, rgb, cmyk, or /NAME of an ink, with #xx for a byte.
Numbers are decimal, with at most six digits after the point: 0.5, -30, 50%.
For - in place of components one colour a line is read from standard input, and one answered a line.
A recipe is binary, words of four bytes each, big-endian, or text, decimal words between white space, % beginning a comment.");
    page += "\n.SH OPTIONS\nEvery command has these.\n";
    page += &roff_options(EVERYWHERE);
    page += ".SH COMMANDS\n";
    page += &COMMANDS.iter().map(roff_command).collect::<String>();
    page += ".SH EXIT STATUS\n.TP\n.B 0\nDone.\n.TP\n.B 1\nRefused, by the library: \\fIFILE\\fR:\\fIPLACE\\fR: refused \\fINUMBER\\fR (\\fINAME\\fR): \\fIWORDS\\fR on standard error.\n";
    page += ".TP\n.B 2\nWrong use, or a file that cannot be read or written.\n.TP\n.B 3\nWith \\fB\\-\\-strict\\fR alone: a colour was pulled in.\n";
    page += ".SH SEE ALSO\ndocs/DESK.md, docs/FORMAT.md and docs/RECIPES.md of Sktelbaan.\n";
    page
}

/// The completion for bash.
fn completion() -> String {
    let names = |options: &[Opt]| -> Vec<&'static str> {
        let names = options.iter().flat_map(|option| option.names);
        names.copied().collect()
    };
    let commands: Vec<&str> = COMMANDS.iter().map(|command| command.name).collect();
    let all = COMMANDS.iter().flat_map(|command| command.options);
    let files = all
        .chain(EVERYWHERE)
        .filter(|o| matches!(o.value, Some("FILE" | "PAGE")));
    let files: BTreeSet<&str> = files.map(Opt::name).collect();
    let files: Vec<&str> = files.into_iter().collect();
    let mut text = String::from("# Completion of sktelbaan for bash. Written by desk/tests/documents.rs from the table of commands.\n_sktelbaan() {\n");
    text += "    local word=${COMP_WORDS[COMP_CWORD]} before=${COMP_WORDS[COMP_CWORD - 1]} options=\n    COMPREPLY=()\n";
    text += "    if [ \"$COMP_CWORD\" -eq 1 ]; then\n";
    text += &format!("        mapfile -t COMPREPLY < <(compgen -W '{} -h --help --version' -- \"$word\")\n        return\n    fi\n", commands.join(" "));
    text += &format!(
        "    case $before in\n    {}) return ;;\n    esac\n",
        files.join(" | ")
    );
    text += "    case ${COMP_WORDS[1]} in\n";
    for command in COMMANDS
        .iter()
        .filter(|command| !command.options.is_empty())
    {
        let options = names(command.options).join(" ");
        text += &format!("    {}) options='{options}' ;;\n", command.name);
    }
    text += "    esac\n    case $word in\n";
    let everywhere = names(EVERYWHERE).join(" ");
    text += &format!("    -*) mapfile -t COMPREPLY < <(compgen -W \"$options {everywhere}\" -- \"$word\") ;;\n    esac\n}}\n");
    text + "complete -o default -F _sktelbaan sktelbaan\n"
}

#[test]
fn the_man_page_and_the_completion_are_written_from_the_table() {
    held("desk/sktelbaan.1", &man_page());
    held("desk/sktelbaan.bash", &completion());
}

/// What bash completes after these words.
fn completed(words: &[&str]) -> BTreeSet<String> {
    let file = root().join("desk/sktelbaan.bash");
    let words: Vec<String> = words.iter().map(|word| format!("'{word}'")).collect();
    let script = format!(
        ". '{}'; COMP_WORDS=({}); COMP_CWORD={}; _sktelbaan; printf '%s\\n' \"${{COMPREPLY[@]}}\"",
        file.display(),
        words.join(" "),
        words.len() - 1
    );
    let ran = std::process::Command::new("bash")
        .args(["-c", &script])
        .output();
    let text = String::from_utf8(ran.expect("bash").stdout).unwrap();
    text.split_whitespace().map(str::to_string).collect()
}

/// The options that a command has, by every spelling.
fn options_of(command: &Command) -> BTreeSet<String> {
    let options = command.options.iter().chain(EVERYWHERE);
    let names = options.flat_map(|option| option.names);
    names.map(ToString::to_string).collect()
}

#[test]
fn bash_completes_commands_and_options() {
    let names: BTreeSet<String> = COMMANDS.iter().map(|c| c.name.to_string()).collect();
    let mut first = completed(&["sktelbaan", ""]);
    for option in ["-h", "--help", "--version"] {
        assert!(first.remove(option));
    }
    assert_eq!(first, names);
    assert_eq!(
        completed(&["sktelbaan", "sp"]),
        BTreeSet::from(["spell".to_string()])
    );
    for command in COMMANDS {
        let options = completed(&["sktelbaan", command.name, "-"]);
        assert_eq!(options, options_of(command), "{}", command.name);
    }
    assert!(completed(&["sktelbaan", "list", "-o", "-"]).is_empty());
}

/// The words of a text that are spelled as options.
fn options_in(text: &str) -> BTreeSet<String> {
    let words = text.split(|c: char| c.is_whitespace() || "`[]|(),.:;".contains(c));
    let is_option = |word: &&str| {
        let letters = word.trim_start_matches('-');
        let long = word.starts_with("--") && letters.len() > 1;
        let short = word.len() == 2 && word.starts_with('-');
        let all = letters.bytes().all(|b| b.is_ascii_lowercase());
        (long || short || word == &"--c") && all && !letters.is_empty()
    };
    words.filter(is_option).map(str::to_string).collect()
}

#[test]
fn help_has_just_the_options_of_each_command() {
    let program = String::from_utf8(desk(&["--help"], b"").done()).unwrap();
    for command in COMMANDS {
        let row = format!("  {:<8} {}\n", command.name, command.summary);
        assert!(program.contains(&row), "{row}");
        let text = String::from_utf8(desk(&[command.name, "--help"], b"").done()).unwrap();
        let (told, _) = text.split_once("\nexample:\n").unwrap();
        assert_eq!(options_in(told), options_of(command), "{}", command.name);
    }
}

#[test]
fn the_reference_has_just_the_commands_and_options() {
    let text = text_of("docs/DESK.md");
    assert!(text.lines().all(|line| line.chars().count() <= 120));
    let (before, commands) = text.split_once("\n## Commands\n").unwrap();
    let (commands, _) = commands.split_once("\n## ").unwrap();
    for name in EVERYWHERE.iter().flat_map(|option| option.names) {
        assert!(before.contains(&format!("`{name}")), "{name}");
    }
    let sections: Vec<&str> = commands.split("\n### ").skip(1).collect();
    let names: Vec<&str> = sections.iter().map(|s| s.lines().next().unwrap()).collect();
    let expected: Vec<&str> = COMMANDS.iter().map(|command| command.name).collect();
    assert_eq!(names, expected);
    for (command, section) in COMMANDS.iter().zip(sections) {
        let usage = format!("\n    sktelbaan {}\n", command.usage());
        assert!(section.contains(&usage), "{usage}");
        let told: Vec<&str> = section
            .lines()
            .filter(|l| !l.starts_with("    $"))
            .collect();
        let told = options_in(&told.join("\n"));
        let own = options_of(command);
        assert!(told.is_subset(&own), "{}: {told:?}", command.name);
        for option in command.options {
            assert!(
                told.contains(option.name()),
                "{}: {}",
                command.name,
                option.name()
            );
        }
    }
}

/// The sessions of a text: each command, with the lines that follow it.
fn sessions<'a>(lines: impl Iterator<Item = &'a str>) -> BTreeMap<&'a str, Vec<&'a str>> {
    let mut sessions: BTreeMap<&str, Vec<&str>> = BTreeMap::new();
    let mut command = None;
    for line in lines {
        if let Some(words) = line.strip_prefix("$ ") {
            command = Some(words);
            sessions.insert(words, Vec::new());
        } else if line.starts_with("# ") {
            command = None;
        } else if let Some(printed) = command.and_then(|words| sessions.get_mut(words)) {
            printed.push(line.trim_end());
        }
    }
    for printed in sessions.values_mut() {
        while printed.last() == Some(&"") {
            printed.pop();
        }
    }
    sessions
}

#[test]
fn what_the_documents_show_is_replayed() {
    let list = text_of("samples/desk.lst");
    let replayed = sessions(list.lines());
    let reference = text_of("docs/DESK.md");
    let blocks = reference
        .lines()
        .map(|line| line.strip_prefix("    ").unwrap_or("# "));
    let shown = sessions(blocks);
    assert!(shown.len() > 15, "{} sessions", shown.len());
    for (command, printed) in shown {
        assert_eq!(replayed.get(command), Some(&printed), "{command}");
    }
    for command in COMMANDS {
        let mut lines = command.example.lines();
        let words = lines.next().unwrap();
        let printed: Vec<&str> = lines.collect();
        let statuses = |line: &&&str| !line.starts_with('[') || line.starts_with("[/");
        let found: Vec<&str> = replayed[words].iter().filter(statuses).copied().collect();
        assert_eq!(found, printed, "{words}");
    }
}

/// A number as it is typed, in millionths.
fn typed(word: &str) -> i32 {
    let (number, unit) = match word.strip_suffix('%') {
        Some(number) => (number, 10_000.0),
        None => (word, 1_000_000.0),
    };
    (number.parse::<f64>().expect("a number") * unit).round() as i32
}

/// The page of samples/ and the number that two words ask for.
fn asked(page: &str, space: &str) -> (Vec<u8>, u32) {
    let page = fs::read(root().join("samples").join(page)).expect("a sample");
    let number = match space {
        "rgb" => 0xff03,
        _ => match space.strip_prefix('/') {
            None => space.parse().expect("a block's number"),
            Some(name) => {
                let name = name.replace("#20", " ");
                let found = reference::inks::find(&page, &page, name.as_bytes());
                found.expect("an ink").block
            }
        },
    };
    (page, number)
}

/// What the second implementation answers where a session asks for colours.
fn expected(command: &str) -> Option<String> {
    let (before, last) = command.rsplit_once(['|', '&']).unwrap_or(("", command));
    let words: Vec<&str> = last
        .split_whitespace()
        .filter(|w| !w.starts_with("--"))
        .collect();
    let answer = |components: &[&str]| {
        let components: Vec<i32> = components.iter().map(|word| typed(word)).collect();
        let reply = match words[1] {
            "colour" => {
                let house = last.contains("--house");
                let (page, number) = match house {
                    true => asked(words[2], words[4]),
                    false => asked(words[2], words[3]),
                };
                reference::colour::evaluate(&page, number, &components)
            }
            _ => reference::runner::run(&recipe_of(before), &components),
        };
        answer_text(&reply).unwrap_or_default()
    };
    let skipped = match (*words.get(1)?, last.contains("--house")) {
        ("colour", true) => 5,
        ("colour", false) => 4,
        ("run", _) => 3,
        _ => return None,
    };
    match words.get(skipped..)? {
        ["-"] => {
            let lines = before.split('\'').nth(1)?;
            let lines = lines.split("\\n").filter(|line| !line.is_empty());
            let colours = lines.map(|line| line.split(' ').collect::<Vec<_>>());
            let right = colours.filter(|c| c.len() == 1 && !c[0].contains(','));
            Some(right.map(|colour| answer(&colour)).collect())
        }
        components => Some(answer(components)),
    }
}

/// The words of the recipe that a session makes before it runs it.
fn recipe_of(before: &str) -> Vec<i32> {
    let words: Vec<&str> = before
        .split_whitespace()
        .filter(|w| !w.starts_with('-'))
        .collect();
    if words[0] == "echo" {
        let words = words[1..].iter().filter(|word| **word != "|");
        return words.map(|word| word.parse().expect("a word")).collect();
    }
    let (page, number) = asked(words[2], words[3]);
    reference::recipe::recipe_of(&page, number).expect("a recipe")
}

/// The floats of a line, as text: of an answer, of a plain one, or of an object.
fn floats_of(line: &str) -> Option<String> {
    let names = ["Gray ", "RGB ", "CMYK ", "XYZ ", "EveryInk "];
    if let Some((_, rest)) = line.split_once("\"floats\":[") {
        return Some(rest.split(']').next()?.replace(',', " "));
    }
    let own = names.iter().find_map(|name| line.strip_prefix(name));
    let plain = || line.split(' ').all(|word| word.parse::<f64>().is_ok());
    let own = own.or_else(|| plain().then_some(line))?;
    Some(own.trim_end_matches(" moved").to_string())
}

#[test]
fn the_floats_of_the_sessions_are_the_second_implementations() {
    let list = text_of("samples/desk.lst");
    let mut compared = 0;
    for (command, printed) in sessions(list.lines()) {
        let asks = command.contains("sktelbaan colour ") || command.contains("sktelbaan run ");
        let told: Vec<String> = printed.iter().filter_map(|line| floats_of(line)).collect();
        if !asks || told.is_empty() || command.contains("--help") {
            let answer = |line: &&str| line.starts_with("XYZ ") || line.starts_with("CMYK ");
            assert!(
                asks || !printed.iter().any(answer),
                "{command}: whose floats?"
            );
            continue;
        }
        let answers = expected(command).expect("a session that asks for colours");
        let answers: Vec<String> = answers.lines().filter_map(floats_of).collect();
        assert_eq!(told, answers, "{command}");
        compared += told.len();
    }
    assert!(compared >= 15, "{compared} answers were compared");
}
