//! What is printed by `--help` and `--version`.

use crate::commands::{Command, Opt, COMMANDS, EVERYWHERE};

/// How many columns a line of help has.
const WIDTH: usize = 100;

/// The help of the whole program.
pub(crate) fn program() -> String {
    let mut text = String::from(
        "sktelbaan: colour-space records of PDF, at the desk: pages, colours, recipes, designers' texts.\n\n",
    );
    text += "usage: sktelbaan COMMAND [OPTION..] ARGUMENT..\n\ncommands:\n";
    for command in COMMANDS {
        text += &format!("  {:<8} {}\n", command.name, command.summary);
    }
    text += "\noptions of every command:\n";
    text += &options(EVERYWHERE);
    text += "\nA file may be -, which is standard input or output. A SPACE is a block's number, gray, rgb, cmyk, or\n";
    text += "/NAME of an ink. Numbers are decimal, with at most six digits after the point: 0.5, -30, 50%.\n";
    text += "Exit status: 0 done; 1 refused; 2 wrong use, or a file that cannot be read or written; 3, with\n";
    text += "--strict alone, a colour was pulled in. `sktelbaan COMMAND --help` has more, and an example.\n";
    text
}

/// The help of one command.
pub(crate) fn command(command: &Command) -> String {
    let mut text = format!("usage: sktelbaan {}\n\n", command.usage());
    for sentence in command.about {
        text += &wrapped(sentence, "");
    }
    text += "\noptions:\n";
    text += &options(command.options);
    text += &options(EVERYWHERE);
    text += "\nexample:\n";
    for (k, line) in command.example.lines().enumerate() {
        text += &format!("  {}{line}\n", if k == 0 { "$ " } else { "" });
    }
    text
}

/// A line or two for each option.
fn options(options: &[Opt]) -> String {
    let lines = options.iter().map(|option| {
        let names = option.names.join(", ");
        let value = option
            .value
            .map_or(String::new(), |value| format!(" {value}"));
        let head = format!("  {:<14} ", names + &value);
        let margin = " ".repeat(head.len());
        let about = wrapped(option.about, &margin);
        format!("{head}{}", about.trim_start())
    });
    lines.collect()
}

/// A sentence in lines of the width of help, each after a margin.
pub(crate) fn wrapped(sentence: &str, margin: &str) -> String {
    let mut text = String::new();
    let mut line = margin.to_string();
    for word in sentence.split(' ') {
        if line.len() + 1 + word.len() > WIDTH && line.len() > margin.len() {
            text += line.trim_end();
            text.push('\n');
            line = margin.to_string();
        }
        line += word;
        line.push(' ');
    }
    text + line.trim_end() + "\n"
}

/// The versions of the program and of the library that it is linked with.
pub(crate) fn version() -> String {
    let header = include_str!("../../include/sktelbaan_runner.h");
    let marked = header.split("#define SKTELBAAN_VERSION \"").nth(1);
    let library = marked.and_then(|rest| rest.split('"').next());
    let (own, library) = (
        env!("CARGO_PKG_VERSION"),
        library.unwrap_or("of no version"),
    );
    format!("sktelbaan {own}, library {library}\n")
}

/// That there is no such command, and which was perhaps meant.
pub(crate) fn unknown(name: &str) -> String {
    let near = COMMANDS
        .iter()
        .map(|command| (apart(command.name, name), command.name));
    let nearest = near.min().filter(|(count, _)| *count <= 2);
    let meant = nearest.map_or(String::new(), |(_, near)| format!(" (perhaps {near})"));
    format!("{name}: no such command{meant}; sktelbaan --help has the commands")
}

/// How many letters have to be put in, taken out or changed to make one word the other.
fn apart(a: &str, b: &str) -> usize {
    let b: Vec<char> = b.chars().take(20).collect();
    let mut row: Vec<usize> = (0..=b.len()).collect();
    for (i, x) in a.chars().enumerate() {
        let mut corner = i;
        row[0] = i + 1;
        for (j, y) in b.iter().enumerate() {
            let changed = corner + usize::from(x != *y);
            corner = row[j + 1];
            row[j + 1] = changed.min(row[j] + 1).min(corner + 1);
        }
    }
    row[b.len()]
}

#[cfg(test)]
mod tests {
    use super::*;

    #[test]
    fn words_are_compared_by_letters() {
        assert_eq!(apart("check", "chek"), 1);
        assert_eq!(apart("list", "list"), 0);
        assert_eq!(apart("run", "read"), 3);
        assert_eq!(apart("run", ""), 3);
        assert!(unknown("color").contains("perhaps colour"));
        assert!(!unknown("frobnicate").contains("perhaps"));
    }

    #[test]
    fn help_is_no_wider_than_a_terminal() {
        let examples = COMMANDS.iter().map(|command| command.example);
        let shown: Vec<&str> = examples.flat_map(str::lines).collect();
        for text in COMMANDS.iter().map(command).chain([program()]) {
            let own = |line: &&str| !shown.iter().any(|example| line.ends_with(example));
            for line in text.lines().filter(own) {
                assert!(line.len() <= WIDTH, "{line}");
            }
        }
    }
}
