//! The words of the command line, statuses and objects.

mod common;

use common::{desk, root};

fn sample(name: &str) -> String {
    let file = root().join("samples").join(name);
    file.to_string_lossy().into_owned()
}

#[test]
fn a_minus_before_a_digit_is_a_number() {
    let page = sample("lab.page");
    let plain = desk(&["colour", &page, "0", "50", "-20", "-.5"], b"").done();
    let ended = desk(&["colour", "--", &page, "0", "50", "-20", "-.5"], b"").done();
    assert_eq!(plain, ended);
    assert!(plain.starts_with(b"XYZ "));
    let ran = desk(&["colour", &page, "0", "50", "-x", "1"], b"");
    assert_eq!(ran.status, 2);
    assert_eq!(
        ran.errors,
        "no option -x here: --help says which there are\n"
    );
}

#[test]
fn strict_is_3_where_a_colour_was_pulled_in() {
    let page = sample("gray.page");
    for (component, status) in [("1", 0), ("1.5", 3), ("-0.000001", 3)] {
        assert_eq!(
            desk(&["colour", "--strict", &page, "0", component], b"").status,
            status
        );
        assert_eq!(desk(&["colour", &page, "0", component], b"").status, 0);
    }
    let bulk = |input: &[u8]| desk(&["colour", "--strict", &page, "0", "-"], input).status;
    assert_eq!(bulk(b"1\n2\n1\n"), 3);
    assert_eq!(bulk(b"2\n1 1\n"), 1);
    assert_eq!(bulk(b"2\n1 1\nx\n"), 2);
    assert_eq!(bulk(b""), 0);
}

#[test]
fn lines_and_answers_stay_together() {
    let page = sample("separation.page");
    let input = b"0.5\n\n% a comment\n1 1\n0,5\n1.5 % too much\r\n1";
    let ran = desk(&["colour", &page, "0", "-"], input);
    let lines: Vec<&str> = ran.text().lines().collect();
    assert_eq!(
        lines,
        [
            "CMYK 0 0.1 0.325 0.075",
            "",
            "",
            "refused 9",
            "no colour",
            "CMYK 0 0.2 0.65 0.15 moved",
            "CMYK 0 0.2 0.65 0.15"
        ]
    );
    assert_eq!(
        ran.errors,
        "standard input:4: refused 9 (components): 2 given, space 0 has 1\n\
         standard input:5:1: 0,5: a comma: numbers have a point, and white space between them\n"
    );
    assert_eq!(ran.status, 2);
    let ran = desk(&["colour", "--json", &page, "0", "-"], b"1 1\n0.5\nx\n");
    let lines: Vec<&str> = ran.text().lines().collect();
    assert_eq!(lines.len(), 3, "{lines:?}");
    let refused = "{\"file\":\"standard input\",\"refused\":9,\"name\":\"components\",\"line\":1,";
    assert!(lines[0].starts_with(refused), "{}", lines[0]);
    assert!(
        lines[2].contains("\"line\":3,\"column\":1,"),
        "{}",
        lines[2]
    );
    let plain = desk(
        &["colour", "--plain", &sample("marks.page"), "0", "-"],
        b"1\n",
    );
    assert_eq!(plain.text(), "-\n");
}

#[test]
fn a_long_line_ends_the_run() {
    let page = sample("gray.page");
    let long = [b"1 ".repeat(1 << 19), b"\n1\n".to_vec()].concat();
    let ran = desk(&["colour", &page, "0", "-"], &long);
    assert_eq!(ran.status, 2);
    assert!(ran.errors.contains("a line of more than"), "{}", ran.errors);
    // One that just fits is answered by its refusal.
    let fits = [b"1 ".repeat(1 << 17), b"\n1\n".to_vec()].concat();
    let ran = desk(&["colour", &page, "0", "-"], &fits);
    assert_eq!(ran.text(), "refused 9\nXYZ 0.9505 1 1.089\n");
}

#[test]
fn standard_input_is_read_once() {
    let ran = desk(&["run", "-", "-"], b"1 4");
    assert_eq!(ran.status, 2);
    assert!(ran.errors.contains("read once"), "{}", ran.errors);
}

#[test]
fn every_command_helps_and_refuses_too_many_words() {
    for command in desk::COMMANDS {
        for help in ["-h", "--help"] {
            let text = desk(&[command.name, help], b"").done();
            let start = format!("usage: sktelbaan {}\n", command.usage());
            assert!(text.starts_with(start.as_bytes()));
        }
        let version = desk(&[command.name, "--version"], b"").done();
        assert_eq!(version, desk(&["--version"], b"").done());
        let ran = desk(&[command.name, "--nothing"], b"");
        assert_eq!(ran.status, 2, "{}", command.name);
    }
    for words in [
        &["list"][..],
        &["list", "a", "b"],
        &["show", "a"],
        &["recipe", "a", "0", "1"],
        &["ink", "a"],
        &["new"],
        &["explain", "1", "2"],
        &["check"],
        &[],
    ] {
        let ran = desk(words, b"");
        assert_eq!(ran.status, 2, "{words:?}");
        assert!(ran.errors.contains("usage"), "{}", ran.errors);
    }
}

#[test]
fn spaces_go_by_number_by_device_and_by_ink() {
    let page = sample("separation.page");
    let asked = |space: &str| desk(&["recipe", "--plain", &page, space], b"");
    assert_eq!(asked("/Gold").done(), asked("0").done());
    assert_eq!(asked("/G#6fld").done(), asked("0").done());
    for (short, long, number) in [
        ("gray", "DeviceGray", "65281"),
        ("rgb", "DeviceRGB", "65283"),
        ("cmyk", "DeviceCMYK", "65284"),
    ] {
        let words = asked(short).done();
        assert_eq!(words, asked(long).done());
        assert_eq!(words, asked(number).done());
    }
    assert_eq!(asked("1").status, 1);
    assert_eq!(asked("/gold").status, 1);
    for space in ["", "x", "-1", "0.5", "99999999999", "/#", "Gold"] {
        assert_eq!(asked(space).status, 2, "{space}");
    }
    // The house page has what the job's has not.
    let (job, house) = (sample("job.page"), sample("house.page"));
    let gold = desk(
        &["recipe", "--plain", "--house", &house, &job, "/Gold"],
        b"",
    )
    .done();
    assert_eq!(gold, desk(&["recipe", "--plain", &house, "0"], b"").done());
    let buff = desk(
        &["recipe", "--plain", &job, "/Buff", "--house", &house],
        b"",
    )
    .done();
    assert_eq!(buff, desk(&["recipe", "--plain", &job, "2"], b"").done());
}

#[test]
fn records_are_read_as_they_are_written() {
    let text = b"% an ink\nkind Separation\nnumber 3\nname Slate#20Blue\nexponent 2 % squared\n\
        alternate 5\nC1 0 0.2 0.65 0.15\nC0 0 0 0 0\n";
    let block = desk(&["block", "-"], text).done();
    let back = desk(&["block", "-", "0"], &block).done();
    let lines = String::from_utf8(back).unwrap();
    let expected = "number 3\nkind Separation\nalternate 5\nexponent 2\nname Slate#20Blue\n\
        C0 0 0 0 0\nC1 0 0.2 0.65 0.15\n";
    assert_eq!(lines, expected);
    // A palette and a program take as many blocks as they need.
    let palette = format!("number 1\nkind Palette\nbytes {}\n", "0102".repeat(300));
    assert_eq!(desk(&["block", "-"], palette.as_bytes()).done().len(), 1024);
    let program = format!(
        "number 1\nkind Program\nprogram\n{{{}}}\n",
        " dup pop".repeat(80)
    );
    let blocks = desk(&["block", "-"], program.as_bytes()).done();
    assert_eq!(blocks.len(), 1024);
    assert_eq!((blocks[3], blocks[512 + 3]), (1, 2));
}

/// Texts of records, the status that each gives, and what is told.
const BAD_RECORDS: [(&str, u8, &str); 11] = [
    (
        "number 0\nkind Indexed\nbase 1\nhival 256\n",
        1,
        "refused 4",
    ),
    ("number 128\nkind Free\n", 1, "refused 3"),
    (
        "number 0\nkind Indexed\nbase 200\nhival 1\n",
        1,
        "refused 6",
    ),
    (
        "number 0\nkind Indexed\nbase x\nhival 1\n",
        2,
        ":3:6: neither a block's number",
    ),
    (
        "number 0\nkind Indexed\nbase 1\n",
        2,
        "a line with hival is missing",
    ),
    (
        "number 0\nkind Blue\n",
        2,
        ":2:6: a kind is one of Free, CalGray",
    ),
    (
        "number 0\nkind Free\nhival 1\n",
        2,
        ":3:1: no key of a record of kind Free",
    ),
    (
        "number 0\nnumber 1\nkind Free\n",
        2,
        ":2:1: number stands twice",
    ),
    (
        "number 0\nkind Palette\nbytes 0\n",
        2,
        ":3:7: not bytes in hexadecimal",
    ),
    (
        "number 0\nkind Lab\nwhite 1 1 1\nblack 0 0\nrange 0 0 0 0\n",
        2,
        "black has 2 values",
    ),
    ("", 2, "a line with kind is missing"),
];

#[test]
fn a_bad_record_is_told_with_its_place() {
    for (text, status, told) in BAD_RECORDS {
        let ran = desk(&["block", "-"], text.as_bytes());
        assert_eq!(ran.status, status, "{text}");
        assert!(ran.errors.contains(told), "{text}: {}", ran.errors);
    }
}
