//! Cases of calculator programs, worked out by hand.

use super::reply_of;

#[test]
fn program_replies_worked_by_hand() {
    for (op, label, expected) in [
        (30, "program { }", "accepted"),
        (30, "program { } { }", "refused 16 block 0"),
        (30, "program { div }", "refused 16 block 0"),
        (30, "program { pop 1.0000000 }", "refused 16 block 0"),
        (30, "program { 2148 copy }", "refused 16 block 0"),
        (30, "program { 2147 copy }", "refused 17 block 0"),
        (30, "program { pop pop div }", "refused 16 block 0"),
        (30, "program { true { } { } if }", "refused 16 block 0"),
        (30, "program { false { 0 } if }", "refused 17 block 0"),
        (30, "program { dup 2.0 copy pop pop pop }", "accepted"),
        (30, "program { 1 -1 roll }", "accepted"),
        (30, "program { 1 0.5 roll }", "refused 17 block 0"),
        (30, "byte 128 between two tokens", "refused 16 block 0"),
        (30, "byte 255 in a comment", "accepted"),
        (30, "400 tokens", "accepted"),
        (30, "401 tokens", "refused 16 block 0"),
        (34, "400 tokens, listed", "blocks 5; 0 Separation 1 407"),
        (31, "nesting 8", "Gray 3fe8000000000000"),
        (31, "nesting 9", "refused 16 block 0"),
        (30, "a stack of 100 by copy", "accepted"),
        (30, "a stack of 101 by dup", "refused 17 block 0"),
        (31, "-0.000001 0.5 mul is 0", "Gray 3ff0000000000000"),
        (
            31,
            "-2147.483648 neg is 2147.483647",
            "Gray 3ff0000000000000",
        ),
        (
            31,
            "0.1 0.2 0.3 0.4 4 1 roll",
            "CMYK 3fd999999999999a 3fb999999999999a 3fc999999999999a 3fd3333333333333",
        ),
        (31, "ifelse at 0.5, tint 0.499999", "Gray 0000000000000000"),
        (31, "ifelse at 0.5, tint 0.5", "Gray 3fe0000000000000"),
        (
            32,
            "recipe of a program of an ifelse, just enough",
            "words 22 kept 1 12 1 13 25 1 500000 14 5 5 23 1 0 6 2 25 23 1 0 0 1000000 4",
        ),
        (
            32,
            "recipe of a program of an empty if, a word short",
            "refused 10 block 0 kept",
        ),
        (
            31,
            "Separation None over the program { pop 0.3 }, tint 2",
            "NoMark",
        ),
        (
            31,
            "Separation All over the program { pop 0.3 }, tint 2",
            "EveryInk 3ff0000000000000 moved",
        ),
        (
            30,
            "Separation None over the program { dup }",
            "refused 17 block 0",
        ),
        (
            31,
            "a program that saturates, limiting tint 1",
            "Gray 0000000000000000",
        ),
        (
            31,
            "a program that hides its tint, limiting tint 1.000001",
            "Gray 3fe0000000000000 moved",
        ),
        (30, "a fifth program block of zeros", "refused 7 block 5"),
        (30, "a run of no block", "refused 7 block 0"),
        (
            30,
            "a run of a full block and one of zeros",
            "refused 7 block 0",
        ),
        (30, "of a program, 6 before 16", "refused 6 block 0"),
        (
            30,
            "of a program, 7 of a run ill filled and no 16",
            "refused 7 block 0",
        ),
        (30, "of a program, 16 before 7 of C1", "refused 16 block 0"),
        (30, "of a program, 17 before 7 of C1", "refused 17 block 0"),
        (30, "of a program, 7 of C1 alone", "refused 7 block 0"),
        (
            33,
            "flat -1 500000 mul",
            "CMYK 0000000000000000 0000000000000000 0000000000000000 0000000000000000",
        ),
        (
            33,
            "a program in a run of 2876 words",
            "Gray bfe0000000000000",
        ),
        (
            33,
            "a program in a run of 2877 words",
            "Gray 3fe0000000000000",
        ),
        (33, "a program in a run of 2878 words", "refused 11 block 0"),
    ] {
        assert_eq!(reply_of(op, label), expected, "{label}");
    }
}

/// Every case that is named for its refusal has it, and the words of one case are as many as its room.
#[test]
fn program_cases_say_what_they_show() {
    for case in super::all() {
        let reply = case.result().unwrap();
        if case.label.starts_with("flat 11") || case.label.starts_with("ill-formed, step 1") {
            assert_eq!(reply, "refused 11 block 0", "{}", case.label);
        } else if case.op == 33 && case.label.starts_with("flat") {
            assert!(reply.starts_with("CMYK"), "{}", case.label);
        }
        if case.label.starts_with("recipe of a program") {
            let short = case.label.ends_with("a word short");
            assert_eq!(reply.starts_with("refused 10"), short, "{}", case.label);
        }
        if case.op == 31 && case.label.contains(" is ") && case.label.contains("2147.48") {
            assert_eq!(reply, "Gray 3ff0000000000000", "{}", case.label);
        }
    }
}
