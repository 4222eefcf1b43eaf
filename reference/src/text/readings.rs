//! Change request 2026-03, reading by reading: a text, the room lent, and the reply as it was worked out by hand from
//! the request and clause 7.3. Where a text is refused, what stands before the place and what stands from there on are
//! written apart, so that the place is the length of the first.

use crate::block::{Body, Record, BLOCK, DEVICE_CMYK, DEVICE_GRAY, DEVICE_RGB, MOST_BLOCKS};
use crate::numbers::ONE;
use crate::records::{
    cal_gray, cal_rgb, indexed_run, lab, named, page, record, separation, NINE, USUAL, WHITE,
};

/// Room for the most blocks.
const ROOM: usize = MOST_BLOCKS * BLOCK;

/// A line of the table.
pub struct Line {
    /// The reading, in few words that no other line has.
    pub name: String,
    /// The text.
    pub text: Vec<u8>,
    /// The bytes of room.
    pub room: usize,
    /// The page, or the refusal and its byte.
    pub reply: Result<Vec<u8>, (u32, u64)>,
    /// Whether the refusal is met within the text, so that nothing that follows changes it.
    pub met: bool,
}

impl Line {
    /// The same with so many bytes of room.
    fn within(mut self, room: usize) -> Line {
        self.room = room;
        self
    }
}

fn refused(name: &str, number: u32, before: &[u8], from: &[u8], met: bool) -> Line {
    Line {
        name: name.to_string(),
        text: [before, from].concat(),
        room: ROOM,
        reply: Err((number, before.len() as u64)),
        met,
    }
}

/// A refusal that is met within the text.
fn met(name: &str, number: u32, before: impl AsRef<[u8]>, from: impl AsRef<[u8]>) -> Line {
    refused(name, number, before.as_ref(), from.as_ref(), true)
}

/// A refusal that the end of the text brings: of its last word, of all of it, or judging's own.
fn late(name: &str, number: u32, before: impl AsRef<[u8]>, from: impl AsRef<[u8]>) -> Line {
    refused(name, number, before.as_ref(), from.as_ref(), false)
}

/// An accepted text.
fn reads(name: &str, text: impl AsRef<[u8]>, records: &[Record]) -> Line {
    Line {
        name: name.to_string(),
        text: text.as_ref().to_vec(),
        room: ROOM,
        reply: Ok(page(records)),
        met: false,
    }
}

const GRAY: &str = "[/CalGray<</WhitePoint[0.9505 1 1.089]>>]";
const WHITE_KEY: &str = "/WhitePoint[0.9505 1 1.089]";
/// All that a function over one component needs.
const FUNCTION: &str = "<</FunctionType 2/Domain[0 1]/N 1>>";
const INDEXED: &str = "[/Indexed/DeviceGray 0(a)]";

/// The record of [`GRAY`].
fn gray(number: u16) -> Record {
    cal_gray(number, ONE)
}

/// A tint over DeviceGray, from 0 to 1, under this name.
fn tint(name: &[u8]) -> Record {
    let plain = separation(0, DEVICE_GRAY, 1, [0; 4], [ONE, 0, 0, 0]);
    named(plain, name)
}

/// An Indexed space over DeviceGray with a string for its palette.
fn string(name: &str, written: impl AsRef<[u8]>, bytes: &[u8]) -> Line {
    let hival = bytes.len() - 1;
    let text = [
        format!("[/Indexed/DeviceGray {hival}").as_bytes(),
        written.as_ref(),
        b"]",
    ]
    .concat();
    reads(
        name,
        text,
        &indexed_run(0, DEVICE_GRAY, hival as u16, bytes),
    )
}

/// What stands before and after the first number of a CalRGB's matrix, of which clause and house ask nothing.
const BEFORE_NUMBER: &str = "[/CalRGB<</WhitePoint[0.9505 1 1.089]/Matrix[";
const AFTER_NUMBER: &str = " 0 0 0 1 0 0 0 1]>>]";

fn number(written: &str, value: i32) -> Line {
    let body = Body::CalRgb {
        white: WHITE,
        black: [0; 3],
        gammas: [ONE; 3],
        matrix: [value, 0, 0, 0, ONE, 0, 0, 0, ONE],
    };
    let text = format!("{BEFORE_NUMBER}{written}{AFTER_NUMBER}");
    reads(
        &format!("the number {written:.40}"),
        text,
        &[record(0, body)],
    )
}

fn no_number(refusal: u32, written: &str) -> Line {
    let from = format!("{written}{AFTER_NUMBER}");
    let name = format!("{written:.20} is {refusal}");
    met(&name, refusal, BEFORE_NUMBER, from)
}

/// A function over DeviceRGB, up to an entry.
const FUNCTION_OVER_RGB: &str = "[/Separation/Gold/DeviceRGB<<";

fn in_function(name: &str, refusal: u32, before: &str, from: &str) -> Line {
    met(name, refusal, format!("{FUNCTION_OVER_RGB}{before}"), from)
}

fn white_space_and_delimiters() -> Vec<Line> {
    let mut lines = vec![
        reads(
            "all six white spaces",
            b"\0[\t/CalGray\n<<\x0c/WhitePoint\r[ 0.9505\x001\t1.089\n]\x0c>>\r]\0",
            &[gray(0)],
        ),
        reads(
            "white space within an array twice",
            "[ /CalGray  <<  /WhitePoint  [  0.9505  1  1.089  ]  >>  ]  ",
            &[gray(0)],
        ),
        reads("no white space where a delimiter stands", GRAY, &[gray(0)]),
        reads(
            "a number ends at ( and at <",
            "[/Indexed/DeviceGray 0(a)][/Indexed/DeviceGray 0<62>]",
            &[
                indexed_run(0, DEVICE_GRAY, 0, b"a"),
                indexed_run(2, DEVICE_GRAY, 0, b"b"),
            ]
            .concat(),
        ),
        met(
            "VT ends no name",
            12,
            "[",
            format!("/CalGray\x0b{}", &GRAY[9..]),
        ),
        met("VT is a keyword", 12, " ", "\x0b [/CalGray"),
        met(
            "VT ends no number",
            12,
            "[/Indexed/DeviceGray ",
            "0\x0b(a)]",
        ),
        met("7F is regular", 12, "[/Indexed/DeviceGray ", "0\x7f(a)]"),
        met("80 is regular", 12, "[/Indexed/DeviceGray ", b"0\x80(a)]"),
        met("FF is regular", 12, "[/Indexed/DeviceGray ", b"0\xff(a)]"),
        reads(
            "VT, 7F, 80 and FF in a name",
            [
                b"[/Separation/\x0b\x7f\x80\xff/DeviceGray",
                FUNCTION.as_bytes(),
                b"]",
            ]
            .concat(),
            &[tint(b"\x0b\x7f\x80\xff")],
        ),
        met("a number ends at )", 12, "[/Indexed/DeviceGray 0", ")(a)]"),
    ];
    for mark in ["{", "}", ")"] {
        lines.push(met(
            &format!("a delimiter that stands nowhere, {mark}"),
            12,
            "[/CalGray",
            format!("{mark}<<"),
        ));
    }
    lines
}

fn comments() -> Vec<Line> {
    let rest = &GRAY[9..];
    let mut lines = vec![
        reads("a comment to LF", format!("% [(<<\n{GRAY}"), &[gray(0)]),
        reads("a comment to CR", format!("% [(<<\r{GRAY}"), &[gray(0)]),
        reads(
            "a comment to CR LF",
            format!("% [(<<\r\n{GRAY}"),
            &[gray(0)],
        ),
        reads(
            "FF and NUL end no comment",
            format!("%\x0c[\0]\x0b)\n{GRAY}"),
            &[gray(0)],
        ),
        reads(
            "a comment ends a name",
            format!("[/CalGray%x\n{rest}"),
            &[gray(0)],
        ),
        reads(
            "a comment after the last array",
            format!("{GRAY}% to the end"),
            &[gray(0)],
        ),
        reads("% % is one comment", format!("%%\n%\n{GRAY}%"), &[gray(0)]),
        string("no comment in a string", "(%a\n)", b"%a\n"),
        met(
            "no comment in hexadecimal",
            12,
            "[/Indexed/DeviceGray 0",
            "<6%\n1>]",
        ),
        late("a text of one comment", 12, "% [/CalGray", ""),
    ];
    lines.push(reads(
        "a comment ends a number",
        "[/Indexed/DeviceGray 0%1\n(a)]",
        &indexed_run(0, DEVICE_GRAY, 0, b"a"),
    ));
    lines
}

fn five_arrays() -> Vec<Line> {
    let gold = [0, 200_000, 650_000, 150_000];
    let black = [10_000, 20_000, 30_000];
    let full_gray = Body::CalGray {
        white: WHITE,
        black,
        gamma: 2_200_000,
    };
    let full_rgb = Body::CalRgb {
        white: WHITE,
        black,
        gammas: [ONE, 1_800_000, 2 * ONE],
        matrix: NINE,
    };
    let full_lab = Body::Lab {
        white: WHITE,
        black,
        range: [-50 * ONE, 60 * ONE, -70 * ONE, 80 * ONE],
    };
    let points = format!("{WHITE_KEY}/BlackPoint[.01 .02 .03]");
    let nine = "0.412456 0.212673 0.019334 0.357576 0.715152 0.119192 0.180438 0.072175 0.950304";
    let over_lab = separation(
        1,
        0,
        1,
        [100 * ONE, 0, 0, 0],
        [20 * ONE, 15 * ONE, -45 * ONE, 0],
    );
    let deep = "[/Indexed[/Separation/Gold[/Lab<</WhitePoint[0.9505 1 1.089]>>]<</FunctionType 2/Domain[0 1]/N 1\
                /C0[100 0 0]/C1[20 15 -45]>>]1<00FF>]";
    let mut nested = vec![lab(0, USUAL), over_lab];
    nested.extend(indexed_run(2, 1, 1, &[0, 255]));
    nested.push(gray(4));
    let mut two = indexed_run(0, DEVICE_GRAY, 0, b"a");
    two.push(gray(2));
    vec![
        reads("CalGray", format!("[/CalGray<<{points}/Gamma 2.2>>]"), &[record(0, full_gray)]),
        reads("CalRGB", format!("[/CalRGB<<{points}/Gamma[1 1.8 2]/Matrix[{nine}]>>]"), &[record(0, full_rgb)]),
        reads("Lab", format!("[/Lab<<{points}/Range[-50 60 -70 80]>>]"), &[record(0, full_lab)]),
        reads("Indexed", "[/Indexed/DeviceRGB 1(abcdef)]", &indexed_run(0, DEVICE_RGB, 1, b"abcdef")),
        reads(
            "Separation",
            "[/Separation/Gold/DeviceCMYK<</FunctionType 2/Domain[0 1]/N 3/C0[0 0 0 0]/C1[0 .2 .65 .15]>>]",
            &[separation(0, DEVICE_CMYK, 3, [0; 4], gold)],
        ),
        reads("an inner array as base", format!("[/Indexed{GRAY}0(a)]"), &{
            let mut records = vec![gray(0)];
            records.extend(indexed_run(1, 0, 0, b"a"));
            records
        }),
        reads("blocks in order of closing brackets", format!("{deep}{GRAY}"), &nested),
        reads("a palette run straight after its own", format!("{INDEXED}{GRAY}"), &two),
        reads("several arrays", format!("{GRAY} {GRAY}\n{GRAY}"), &[gray(0), gray(1), gray(2)]),
        reads("None is a name", format!("[/Separation/None/DeviceGray{FUNCTION}]"), &[tint(b"None")]),
        met("an unknown family", 12, "[", "/ICCBased 7 0 R]"),
        met("DeviceGray is no family of an array", 12, "[", "/DeviceGray]"),
        met("a family in small letters", 12, "[", "/calgray<<"),
        met("a family with a byte more", 12, "[", "/CalGrays<<"),
        met("an abbreviated device name", 12, "[/Indexed", "/G 0(a)]"),
        met("Pattern is no base", 12, "[/Indexed", "/Pattern 0(a)]"),
        met("no family", 12, "[", "]"),
        met("a dictionary in place of a family", 12, "[", "<</WhitePoint"),
        met("an array in place of a family", 12, "[", "[/CalGray"),
        met("a string in place of an ink's name", 12, "[/Separation", "(Gold)/DeviceGray"),
        met("an array in place of a function", 12, "[/Separation/Gold/DeviceGray", "[1]"),
        met("a reference in place of a function", 12, "[/Separation/Gold/DeviceGray ", "7 0 R]"),
        met("something after the dictionary", 12, &GRAY[..40], "/X]"),
        met("something after the palette", 12, "[/Indexed/DeviceGray 0(a)", "(b)]"),
        met("a name in place of hival", 12, "[/Indexed/DeviceGray", "/A(a)]"),
        met("an array in place of a palette", 12, "[/Indexed/DeviceGray 0", "[0]]"),
    ]
}

fn outermost() -> Vec<Line> {
    let mut lines = Vec::new();
    for token in [
        "/DeviceGray ",
        "7 ",
        "(x)",
        "<00>",
        "]",
        "<<",
        ">>",
        "null ",
        "{",
        "}",
        ")",
        "/ ",
        "99999 ",
    ] {
        let name = format!("outermost stands [ alone and not {token}");
        lines.push(met(&name, 12, "", token));
        lines.push(met(&format!("{name}, after a space"), 12, GRAY, token));
    }
    lines.push(late("no space", 12, "", ""));
    lines.push(late("no space but white space", 12, " \0\n", ""));
    lines.push(late(
        "a bare device name, at the text's end",
        12,
        "",
        "/DeviceRGB",
    ));
    lines
}

fn keys() -> Vec<Line> {
    let long = "x".repeat(2000);
    let gray_keys = "[/CalGray<<";
    let mut lines = vec![
        reads(
            "keys in any order",
            format!("[/CalGray<</Gamma 2/BlackPoint[0 0 0]{WHITE_KEY}>>]"),
            &[cal_gray(0, 2 * ONE)],
        ),
        reads(
            "keys after #xx",
            "[/#43al#47ray<</W#68itePoin#74[0.9505 1 1.089]/#47#61mma 2>>]",
            &[cal_gray(0, 2 * ONE)],
        ),
        reads(
            "a function's keys in any order",
            "[/Separation/Gold/DeviceGray<</C1[1]/N 1/C0[0]/Domain[0 1]/FunctionType 2>>]",
            &[tint(b"Gold")],
        ),
        met(
            "a doubled key",
            14,
            format!("[/CalGray<<{WHITE_KEY}/Gamma 1"),
            "/Gamma 1>>]",
        ),
        met(
            "a doubled key, one with #xx",
            14,
            format!("[/CalGray<<{WHITE_KEY}/Gamma 1"),
            "/G#61mma 1>>]",
        ),
        met(
            "a doubled key before its bad value",
            14,
            format!("[/CalGray<<{WHITE_KEY}"),
            "/WhitePoint(a)>>]",
        ),
        met(
            "an unknown key before its unfinished value",
            14,
            gray_keys,
            "/Range(",
        ),
        met("a key in small letters", 14, gray_keys, "/gamma 1>>]"),
        met("a key a byte short", 14, gray_keys, "/Gamm 1>>]"),
        met("a key a byte long", 14, gray_keys, "/Gammas 1>>]"),
        met("a key of no bytes", 14, gray_keys, "/ 1>>]"),
        met(
            "a key of 2,000 bytes",
            14,
            gray_keys,
            format!("/{long} 1>>]"),
        ),
        met(
            "a known key and 2,000 bytes",
            14,
            gray_keys,
            format!("/Gamma{long} 1>>]"),
        ),
        met("CalGray has no Matrix", 14, gray_keys, "/Matrix[1]>>]"),
        met("CalGray has no Range", 14, gray_keys, "/Range[1]>>]"),
        met("CalRGB has no Range", 14, "[/CalRGB<<", "/Range[1]>>]"),
        met("Lab has no Gamma", 14, "[/Lab<<", "/Gamma 1>>]"),
        met("Lab has no Matrix", 14, "[/Lab<<", "/Matrix 1>>]"),
        in_function(
            "no Range in a function",
            14,
            "/FunctionType 2",
            "/Range[0 1]>>]",
        ),
        in_function("no Bounds in a function", 14, "", "/Bounds[]>>]"),
        met("no WhitePoint in CalGray", 14, "[/CalGray<</Gamma 1", ">>]"),
        met("no WhitePoint in CalRGB", 14, "[/CalRGB<< ", ">>]"),
        met("no WhitePoint in Lab", 14, "[/Lab<<", ">>]"),
        met("a number in place of a key", 12, gray_keys, "7 1>>]"),
        met("a string in place of a key", 12, gray_keys, "(Gamma)1>>]"),
        met("a dictionary in place of a key", 12, gray_keys, "<<>>"),
        met("] in place of a key", 12, gray_keys, "]"),
        met(
            "a key without its value",
            12,
            format!("[/CalGray<<{WHITE_KEY}/Gamma"),
            ">>]",
        ),
        met(
            "a key in place of a value",
            12,
            format!("[/CalGray<<{WHITE_KEY}/Gamma"),
            "/BlackPoint[0 0 0]",
        ),
    ];
    let ends = "/C0[0 0 0]/C1[1 1 1]";
    for (name, entries) in [
        ("no FunctionType", format!("/Domain[0 1]/N 1{ends}")),
        ("no Domain", format!("/FunctionType 2/N 1{ends}")),
        ("no N", format!("/FunctionType 2/Domain[0 1]{ends}")),
        (
            "no C0 where the count is 3",
            "/FunctionType 2/Domain[0 1]/N 1/C1[1 1 1]".to_string(),
        ),
        (
            "no C1 where the count is 3",
            "/FunctionType 2/Domain[0 1]/N 1/C0[1 1 1]".to_string(),
        ),
    ] {
        lines.push(in_function(name, 14, &entries, ">>]"));
    }
    let short = &FUNCTION[..FUNCTION.len() - 2];
    lines.push(met(
        "neither C0 nor C1 over DeviceCMYK",
        14,
        format!("[/Separation/Gold/DeviceCMYK{short}"),
        ">>]",
    ));
    lines.push(met(
        "neither C0 nor C1 over Lab",
        14,
        format!("[/Separation/Gold[/Lab<<{WHITE_KEY}>>]{short}"),
        ">>]",
    ));
    lines
}

fn defaults() -> Vec<Line> {
    let identity = [ONE, 0, 0, 0, ONE, 0, 0, 0, ONE];
    let rgb = Body::CalRgb {
        white: WHITE,
        black: [0; 3],
        gammas: [ONE; 3],
        matrix: identity,
    };
    let half = |c0, c1| {
        named(
            separation(0, DEVICE_GRAY, 1, [c0, 0, 0, 0], [c1, 0, 0, 0]),
            b"Gold",
        )
    };
    let entries = "/FunctionType 2/Domain[0 1]/N 1";
    vec![
        reads("CalGray's defaults", GRAY, &[gray(0)]),
        reads(
            "CalRGB's defaults",
            format!("[/CalRGB<<{WHITE_KEY}>>]"),
            &[record(0, rgb)],
        ),
        reads(
            "Lab's defaults",
            format!("[/Lab<<{WHITE_KEY}>>]"),
            &[lab(0, USUAL)],
        ),
        reads(
            "C0 and C1 by default",
            format!("[/Separation/Gold/DeviceGray{FUNCTION}]"),
            &[half(0, ONE)],
        ),
        reads(
            "C0 by default",
            format!("[/Separation/Gold/DeviceGray<<{entries}/C1[.5]>>]"),
            &[half(0, 500_000)],
        ),
        reads(
            "C1 by default",
            format!("[/Separation/Gold/DeviceGray<<{entries}/C0[.5]>>]"),
            &[half(500_000, ONE)],
        ),
        reads(
            "C0 and C1 by default over CalGray",
            format!("[/Separation/Gold{GRAY}{FUNCTION}]"),
            &{ [gray(0), separation(1, 0, 1, [0; 4], [ONE, 0, 0, 0])] },
        ),
    ]
}

fn forbidden_nesting() -> Vec<Line> {
    let ink = format!("[/Separation/Ink/DeviceGray{FUNCTION}]");
    let many = |head: &str, count: usize| head.repeat(count);
    let inks = format!(
        "{}/DeviceGray{}",
        many("[/Separation/A", MOST_BLOCKS + 6),
        many(&format!("{FUNCTION}]"), MOST_BLOCKS)
    );
    // An Indexed takes two blocks.
    let half = MOST_BLOCKS / 2;
    let tables = format!(
        "{}/DeviceGray{}",
        many("[/Indexed", 200),
        many(" 0(a)]", half)
    );
    vec![
        late(
            "an Indexed in an Indexed",
            6,
            " ",
            format!("[/Indexed{INDEXED}0(b)]"),
        ),
        late(
            "an Indexed in a Separation",
            6,
            "",
            format!("[/Separation/Two{INDEXED}{FUNCTION}]"),
        ),
        late(
            "a Separation in a Separation",
            6,
            GRAY,
            format!("[/Separation/Two{ink}{FUNCTION}]"),
        ),
        late(
            "the middle one of three",
            6,
            "[/Indexed",
            format!("[/Indexed{INDEXED}0(b)]0(c)]"),
        ),
        late(
            "a Separation over an Indexed in an Indexed",
            6,
            "[/Indexed",
            format!("[/Separation/A{INDEXED}{FUNCTION}]0(c)]"),
        ),
        met(
            "an Indexed counts 1",
            7,
            format!("[/Indexed{INDEXED}0"),
            "(bc)]",
        ),
        met(
            "a Separation counts 1",
            12,
            format!("[/Separation/Two{ink}<</C0[0 "),
            "0]>>]",
        ),
        met(
            "a text's own refusal after it",
            12,
            format!("[/Indexed{INDEXED}0(b)]"),
            "7 ",
        ),
        met(
            &format!("{half} Indexed closed, and one more"),
            15,
            format!("{tables} 0(a)"),
            "] 0(a)]",
        ),
        late(
            &format!("{MOST_BLOCKS} Separations closed, and no more"),
            12,
            &inks,
            "",
        ),
        met(
            &format!("{MOST_BLOCKS} Separations closed, and one more"),
            15,
            format!("{inks}{FUNCTION}"),
            "]",
        ),
        late("200 brackets", 12, many("[/Indexed", 200), ""),
    ]
}

fn numbers() -> Vec<Line> {
    let accepted = [
        ("2147.483647", i32::MAX),
        ("-2147.483648", i32::MIN),
        ("0000000000002147.483647", i32::MAX),
        ("0000000000000000000000000000000000001", ONE),
        ("+5", 5 * ONE),
        ("-5", -5 * ONE),
        ("5.", 5 * ONE),
        ("5.0", 5 * ONE),
        ("-5.", -5 * ONE),
        (".5", 500_000),
        ("+.5", 500_000),
        ("-.5", -500_000),
        ("-0", 0),
        ("-.000000", 0),
        ("0.000001", 1),
        ("-0.000001", -1),
        ("12.345678", 12_345_678),
    ];
    let too_much = [
        "1.0000000",
        "0.0000000",
        "-0.0000001",
        "2147.483648",
        "-2147.483649",
        "2148",
        "-2148",
        "99999",
        "4294.967296",
        "4294.967297",
        "18446744073709.551616",
        "-2147.4836480",
        "184467440737095516160000001",
    ];
    let keywords = [
        "1e5",
        "--5",
        "1.2.3",
        "null",
        "true",
        "false",
        "+-1",
        "-+1",
        "-",
        "+",
        ".",
        "+.",
        "-.",
        "5-",
        "1,5",
        "0x10",
        "16#FF",
        "..5",
        "1..",
        "5#30",
        "99999x",
        "1.0000000x",
        "99999.5.5",
        "1.00000000.",
    ];
    let mut lines: Vec<Line> = accepted
        .map(|(written, value)| number(written, value))
        .into();
    lines.extend(too_much.map(|written| no_number(13, written)));
    lines.extend(keywords.map(|written| no_number(12, written)));
    lines.push(no_number(13, &"9".repeat(3000)));
    lines.push(no_number(13, &format!("1.{}", "0".repeat(3000))));
    lines.push(no_number(12, &"k".repeat(3000)));
    lines.push(no_number(
        12,
        &format!("{}.{}.", "1".repeat(1500), "0".repeat(1500)),
    ));
    lines.push(number(&"0".repeat(3000), 0));
    // 12 and not 13 where none may stand
    lines.push(met("a number in place of a family", 12, "[", "99999 "));
    lines.push(met(
        "a number in place of a base",
        12,
        "[/Indexed ",
        "1.0000000 0(a)]",
    ));
    lines.push(met(
        "a number in place of an array",
        12,
        "[/CalGray<</BlackPoint ",
        "1.0000000>>]",
    ));
    lines.push(met(
        "one number too many, and too large",
        12,
        "[/CalGray<</BlackPoint[0 0 0 ",
        "99999]>>]",
    ));
    lines.push(met(
        "a number in place of a palette",
        12,
        "[/Indexed/DeviceGray 0 ",
        "99999]",
    ));
    lines
}

fn names() -> Vec<Line> {
    let ink = |name: &str| format!("[/Separation/{name} /DeviceGray{FUNCTION}]");
    let long = "x".repeat(127);
    let no_ink = |name: &str, written: &str| {
        met(
            name,
            12,
            "[/Separation",
            format!("/{written} /DeviceGray{FUNCTION}]"),
        )
    };
    vec![
        reads("a name with #xx", ink("G#6fl#64"), &[tint(b"Gold")]),
        reads("#xx in capitals", ink("#4A#4a"), &[tint(b"JJ")]),
        reads(
            "delimiters and white space by #xx",
            ink("A#20B#2F#28#23"),
            &[tint(b"A B/(#")],
        ),
        reads("#01 and #FF", ink("#01#FF"), &[tint(b"\x01\xff")]),
        reads(
            "a device name with #xx",
            "[/Indexed/Device#47ray 0(a)]",
            &indexed_run(0, DEVICE_GRAY, 0, b"a"),
        ),
        reads("an ink's name of 1 byte", ink("x"), &[tint(b"x")]),
        reads(
            "an ink's name of 127 bytes",
            ink(&long),
            &[tint(long.as_bytes())],
        ),
        reads(
            "an ink's name of 127 bytes, each #xx",
            ink(&"#78".repeat(127)),
            &[tint(long.as_bytes())],
        ),
        no_ink("an ink's name of 128 bytes", &"x".repeat(128)),
        no_ink("an ink's name of 128 bytes, each #xx", &"#78".repeat(128)),
        no_ink("an ink's name of 3,000 bytes", &"x".repeat(3000)),
        no_ink("an ink's name of no bytes", ""),
        no_ink("#00", "A#00B"),
        no_ink("# and no digit", "A#G1"),
        no_ink("# and one digit", "A#4"),
        no_ink("# and one digit, then another letter", "A#4G"),
        no_ink("# alone", "#"),
        met("# at a delimiter", 12, "[", "/A#("),
        met("# and one digit at a delimiter", 12, "[", "/A#4("),
        met("/A#G is refused at once", 12, "[", "/A#G"),
        met("/A#00 is refused at once", 12, "[", "/A#00"),
        met(
            "a bad name comes before the unknown key",
            12,
            "[/CalGray<<",
            "/A#G 1>>]",
        ),
        met("/ alone is a name, and no family", 12, "[", "/ <<"),
        met("/ / are two names", 12, "[/Indexed", "//DeviceGray"),
        met(
            "a family of 3,000 bytes",
            12,
            "[",
            format!("/{}<<", "CalGray".repeat(430)),
        ),
    ]
}

fn strings() -> Vec<Line> {
    let all: Vec<u8> = (0..=255).filter(|b| !b"()\\\r".contains(b)).collect();
    let bad = |name: &str, from: &[u8]| met(name, 12, "[/Indexed/DeviceGray 0", from);
    vec![
        string("nested parentheses", "(a(b(c)())d)", b"a(b(c)())d"),
        string("every escape", r"(\n\r\t\b\f\(\)\\)", b"\n\r\t\x08\x0c()\\"),
        string(
            "an escaped parenthesis nests nothing",
            r"(\((\))\()",
            b"(())(",
        ),
        string("three octal digits", r"(\101\1019\000)", b"AA9\0"),
        string(
            "one and two octal digits",
            r"(\7\7a\53\539)",
            b"\x07\x07a++9",
        ),
        string("octal digits modulo 256", r"(\777\400\501)", b"\xff\0A"),
        string("8 and 9 are no octal digits", r"(\8\18\99)", b"8\x01899"),
        string("a fourth digit is a digit", r"(\0053)", b"\x053"),
        string("any other \\ is dropped", r"(\x\%\N\ \/)", b"x%N /"),
        string("\\ before LF continues", "(a\\\nb)", b"ab"),
        string("\\ before CR continues", "(a\\\rb)", b"ab"),
        string("\\ before CR LF continues", "(a\\\r\nb)", b"ab"),
        string("\\ before LF CR continues the LF", "(a\\\n\rb)", b"a\nb"),
        string("CR reads as LF", "(a\rb)", b"a\nb"),
        string("CR LF reads as LF", "(a\r\nb)", b"a\nb"),
        string("LF CR are two", "(a\n\rb)", b"a\n\nb"),
        string("CR CR LF are two", "(a\r\r\nb)", b"a\n\nb"),
        string("CR before the end of a string", "(a\r)", b"a\n"),
        string("CR before an escape", "(\r\\n\\7\r)", b"\n\n\x07\n"),
        string(
            "every other byte stands for itself",
            [b"(", all.as_slice(), b")"].concat(),
            &all,
        ),
        reads(
            "a string of 1,008 escapes",
            format!("[/Indexed/DeviceCMYK 251({})]", r"\141".repeat(1008)),
            &indexed_run(0, DEVICE_CMYK, 251, &[b'a'; 1008]),
        ),
        string("hexadecimal", "<616263>", b"abc"),
        string("hexadecimal in both cases", "<aBcD>", &[0xab, 0xcd]),
        string("an odd last digit", "<616>", b"a`"),
        string("one digit", "<4>", b"@"),
        string(
            "white space in hexadecimal",
            b"<\0 6\t1\n6\x0c\r2 6 >",
            b"ab`",
        ),
        bad("VT in hexadecimal", b"<6\x0b1>]"),
        bad("G in hexadecimal", b"<0G>]"),
        bad("< < is no dictionary", b"< <61>]"),
        bad("< in hexadecimal", b"<6<1>]"),
        bad("a dictionary in place of a palette", b"<</A 1>>]"),
        bad("/ in hexadecimal", b"<6/>]"),
    ]
}

fn palettes() -> Vec<Line> {
    let wrong = |name: &str, before: &str, from: &str| met(name, 7, before, from);
    let whole = |name: &str, hival: u16, base: &str, code: u16, count: usize| {
        let bytes: Vec<u8> = (0..count).map(|k| (k % 251) as u8 + 1).collect();
        let hex: String = bytes.iter().map(|b| format!("{b:02x}")).collect();
        reads(
            name,
            format!("[/Indexed/{base} {hival}<{hex}>]"),
            &indexed_run(0, code, hival, &bytes),
        )
    };
    let over_lab = format!("[/Indexed[/Lab<<{WHITE_KEY}>>]1");
    vec![
        wrong("a byte short", "[/Indexed/DeviceGray 1", "(a)]"),
        wrong("a byte long", "[/Indexed/DeviceGray 0", "(ab)]"),
        wrong("no byte", "[/Indexed/DeviceGray 0", "()]"),
        wrong("no digit", "[/Indexed/DeviceGray 0", "<>]"),
        wrong("short by an odd digit", "[/Indexed/DeviceRGB 0", "<616>]"),
        wrong("three to a row over Lab", &over_lab, "(abcde)]"),
        wrong(
            "four to a row over DeviceCMYK",
            "[/Indexed/DeviceCMYK 0",
            "(abc)]",
        ),
        wrong(
            "3,000 bytes",
            "[/Indexed/DeviceCMYK 255",
            &format!("({})]", "a".repeat(3000)),
        ),
        wrong(
            "1,025 bytes",
            "[/Indexed/DeviceCMYK 255 ",
            &format!("<{}>]", "61".repeat(1025)),
        ),
        wrong(
            "256 more",
            "[/Indexed/DeviceGray 0",
            &format!("({})]", "a".repeat(257)),
        ),
        whole("504 bytes are one block", 167, "DeviceRGB", DEVICE_RGB, 504),
        whole(
            "507 bytes are two blocks",
            168,
            "DeviceRGB",
            DEVICE_RGB,
            507,
        ),
        whole(
            "1,024 bytes are three blocks",
            255,
            "DeviceCMYK",
            DEVICE_CMYK,
            1024,
        ),
        met(
            "a misplaced string of 3,000 bytes",
            12,
            "[",
            format!("({})", "a".repeat(3000)),
        ),
    ]
}

fn hival_and_exponent() -> Vec<Line> {
    let mut lines = Vec::new();
    for written in [
        "256",
        "-1",
        "0.5",
        "255.000001",
        "-0.000001",
        "2147.483647",
        "-2147.483648",
    ] {
        lines.push(met(
            &format!("hival {written} is 4"),
            4,
            "[/Indexed/DeviceGray ",
            format!("{written}(a)]"),
        ));
    }
    for written in ["1.0000000", "99999", "256.0000000"] {
        lines.push(met(
            &format!("hival {written} is 13"),
            13,
            "[/Indexed/DeviceGray ",
            format!("{written}(a)]"),
        ));
    }
    for written in ["3", "3.", "3.0", "+3", "003.000000"] {
        lines.push(reads(
            &format!("hival {written} is whole"),
            format!("[/Indexed/DeviceGray {written}(abcd)]"),
            &indexed_run(0, DEVICE_GRAY, 3, b"abcd"),
        ));
    }
    for written in ["0", "-0", "-.0", "0."] {
        lines.push(reads(
            &format!("hival {written} is 0"),
            format!("[/Indexed/DeviceGray {written}(a)]"),
            &indexed_run(0, DEVICE_GRAY, 0, b"a"),
        ));
    }
    for written in ["0", "-0", "5", "1.5", "-1", "4.000001", "0.999999", "2147"] {
        lines.push(in_function(
            &format!("N {written} is 5"),
            5,
            "/N ",
            &format!("{written}/C0[0 0 0]"),
        ));
    }
    for written in ["1.0000000", "99999", "0.0000000"] {
        lines.push(in_function(
            &format!("N {written} is 13"),
            13,
            "/N ",
            &format!("{written}/C0[0 0 0]"),
        ));
    }
    lines.push(in_function("N in an array", 12, "/N", "[1]"));
    for (written, n) in [("4", 4), ("2.", 2), ("3.0", 3), ("+1", 1), ("04.000000", 4)] {
        lines.push(reads(
            &format!("N {written} is whole"),
            format!("[/Separation/Gold/DeviceGray<</FunctionType 2/Domain[0 1]/N {written}>>]"),
            &[separation(0, DEVICE_GRAY, n, [0; 4], [ONE, 0, 0, 0])],
        ));
    }
    lines
}

fn function_type_and_domain() -> Vec<Line> {
    let mut lines = Vec::new();
    for (written, refusal) in [
        ("3", 12),
        ("0", 12),
        ("-2", 12),
        ("2.5", 12),
        ("99999", 12),
        ("2.0000001", 12),
        ("20000000000000", 12),
        ("2.0000000", 13),
        ("002.0000000", 13),
        ("-2.0000000", 12),
        ("null", 12),
        ("1.9999999", 12),
    ] {
        lines.push(in_function(
            &format!("FunctionType {written}"),
            refusal,
            "/FunctionType ",
            &format!("{written}/N 1"),
        ));
    }
    for (before, from, refusal) in [
        ("", "1 0]", 12),
        ("0 ", "2]", 12),
        ("0 ", "-1]", 12),
        ("0 ", "1.5]", 12),
        ("0 ", "99999]", 12),
        ("0 ", "1.0000000]", 13),
        ("0 ", "1.0000001]", 12),
        ("", "0.0000000 1]", 13),
        ("", "-0.0000000 1]", 13),
        ("", "0.0000001 1]", 12),
        ("0", "]", 12),
        ("", "]", 12),
        ("0 1 ", "0]", 12),
        ("0 1 ", "99999]", 12),
        ("0 ", "/A]", 12),
    ] {
        lines.push(in_function(
            &format!("Domain {before}{from}"),
            refusal,
            &format!("/Domain[{before}"),
            from,
        ));
    }
    lines.push(in_function(
        "Domain without brackets",
        12,
        "/Domain ",
        "0 1",
    ));
    for (kind, domain) in [
        ("2.0", "0 1"),
        ("2.", "-0 1."),
        ("+2", "0.0 1.0"),
        ("0002.000000", "-.000000 +01.000000"),
    ] {
        lines.push(reads(
            &format!("FunctionType {kind}, Domain {domain}"),
            format!("[/Separation/Gold/DeviceGray<</FunctionType {kind}/Domain[{domain}]/N 1>>]"),
            &[tint(b"Gold")],
        ));
    }
    lines
}

fn lengths() -> Vec<Line> {
    let rgb = "[/CalRGB<<";
    vec![
        met(
            "one number too many",
            12,
            "[/CalGray<</WhitePoint[1 1 1 ",
            "1]>>]",
        ),
        met(
            "one number too few",
            12,
            "[/CalGray<</WhitePoint[1 1",
            "]>>]",
        ),
        met("no number", 12, "[/CalGray<</WhitePoint[", "]>>]"),
        met(
            "two gammas of three",
            12,
            format!("{rgb}/Gamma[1 1"),
            "]>>]",
        ),
        met(
            "eight numbers of nine",
            12,
            format!("{rgb}/Matrix[1 2 3 4 5 6 7 8 "),
            "]>>]",
        ),
        met(
            "ten numbers of nine",
            12,
            format!("{rgb}/Matrix[1 2 3 4 5 6 7 8 9 "),
            "10]>>]",
        ),
        met(
            "five numbers of four",
            12,
            "[/Lab<</Range[-1 1 -1 1 ",
            "1]>>]",
        ),
        met(
            "CalGray's Gamma in an array",
            12,
            "[/CalGray<</Gamma",
            "[1]>>]",
        ),
        met(
            "CalRGB's Gamma as a number",
            12,
            format!("{rgb}/Gamma "),
            "1>>]",
        ),
        met(
            "an array in an array",
            12,
            format!("{rgb}/Gamma[1 "),
            "[1]1]",
        ),
        met("a name in an array", 12, format!("{rgb}/Gamma[1"), "/A 1]"),
        met(">> in an array", 12, format!("{rgb}/Gamma[1"), ">>]"),
        met(
            "a string after the last number",
            12,
            format!("{rgb}/Gamma[1 1 1"),
            "(a)]",
        ),
        met(
            "13 in an array before what follows",
            13,
            format!("{rgb}/Gamma[1 "),
            "99999 1 1 1]",
        ),
        in_function("C0 of two where the count is 3", 12, "/C0[0 0", "]>>]"),
        in_function("C1 of four where the count is 3", 12, "/C1[0 0 0 ", "0]>>]"),
        met(
            "C0 of two where the count is 1",
            12,
            "[/Separation/A/DeviceGray<</C0[0 ",
            "0]>>]",
        ),
        met(
            "C0 without brackets",
            12,
            "[/Separation/A/DeviceGray<</C0 ",
            "0>>]",
        ),
        met(
            "C1 of three where the count is 4",
            12,
            "[/Separation/A/DeviceCMYK<</C1[0 0 0",
            "]>>]",
        ),
        met(
            "C0 of none where the count is 1",
            12,
            "[/Separation/A/DeviceGray<</C0[",
            "]>>]",
        ),
    ]
}

fn blocks_and_room() -> Vec<Line> {
    let open = &GRAY[..GRAY.len() - 1];
    let grays = |count: usize| GRAY.repeat(count);
    let records = |count: usize| (0..count as u16).map(gray).collect::<Vec<_>>();
    let large = format!("[/Indexed/DeviceCMYK 255<{}>", "61".repeat(1024));
    let (most, more) = (MOST_BLOCKS, MOST_BLOCKS + 1);
    // What leaves just room for the four blocks of the large palette, and what leaves one too few.
    let (fitting, over) = (most - 4, most - 3);
    let mut full = records(fitting);
    full.extend(indexed_run(fitting as u16, DEVICE_CMYK, 255, &[b'a'; 1024]));
    let bad = "[/CalGray<</WhitePoint[1 .5 1]>>]";
    vec![
        reads(&format!("{most} blocks"), grays(most), &records(most)),
        reads(
            &format!("{fitting} blocks and a run of four"),
            format!("{}{large}]", grays(fitting)),
            &full,
        ),
        met(
            &format!("{more} blocks"),
            15,
            format!("{}{open}", grays(most)),
            "]",
        ),
        met(
            &format!("{more} blocks, more room"),
            15,
            format!("{}{open}", grays(most)),
            "]",
        )
        .within(2 * ROOM),
        met(
            &format!("{more} blocks, a palette's among them"),
            15,
            format!("{}{large}", grays(over)),
            "]",
        ),
        met("15 before 10", 15, format!("{}{large}", grays(over)), "]").within(over * BLOCK),
        met(
            "15 before judging's",
            15,
            format!("{bad}{}{open}", grays(most - 1)),
            "]",
        ),
        met("12 before 15", 12, format!("{}[/CalGray", grays(most)), "]"),
        met(
            "14 before 15",
            14,
            format!("{}[/CalGray<<", grays(most)),
            ">>]",
        ),
        met(
            &format!("{most} blocks in room for {}", most - 1),
            10,
            format!("{}{open}", grays(most - 1)),
            "]",
        )
        .within((most - 1) * BLOCK),
        met(
            &format!("{most} blocks in a byte less"),
            10,
            format!("{}{open}", grays(most - 1)),
            "]",
        )
        .within(ROOM - 1),
        met("a block in no room", 10, open, "]").within(0),
        met("a block in 511 bytes", 10, open, "]").within(511),
        reads("a block in 512 bytes", GRAY, &[gray(0)]).within(512),
        reads("a block in 513 bytes", GRAY, &[gray(0)]).within(513),
        met(
            "two blocks in 1,023 bytes",
            10,
            format!("{GRAY}{open}"),
            "]",
        )
        .within(1023),
        met(
            "a space and its palette in 1,023 bytes",
            10,
            &INDEXED[..INDEXED.len() - 1],
            "]",
        )
        .within(1023),
        reads(
            "a space and its palette in 1,024 bytes",
            INDEXED,
            &indexed_run(0, DEVICE_GRAY, 0, b"a"),
        )
        .within(1024),
        met(
            "the inner space is too much",
            10,
            format!("[/Indexed{open}"),
            "]0(a)]",
        )
        .within(0),
        met(
            "the outer space is too much",
            10,
            format!("[/Indexed{GRAY}0(a)"),
            "]",
        )
        .within(1024),
        met("12 before 10", 12, "[/CalGray", "]").within(0),
        met("7 before 10", 7, "[/Indexed/DeviceGray 0", "(ab)]").within(0),
        met("10 before judging's", 10, &bad[..bad.len() - 1], "]").within(0),
        late("no space in no room", 12, "  ", "").within(0),
    ]
}

fn unfinished() -> Vec<Line> {
    let mut lines = vec![
        late("[/CalGra", 12, "[", "/CalGra"),
        late("[/CalGray", 12, "[/CalGray", ""),
        late("/A# at the end", 12, "[", "/A#"),
        late("/A#4 at the end", 12, "[", "/A#4"),
        late("/A#41 at the end", 12, "[", "/A#41"),
        late("a number at the end, misplaced", 12, "", "12"),
        late("a keyword at the end", 12, "[/Indexed/DeviceGray ", "nul"),
        late("a sign at the end", 12, "[/Indexed/DeviceGray ", "-"),
        late("hival 256 at the end", 4, "[/Indexed/DeviceGray ", "256"),
        late(
            "hival too large at the end",
            13,
            "[/Indexed/DeviceGray ",
            "99999",
        ),
        late("hival 25 at the end", 12, "[/Indexed/DeviceGray 25", ""),
        late("N 5 at the end", 5, "[/Separation/A/DeviceGray<</N ", "5"),
        late("half a key at the end", 14, "[/CalGray<<", "/Gamm"),
        late("a key at the end", 12, "[/CalGray<</Gamma", ""),
        late("/ at the end, as a family", 12, "[", "/"),
        late("/ at the end, as a key", 14, "[/CalGray<<", "/"),
        late("/ at the end, as an ink's name", 12, "[/Separation", "/"),
        late("an ink's name at the end", 12, "[/Separation/A", ""),
        late(
            "half a device name at the end",
            12,
            "[/Indexed",
            "/DeviceGra",
        ),
        late(
            "an ink's name of 128 bytes at the end",
            12,
            "[/Separation",
            format!("/{}", "x".repeat(128)),
        ),
        met("> and no >", 12, "[/CalGray<<", "> >"),
        met("> and a name", 12, "", ">/A"),
        met(">> misplaced", 12, "[", ">>"),
        met(
            "> within an array",
            12,
            "[/CalGray<</WhitePoint[1 1 1",
            ">]",
        ),
        met("bad hexadecimal at once, misplaced", 12, "[", "<0G"),
        met(
            "bad hexadecimal at once, too long for a palette",
            12,
            "[/Indexed/DeviceGray 0",
            "<616161G",
        ),
        met("a misplaced string, complete", 12, "[", "(a(b)c)"),
        met("a misplaced hexadecimal string, complete", 12, "[", "<00>"),
        met(
            "a misplaced string before what follows",
            12,
            "[/CalGray",
            "(a)<0G",
        ),
    ];
    for text in [
        "[",
        "[ ",
        "[%",
        "[/CalGray<",
        "[/CalGray<<",
        "[/CalGray <</WhitePoint[",
        "[/CalGray<</WhitePoint[1 1 1",
        "[/CalGray<</WhitePoint[1 1 1]",
        "[/CalGray<</WhitePoint[1 1 1]>",
        "[/CalGray<</WhitePoint[1 1 1]>>",
        "[/Indexed/DeviceGray",
        "[/Indexed/DeviceGray 0(",
        "[/Indexed/DeviceGray 0(abc",
        "[/Indexed/DeviceGray 0<6162",
        "[/Indexed/DeviceGray 0(a)",
        "[/Indexed[/Indexed/DeviceGray 0(a)]",
    ] {
        lines.push(late(&format!("unfinished, {text}"), 12, text, ""));
    }
    for text in [
        "(",
        "(a",
        "((a)",
        "(a\\",
        "(a\\1",
        "(a\r",
        "<",
        "<0",
        "[(",
        "[/CalGray(a",
        "[/CalGray<<(",
        "[/CalGray<0",
        ">",
        "[>",
    ] {
        lines.push(late(
            &format!("unfinished and misplaced, {text}"),
            12,
            text,
            "",
        ));
    }
    lines.push(late(
        "a whole space, then an unfinished string",
        12,
        format!("{GRAY}("),
        "",
    ));
    lines
}

fn judging() -> Vec<Line> {
    let bad = "[/CalGray<</WhitePoint[1 .5 1]>>]";
    let dull = format!("[/CalGray<<{WHITE_KEY}/Gamma 1.85>>]");
    let entries = |number: u32, entries: &str| {
        late(
            &format!("CalGray with {entries}"),
            number,
            "",
            format!("[/CalGray<<{WHITE_KEY}{entries}>>]"),
        )
    };
    vec![
        late("white Y not 1", 4, "", bad),
        late("white X 0", 4, "", "[/Lab<</WhitePoint[0 1 1]>>]"),
        late("white Z below 0", 4, "", "[/CalRGB<</WhitePoint[1 1 -1]>>]"),
        entries(4, "/BlackPoint[0 -0.000001 0]"),
        entries(4, "/BlackPoint[-2147.483648 0 0]"),
        entries(4, "/Gamma 0"),
        entries(4, "/Gamma -1"),
        entries(5, "/Gamma 1.85"),
        entries(5, "/Gamma 4.1"),
        late("CalRGB with a gamma of 0", 5, "", format!("[/CalRGB<<{WHITE_KEY}/Gamma[1 0 1]>>]")),
        late("amin above amax", 4, "", format!("[/Lab<<{WHITE_KEY}/Range[1 -1 0 0]>>]")),
        late("bmin above bmax", 4, "", format!("[/Lab<<{WHITE_KEY}/Range[0 0 1 -1]>>]")),
        late("the opening bracket after a gap", 4, "% [\n ", bad),
        late("the second space", 4, format!("{GRAY} "), bad),
        late("an inner space at its own bracket", 4, "[/Indexed ", format!("{bad}0(a)]")),
        late("the first block of two", 5, "", format!("{dull}{bad}")),
        late("the inner block before the outer", 4, "[/Separation/A", format!("{bad}{FUNCTION}]{dull}")),
        late("after a space with a palette", 4, INDEXED, format!("{bad}{GRAY}")),
        late("a text's own refusal first, at the end", 12, format!("{bad}["), ""),
        met("a text's own refusal first", 12, bad, "7 "),
        reads("gammas in tenths are judged fine", format!("[/CalGray<<{WHITE_KEY}/Gamma 1.8>>]"), &[cal_gray(0, 1_800_000)]),
        reads("a matrix may be any", format!("[/CalRGB<<{WHITE_KEY}/Gamma[2 2 2]/Matrix[0.412456 0.212673 0.019334 0.357576 0.715152 0.119192 0.180438 0.072175 0.950304]>>]"), &[cal_rgb(0, [2 * ONE; 3])]),
    ]
}

/// The whole table.
pub fn table() -> Vec<Line> {
    [
        white_space_and_delimiters(),
        comments(),
        five_arrays(),
        outermost(),
        keys(),
        defaults(),
        forbidden_nesting(),
        numbers(),
        names(),
        strings(),
        palettes(),
        hival_and_exponent(),
        function_type_and_domain(),
        lengths(),
        blocks_and_room(),
        unfinished(),
        judging(),
    ]
    .into_iter()
    .flatten()
    .collect()
}
