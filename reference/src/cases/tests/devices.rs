//! Cases of DeviceN and of step 13, worked out by hand.

use super::reply_of;

#[test]
fn device_n_replies_worked_by_hand() {
    for (op, label, expected) in [
        (21, "DeviceN of no names, written", "refused 3 kept"),
        (21, "DeviceN of nine names, written", "refused 3 kept"),
        (20, "DeviceN of no names, read", "refused 3"),
        (20, "DeviceN of nine names, read", "refused 3"),
        (
            20,
            "DeviceN with a first name of 49 bytes, read",
            "refused 3",
        ),
        (20, "DeviceN, a first length 0, read", "refused 3"),
        (20, "DeviceN, a zero within a name, read", "refused 3"),
        (20, "DeviceN, the byte after the names, read", "refused 3"),
        (20, "DeviceN block with byte 7 of 1", "refused 3"),
        (
            21,
            "DeviceN record with a byte in place 500",
            "refused 3 kept",
        ),
        (21, "DeviceN names equal, written", "refused 4 kept"),
        (20, "DeviceN names All the last of two, read", "refused 4"),
        (30, "DeviceN names equal, on a page", "refused 4 block 0"),
        (
            30,
            "DeviceN names None twice and an ink twice, on a page",
            "refused 4 block 0",
        ),
        (
            30,
            "DeviceN names None twice and an ink, on a page",
            "accepted",
        ),
        (
            30,
            "DeviceN names none twice, on a page",
            "refused 4 block 0",
        ),
        (30, "DeviceN names All and a space, on a page", "accepted"),
        (
            34,
            "DeviceN names None twice, on a page, listed",
            "blocks 2; 0 DeviceN 2 2",
        ),
        (30, "DeviceN over itself", "refused 6 block 0"),
        (30, "DeviceN over a Separation", "refused 6 block 0"),
        (30, "DeviceN over an Indexed", "refused 6 block 0"),
        (30, "DeviceN over a DeviceN", "refused 6 block 0"),
        (30, "DeviceN over no block of the page", "refused 6 block 0"),
        (30, "DeviceN over Lab", "accepted"),
        (
            30,
            "Separation over a block made kind 8",
            "refused 6 block 0",
        ),
        (30, "DeviceN, a run of no block", "refused 7 block 0"),
        (
            30,
            "DeviceN, a run of a full block and one of zeros",
            "refused 7 block 0",
        ),
        (30, "DeviceN, a run of 4 full blocks", "accepted"),
        (30, "DeviceN, a run of 5 full blocks", "refused 7 block 5"),
        (30, "a program before its DeviceN", "refused 7 block 1"),
        (
            30,
            "DeviceN of two over FF01, program { }",
            "refused 17 block 0",
        ),
        (30, "DeviceN of two over FF01, program { add }", "accepted"),
        (
            30,
            "DeviceN of two over FF01, program { pop pop pop div }",
            "refused 16 block 0",
        ),
        (30, "DeviceN of eight, a stack of 100", "accepted"),
        (30, "DeviceN of eight, a stack of 101", "refused 17 block 0"),
        (30, "of a DeviceN, 4 before 6", "refused 4 block 0"),
        (30, "of a DeviceN, 6 before 7", "refused 6 block 0"),
        (
            30,
            "of a DeviceN, 7 of a run ill filled and no 16",
            "refused 7 block 0",
        ),
        (30, "of a DeviceN, 16 before 17", "refused 16 block 0"),
        (30, "of a DeviceN, 2 before 3", "refused 2 block 0"),
        (
            30,
            "DeviceN of None twice, program { }",
            "refused 17 block 0",
        ),
        (
            31,
            "DeviceN of None twice, program { add }, a colour",
            "NoMark",
        ),
        (31, "DeviceN of None 8 times, every tint 2", "NoMark"),
        (
            31,
            "DeviceN of None 8 times, 9 components",
            "refused 9 block 0",
        ),
        (
            31,
            "an Indexed over DeviceN of None 2 times, index 3.4",
            "NoMark",
        ),
        (
            31,
            "an Indexed over DeviceN of None 2 times, index 3.5",
            "NoMark moved",
        ),
        (
            32,
            "DeviceN of None 8 times, recipe of 0 into 2",
            "words 2 kept 8 10",
        ),
        (
            30,
            "an Indexed over eight, hival 255, 4 blocks",
            "refused 7 block 2",
        ),
        (
            34,
            "an Indexed over eight, hival 255, 5 blocks, listed",
            "blocks 8; 0 DeviceN 8 17; 2 Indexed 1 2068",
        ),
        (
            30,
            "a spare byte in a fifth palette block",
            "refused 7 block 2",
        ),
        (30, "the last byte of a fifth palette block", "accepted"),
        (30, "a sixth palette block", "refused 7 block 8"),
        (
            31,
            "DeviceN over DeviceGray, 0.25 0.75",
            "Gray 3fe4000000000000",
        ),
        (
            31,
            "DeviceN over DeviceGray, -0.000001 1.000001",
            "Gray 3fe0000000000000 moved",
        ),
        // 0.2 and twice 0.1, of which a thousandth.
        (31, "DeviceN of 2, all within", "Gray 3f3a36e2eb1c432d"),
        (31, "DeviceN of 2, 1 components", "refused 9 block 0"),
        (
            32,
            "recipe of a DeviceN, two to Gray, just enough",
            "words 11 kept 2 13 2 1 1 7 1 0 0 1000000 4",
        ),
        (
            32,
            "recipe of a DeviceN, two to CMYK, a word short",
            "refused 10 block 0 kept",
        ),
        (
            34,
            "a page of DeviceNs as documents have them, listed",
            "blocks 14; 0 DeviceN 4 43; 2 DeviceN 5 72; 4 DeviceN 2 51; 6 DeviceN 4 222; \
             9 DeviceN 1 38; 11 CalRGB 3 26; 12 DeviceN 2 63",
        ),
    ] {
        assert_eq!(reply_of(op, label), expected, "{label}");
    }
}

#[test]
fn step_13_replies_worked_by_hand() {
    let cmyk = |floats: [f64; 4]| super::answer_text(&super::Answer::Cmyk(floats));
    for (label, expected) in [
        (
            "step 13 takes 8 and leaves 1, the others as they were",
            cmyk([0.1, 2.0, -3.0, 0.4]) + " moved",
        ),
        (
            "step 13 takes 1 and leaves 1, the others as they were",
            cmyk([0.1, 2.0, -3.0, 0.4]),
        ),
        (
            "step 13 takes 2 and leaves its tint 1",
            cmyk([1.0, 2.0, -3.0, 0.4]) + " moved",
        ),
        (
            "step 13 takes 2, value 1 outside",
            cmyk([0.5, 3.0, 0.5, 0.5]) + " moved",
        ),
        (
            "step 13 takes 2, value 2 outside",
            cmyk([0.5, 0.5, 3.0, 0.5]),
        ),
        (
            "step 13 takes 7, value 7 outside",
            cmyk([0.5, 0.5, 0.5, 0.5]),
        ),
        (
            "step 13 takes 8 with an input count of 1",
            cmyk([0.1, 0.0, 0.0, 0.0]),
        ),
        (
            "step 13 takes 3 with an input count of 8",
            cmyk([1.1, 2.0, -3.0, 0.4]) + " moved",
        ),
        ("input count 8, as it stands", cmyk([1.0, 2.0, 3.0, 4.0])),
        (
            "input count 9, as it stands",
            "refused 11 block 0".to_string(),
        ),
        ("input count 8, one less", "refused 9 block 0".to_string()),
        (
            "input count 8, the last limited",
            cmyk([1.0, 2.0, 3.0, 4.0]) + " moved",
        ),
        (
            "over several values, a height of 101",
            "refused 11 block 0".to_string(),
        ),
        (
            "a limit, 256 rows of eight and CalRGB, 2881 words",
            "refused 11 block 0".to_string(),
        ),
        (
            "a step 13 in a run of 2878 words",
            "refused 11 block 0".to_string(),
        ),
    ] {
        assert_eq!(reply_of(33, label), expected, "{label}");
    }
    for label in [
        "256 rows of eight, 796 words and CalRGB, 2877 words",
        "a limit, 255 rows of eight and CalRGB, 2873 words",
    ] {
        assert!(reply_of(33, label).starts_with("XYZ "), "{label}");
    }
    let long = "a step 13 in a run of 2877 words";
    assert!(reply_of(33, long).starts_with("Gray "), "{long}");
}
