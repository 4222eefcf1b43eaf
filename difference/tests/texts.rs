//! Both implementations reply to each text of the table as was worked out by hand: the proved library however the text
//! is cut into parts.

use reference::text::readings::{self, Line};
use sktelbaan::TextReader;

/// What the proved library replies to a text in parts, with its place as the table has it; its end asked for twice.
fn in_parts<'a>(
    room: usize,
    parts: impl IntoIterator<Item = &'a [u8]>,
) -> Result<Vec<u8>, (u32, u64)> {
    let mut reader = TextReader::new(room);
    for part in parts {
        reader.read(part);
    }
    let reply = reader.end();
    assert_eq!(reader.end(), reply, "the end replies the same again");
    reply.map_err(|unread| (unread.number, u64::from(unread.at)))
}

#[test]
fn each_reading_is_replied_to_whole() {
    for Line {
        name,
        text,
        room,
        reply,
        ..
    } in &readings::table()
    {
        let theirs = reference::text::read(text, room / 512);
        assert_eq!(theirs, *reply, "{name}: the second implementation");
        assert_eq!(in_parts(*room, [text.as_slice()]), *reply, "{name}");
        let padded = [b"", text.as_slice(), b""];
        assert_eq!(in_parts(*room, padded), *reply, "{name}, with empty parts");
    }
}

#[test]
fn each_reading_is_replied_to_byte_by_byte() {
    for line in &readings::table() {
        let reply = in_parts(line.room, line.text.chunks(1));
        assert_eq!(reply, line.reply, "{}", line.name);
    }
}

#[test]
fn each_reading_is_replied_to_in_two_parts() {
    for line in &readings::table() {
        for cut in 0..=line.text.len() {
            let (first, second) = line.text.split_at(cut);
            let reply = in_parts(line.room, [first, second]);
            assert_eq!(reply, line.reply, "{}, cut at {cut}", line.name);
        }
    }
}

#[test]
fn what_follows_a_refusal_that_is_met_changes_nothing() {
    for line in readings::table().iter().filter(|line| line.met) {
        for more in [
            " ",
            "]",
            "(",
            "x",
            ">>]]",
            " [/CalGray<</WhitePoint[1 1 1]>>]",
        ] {
            let reply = in_parts(line.room, [line.text.as_slice(), more.as_bytes()]);
            assert_eq!(reply, line.reply, "{} and {more}", line.name);
        }
    }
}

/// "The first byte past 4,294,967,295 bytes is 12 at that byte, before anything else there": a space, then white space
/// to just that many bytes and to one more.
#[test]
#[ignore = "reads eight thousand million bytes, which takes minutes"]
fn the_first_byte_too_many_is_12_there() {
    let most: u64 = 4_294_967_295;
    let text = b"[/CalGray<</WhitePoint[0.9505 1 1.089]>>]";
    let whole = reference::text::read(text, 1);
    let gap = vec![b' '; 1 << 20];
    for (length, expected) in [(most, whole), (most + 1, Err((12, most)))] {
        let mut reader = TextReader::new(512);
        reader.read(text);
        let mut left = length - text.len() as u64;
        while left > 0 {
            let part = left.min(gap.len() as u64);
            reader.read(&gap[..part as usize]);
            left -= part;
        }
        let reply = reader.end();
        let reply = reply.map_err(|unread| (unread.number, u64::from(unread.at)));
        assert_eq!(reply, expected, "{length} bytes");
    }
}
