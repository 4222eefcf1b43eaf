//! The second implementation replies to each text of the table as was worked out by hand.

use reference::text::{read, readings};
use std::collections::BTreeSet;

#[test]
fn each_reading_is_replied_to() {
    let table = readings::table();
    let differ: Vec<String> = table
        .iter()
        .filter_map(|line| {
            let reply = read(&line.text, line.room / 512);
            (reply != line.reply).then(|| {
                let text = String::from_utf8_lossy(&line.text);
                let short = |reply: Result<Vec<u8>, _>| reply.map(|page| page.len() / 512);
                let (found, expected) = (short(reply), short(line.reply.clone()));
                format!("{}: {found:?} and not {expected:?}: {text:.200}", line.name)
            })
        })
        .collect();
    assert!(differ.is_empty(), "{}", differ.join("\n"));
    let numbers: BTreeSet<u32> = table
        .iter()
        .filter_map(|line| Some(line.reply.as_ref().err()?.0))
        .collect();
    assert!(numbers.iter().eq(&[4, 5, 6, 7, 10, 12, 13, 14, 15]));
}

#[test]
fn what_follows_a_refusal_that_is_met_changes_nothing() {
    for line in readings::table().iter().filter(|line| line.met) {
        for more in [
            " ",
            "]",
            "(",
            "x",
            ">>]]",
            " [/CalGray<</WhitePoint[1 1 1]>>]",
        ] {
            let longer = [&line.text, more.as_bytes()].concat();
            let reply = read(&longer, line.room / 512);
            assert_eq!(reply, line.reply, "{} and {more}", line.name);
        }
    }
}
