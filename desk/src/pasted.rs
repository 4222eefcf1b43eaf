//! What stands where a text was refused. Of arrays pasted from real documents most hold what a text may not: it is named.

/// A word of a text: regular characters, with a slash before them where it is a name. A bracket or another delimiter is a word by itself.
type Word<'a> = &'a [u8];

fn is_white(b: u8) -> bool {
    matches!(b, 0 | 9 | 10 | 12 | 13 | 32)
}

fn is_regular(b: u8) -> bool {
    !is_white(b) && !b"()<>[]{}/%".contains(&b)
}

/// The word that begins at the first byte that is not white, and what stands after it.
fn word_at(text: &[u8]) -> Option<(Word<'_>, &[u8])> {
    let text = &text[text.iter().position(|b| !is_white(*b))?..];
    let slash = usize::from(text[0] == b'/');
    let regular = text[slash..].iter().take_while(|b| is_regular(**b)).count();
    Some(text.split_at((slash + regular).max(1)))
}

/// The word that ends at the last byte that is not white, and what stands before it.
fn word_before(text: &[u8]) -> Option<(Word<'_>, &[u8])> {
    let end = text.iter().rposition(|b| !is_white(*b))? + 1;
    let text = &text[..end];
    let regular = text.iter().rev().take_while(|b| is_regular(**b)).count();
    let mut start = (end - regular).min(end - 1);
    if regular > 0 && start > 0 && text[start - 1] == b'/' {
        start -= 1;
    }
    Some((&text[start..], &text[..start]))
}

/// A place in a text: the word there, and the nearest two on either side.
struct Around<'a> {
    words: [Word<'a>; 5],
}

impl<'a> Around<'a> {
    fn of(text: &'a [u8], at: usize) -> Self {
        let (mut before, mut after) = text.split_at(at.min(text.len()));
        let mut words: [Word<'a>; 5] = [b""; 5];
        for word in &mut words[2..] {
            if let Some((found, rest)) = word_at(after) {
                (*word, after) = (found, rest);
            }
        }
        for word in words[..2].iter_mut().rev() {
            if let Some((found, rest)) = word_before(before) {
                (*word, before) = (found, rest);
            }
        }
        Around { words }
    }

    /// The three words, among those that have the place, of which the last is this and the others are whole numbers.
    fn numbered(&self, last: &[u8]) -> Option<String> {
        let whole = |word: Word<'_>| !word.is_empty() && word.iter().all(u8::is_ascii_digit);
        let mut triples = self.words.windows(3);
        let found = triples.find(|t| whole(t[0]) && whole(t[1]) && t[2] == last)?;
        let found: Vec<_> = found.iter().map(|w| String::from_utf8_lossy(w)).collect();
        Some(found.join(" "))
    }

    fn here(&self) -> Word<'a> {
        self.words[2]
    }
}

/// What the words at a refusal are, where they are something that no text may have.
pub(crate) fn notes(text: &[u8], at: usize) -> Vec<String> {
    if at >= text.len() {
        return vec![
            "this is the end of the text: something is not closed, or there is no space".into(),
        ];
    }
    let around = Around::of(text, at);
    let mut notes = Vec::new();
    if let Some(reference) = around.numbered(b"R") {
        notes.push(format!(
            "{reference} is an indirect reference, to an object elsewhere in the document: write the object itself in its place"
        ));
    }
    if let Some(header) = around.numbered(b"obj") {
        notes.push(format!(
            "{header} begins an object of a document: leave it out, and endobj with it"
        ));
    }
    notes.extend(named(around.here()).map(str::to_string));
    notes.extend(function(&around));
    notes
}

/// What a name is that no text may have.
fn named(word: Word<'_>) -> Option<&'static str> {
    match word {
        b"/ICCBased" => Some("ICCBased spaces are not carried: write the CalGray, CalRGB, Lab or device space that stands for it"),
        b"/Pattern" => Some("Pattern spaces are not carried"),
        b"/Range" => Some("a Range stands here: only a Lab space has one, and a function of a text has none"),
        b"endobj" | b"stream" | b"endstream" => Some("a word of a document's objects: only arrays stand in a text"),
        _ => None,
    }
}

/// That a function is of a type that no text has: where its type stands, or a key that only that type has.
fn function(around: &Around<'_>) -> Option<String> {
    let of = |kind: &str, what: &str| {
        let words = "a text has functions of type 2, exponential ones, alone";
        Some(format!("a function of type {kind} ({what}): {words}"))
    };
    let typed = around.words[1] == b"/FunctionType";
    match around.here() {
        b"0" if typed => of("0", "sampled"),
        b"3" if typed => of("3", "stitching"),
        b"4" if typed => of("4", "a calculator's program"),
        b"/Size" | b"/BitsPerSample" | b"/Decode" | b"/Order" => of("0", "sampled"),
        b"/Functions" | b"/Bounds" => of("3", "stitching"),
        b"/Encode" => of("0 or 3", "sampled or stitching"),
        b"{" => of("4", "a calculator's program"),
        _ => None,
    }
}

#[cfg(test)]
mod tests {
    use super::*;

    /// The notes at the place that the library names.
    fn noted(text: &str) -> String {
        let unread = crate::texts::page_of(text.as_bytes()).unwrap_err();
        notes(text.as_bytes(), unread.at as usize).join("; ")
    }

    /// Texts that are refused, and a part of what is noted.
    const PASTED: &[(&str, &str)] = &[
        (
            "[/Indexed 12 0 R 255 <00>]",
            "12 0 R is an indirect reference",
        ),
        (
            "[/Indexed /DeviceRGB 1 14 0 R]",
            "14 0 R is an indirect reference",
        ),
        ("[/Separation /Gold 12 0 R 13 0 R]", "12 0 R is an indirect"),
        (
            "[/Separation /Gold /DeviceCMYK 13 0 R]",
            "13 0 R is an indirect",
        ),
        ("[/CalRGB 8 0 R]", "8 0 R is an indirect"),
        (
            "[/CalGray<</WhitePoint[1 1 1]/Gamma 7 0 R>>]",
            "7 0 R is an indirect",
        ),
        ("[/CalGray<</WhitePoint 5 0 R>>]", "5 0 R is an indirect"),
        ("[/ICCBased 12 0 R]", "ICCBased spaces are not carried"),
        ("[/Indexed [/ICCBased 12 0 R] 1 <00 01>]", "ICCBased"),
        (
            "12 0 obj [/CalGray<</WhitePoint[1 1 1]>>] endobj",
            "12 0 obj begins",
        ),
        (
            "[/Separation/G/DeviceGray<</FunctionType 0>>]",
            "type 0 (sampled)",
        ),
        (
            "[/Separation/G/DeviceGray<</FunctionType 3>>]",
            "type 3 (stitching)",
        ),
        (
            "[/Separation/G/DeviceGray<</FunctionType 4>>]",
            "type 4 (a calc",
        ),
        (
            "[/Separation/G/DeviceGray<</FunctionType 2/Domain[0 1]/N 1/Range[0 1]>>]",
            "a Range stands here",
        ),
        ("[/Separation/G/DeviceGray<</Size[2]>>]", "type 0"),
        ("[/Separation/G/DeviceGray<</Functions[]>>]", "type 3"),
        ("[/Pattern]", "Pattern"),
        ("[/CalGray", "the end of the text"),
        ("", "there is no space"),
    ];

    #[test]
    fn what_real_documents_hold_is_named() {
        for (text, expected) in PASTED {
            let noted = noted(text);
            assert!(noted.contains(expected), "{text}: {noted}");
        }
        assert_eq!(noted("[/CalGray<</WhitePoint[1 1 1]/Gamma 1,8>>]"), "");
    }

    #[test]
    fn any_place_of_any_bytes_has_its_words() {
        let text = b"/ / [12 0 R] << ( \0 > 0 R /x";
        for at in 0..=text.len() {
            notes(text, at);
        }
        assert_eq!(Around::of(text, 5).words[2], b"12");
    }
}
