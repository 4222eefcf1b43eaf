//! Objects to a line, with their keys in a fixed order.

use std::fmt::Write;

/// A text as a JSON string.
pub(crate) fn string(text: &str) -> String {
    let mut made = String::from("\"");
    for c in text.chars() {
        match c {
            '"' => made.push_str("\\\""),
            '\\' => made.push_str("\\\\"),
            '\n' => made.push_str("\\n"),
            '\t' => made.push_str("\\t"),
            c if c < ' ' || c == '\u{7f}' => {
                let _ = write!(made, "\\u{:04x}", c as u32);
            }
            c => made.push(c),
        }
    }
    made.push('"');
    made
}

/// A list of what is already JSON.
pub(crate) fn list<T: ToString>(values: impl IntoIterator<Item = T>) -> String {
    let values: Vec<String> = values.into_iter().map(|v| v.to_string()).collect();
    format!("[{}]", values.join(","))
}

/// An object that is being written, key by key.
pub(crate) struct Object(String);

impl Object {
    pub fn new() -> Self {
        Object(String::from("{"))
    }

    /// A key whose value is already JSON.
    pub fn raw(mut self, key: &str, value: &str) -> Self {
        if self.0.len() > 1 {
            self.0.push(',');
        }
        self.0.push_str(&string(key));
        self.0.push(':');
        self.0.push_str(value);
        self
    }

    pub fn text(self, key: &str, value: &str) -> Self {
        let value = string(value);
        self.raw(key, &value)
    }

    pub fn number(self, key: &str, value: i64) -> Self {
        self.raw(key, &value.to_string())
    }

    pub fn truth(self, key: &str, value: bool) -> Self {
        self.raw(key, if value { "true" } else { "false" })
    }

    /// The object, to stand in another.
    pub fn whole(mut self) -> String {
        self.0.push('}');
        self.0
    }

    /// The object, on a line.
    pub fn line(self) -> String {
        self.whole() + "\n"
    }
}

#[cfg(test)]
mod tests {
    use super::*;

    #[test]
    fn keys_stand_in_order_and_texts_are_escaped() {
        let object = Object::new().text("a", "x\"\\\n\u{1}").number("b", -1);
        assert_eq!(object.line(), "{\"a\":\"x\\\"\\\\\\n\\u0001\",\"b\":-1}\n");
        assert_eq!(list([1, 2]), "[1,2]");
        assert_eq!(Object::new().truth("t", true).whole(), "{\"t\":true}");
    }
}
