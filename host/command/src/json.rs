//! JSON as `list` and `check` write it: fields of one object, values that are numbers, words or
//! other objects.

use std::fmt::{Display, Write};

/// An object's fields, one by one.
#[derive(Default)]
pub struct Object(String);

impl Object {
    /// A field whose value is written as it stands: a number, `true`, an object.
    pub fn plain(mut self, name: &str, value: impl Display) -> Object {
        let comma = if self.0.is_empty() { "" } else { "," };
        let _ = write!(self.0, "{comma}\"{name}\":{value}");
        self
    }

    /// A field that is a text.
    pub fn text(self, name: &str, value: impl Display) -> Object {
        let value = quoted(&value.to_string());
        self.plain(name, value)
    }

    /// The fields without the braces, to go on in the same object.
    pub fn open(self) -> String {
        self.0
    }
}

impl Display for Object {
    fn fmt(&self, f: &mut std::fmt::Formatter) -> std::fmt::Result {
        write!(f, "{{{}}}", self.0)
    }
}

fn quoted(text: &str) -> String {
    let mut quoted = String::from("\"");
    for letter in text.chars() {
        match letter {
            '"' | '\\' => quoted.extend(['\\', letter]),
            letter if letter < ' ' || letter == '\u{7f}' => {
                let _ = write!(quoted, "\\u{:04x}", u32::from(letter));
            }
            letter => quoted.push(letter),
        }
    }
    quoted.push('"');
    quoted
}

#[cfg(test)]
mod tests {
    use super::*;

    #[test]
    fn texts_are_quoted() {
        let object = Object::default().plain("a", 1).text("b", "x\"y\\z\n\u{1b}ü");
        assert_eq!(object.to_string(), r#"{"a":1,"b":"x\"y\\z\u000a\u001bü"}"#);
    }
}
