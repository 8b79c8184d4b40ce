//! JSON, written.

use std::fmt::{self, Display, Write};
use ventolaire::text::is_hidden;
use ventolaire::Place;

/// An object, by the members written so far.
#[derive(Default)]
pub struct Object(String);

impl Object {
    pub fn new() -> Self {
        Object::default()
    }

    /// With a member of which the value prints as JSON: a number, a truth value, an
    /// object.
    pub fn with(mut self, name: &str, value: impl Display) -> Self {
        let comma = if self.0.is_empty() { "" } else { "," };
        // Writing to a string does not fail, here and below.
        let _ = write!(self.0, "{comma}\"{name}\":{value}");
        self
    }

    pub fn text(self, name: &str, value: &str) -> Self {
        self.with(name, quoted(value))
    }

    /// With bytes as a string. Of bytes that are no UTF-8, each part that is none
    /// becomes U+FFFD, and all are told by a second member, in hexadecimal.
    pub fn bytes(self, name: &str, value: &[u8]) -> Self {
        let object = self.text(name, &String::from_utf8_lossy(value));
        match str::from_utf8(value) {
            Ok(_) => object,
            Err(_) => {
                let hex: String = value.iter().map(|byte| format!("{byte:02x}")).collect();
                object.text(&format!("{name}_hex"), &hex)
            }
        }
    }

    pub fn place(self, name: &str, place: Place) -> Self {
        self.with(name, Object::new().with("mount", place.mount).with("node", place.node))
    }

    pub fn list<T: Display>(self, name: &str, values: impl Iterator<Item = T>) -> Self {
        let values: Vec<String> = values.map(|value| value.to_string()).collect();
        self.with(name, format_args!("[{}]", values.join(",")))
    }

    /// With the members of another.
    pub fn and(mut self, other: Object) -> Self {
        if !self.0.is_empty() && !other.0.is_empty() {
            self.0.push(',');
        }
        self.0.push_str(&other.0);
        self
    }
}

impl Display for Object {
    fn fmt(&self, f: &mut fmt::Formatter) -> fmt::Result {
        write!(f, "{{{}}}", self.0)
    }
}

/// A string.
pub fn quoted(text: &str) -> String {
    let mut json = String::from('"');
    for char in text.chars() {
        match char {
            '"' | '\\' => json.extend(['\\', char]),
            _ if is_hidden(char) => {
                for unit in char.encode_utf16(&mut [0; 2]) {
                    let _ = write!(json, "\\u{unit:04x}");
                }
            }
            _ => json.push(char),
        }
    }
    json.push('"');
    json
}

#[cfg(test)]
mod tests {
    use super::*;

    #[test]
    fn strings_are_escaped() {
        assert_eq!(quoted("a\"\\/é"), r#""a\"\\/é""#);
        assert_eq!(quoted("\n\x1b\u{202e}\u{e0041}"), r#""\u000a\u001b\u202e\udb40\udc41""#);
    }

    #[test]
    fn bytes_lose_nothing() {
        let object = Object::new().bytes("a", b"x").bytes("b", b"x\xff");
        assert_eq!(object.to_string(), "{\"a\":\"x\",\"b\":\"x\u{fffd}\",\"b_hex\":\"78ff\"}");
        let object = Object::new().and(Object::new().list("c", [1, 2].iter()));
        assert_eq!(object.and(Object::new()).to_string(), r#"{"c":[1,2]}"#);
    }
}
