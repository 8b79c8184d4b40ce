//! JSON, read.

use std::iter::Peekable;
use std::str::Chars;

#[derive(Debug, PartialEq)]
pub enum Json {
    Object(Vec<(String, Json)>),
    List(Vec<Json>),
    Text(String),
    /// A number or a truth value, as it is written.
    Word(String),
}

impl Json {
    pub fn read(text: &str) -> Json {
        let mut chars = text.trim_end().chars().peekable();
        let json = value(&mut chars);
        assert_eq!(chars.next(), None, "{text}");
        json
    }

    pub fn get(&self, name: &str) -> Option<&Json> {
        let Json::Object(members) = self else { panic!("no object: {self:?}") };
        members.iter().find(|(other, _)| other == name).map(|(_, value)| value)
    }

    pub fn list(&self, name: &str) -> &[Json] {
        match self.get(name) {
            Some(Json::List(values)) => values,
            other => panic!("{name}: {other:?}"),
        }
    }

    pub fn text(&self, name: &str) -> &str {
        match self.get(name) {
            Some(Json::Text(text)) => text,
            other => panic!("{name}: {other:?}"),
        }
    }

    pub fn number(&self, name: &str) -> usize {
        match self.get(name) {
            Some(Json::Word(word)) => word.parse().unwrap(),
            other => panic!("{name}: {other:?}"),
        }
    }

    /// Bytes, which may be no text.
    pub fn bytes(&self, name: &str) -> Vec<u8> {
        let hex = format!("{name}_hex");
        match self.get(&hex) {
            None => self.text(name).into(),
            Some(_) => {
                let digits = self.text(&hex).as_bytes().chunks(2);
                let digits = digits.map(|pair| str::from_utf8(pair).unwrap());
                digits.map(|pair| u8::from_str_radix(pair, 16).unwrap()).collect()
            }
        }
    }
}

type Text<'a> = Peekable<Chars<'a>>;

fn value(text: &mut Text) -> Json {
    match text.peek() {
        Some('{') => Json::Object(parts(text, '}', |text| {
            let name = string(text);
            assert_eq!(text.next(), Some(':'));
            (name, value(text))
        })),
        Some('[') => Json::List(parts(text, ']', value)),
        Some('"') => Json::Text(string(text)),
        _ => {
            let mut word = String::new();
            while let Some(char) = text.next_if(|char| char.is_ascii_alphanumeric()) {
                word.push(char);
            }
            assert!(!word.is_empty(), "{text:?}");
            Json::Word(word)
        }
    }
}

/// What stands between brackets, with commas between.
fn parts<T>(text: &mut Text, end: char, part: impl Fn(&mut Text) -> T) -> Vec<T> {
    let mut parts = Vec::new();
    text.next();
    if text.next_if_eq(&end).is_some() {
        return parts;
    }
    loop {
        parts.push(part(text));
        match text.next() {
            Some(',') => {}
            other => {
                assert_eq!(other, Some(end));
                return parts;
            }
        }
    }
}

fn string(text: &mut Text) -> String {
    assert_eq!(text.next(), Some('"'));
    let mut units = Vec::new();
    loop {
        match text.next().unwrap() {
            '"' => return String::from_utf16(&units).unwrap(),
            '\\' => units.push(match text.next().unwrap() {
                'u' => {
                    let digits: String = text.take(4).collect();
                    u16::from_str_radix(&digits, 16).unwrap()
                }
                char => char as u16,
            }),
            char => units.extend_from_slice(char.encode_utf16(&mut [0; 2])),
        }
    }
}
