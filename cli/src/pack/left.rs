//! What no table can hold, and is left out.

use crate::counted::counted;
use crate::escape;
use crate::json::Object;
use std::fs::FileType;
use std::os::unix::fs::FileTypeExt;
use std::path::{Path, PathBuf};

#[derive(Clone, Copy, Debug, PartialEq, Eq)]
pub enum Reason {
    Device,
    Socket,
    Fifo,
    /// Of a kind that only its own system knows.
    Strange,
    LongName,
    LongBody,
    EmptyBody,
}

impl Reason {
    /// In the order in which they are counted.
    const ALL: [Reason; 7] = [
        Reason::Device,
        Reason::Socket,
        Reason::Fifo,
        Reason::Strange,
        Reason::LongName,
        Reason::LongBody,
        Reason::EmptyBody,
    ];

    /// Of what is neither directory, file nor link.
    pub fn of(kind: FileType) -> Self {
        match kind {
            _ if kind.is_block_device() || kind.is_char_device() => Reason::Device,
            _ if kind.is_socket() => Reason::Socket,
            _ if kind.is_fifo() => Reason::Fifo,
            _ => Reason::Strange,
        }
    }

    fn words(self) -> &'static str {
        match self {
            Reason::Device => "a device",
            Reason::Socket => "a socket",
            Reason::Fifo => "a FIFO",
            Reason::Strange => "of an unknown kind",
            Reason::LongName => "its name is too long",
            Reason::LongBody => "its body is too long",
            Reason::EmptyBody => "its body is empty",
        }
    }

    /// Of one, and of several.
    fn nouns(self) -> [&'static str; 2] {
        match self {
            Reason::Device => ["device", "devices"],
            Reason::Socket => ["socket", "sockets"],
            Reason::Fifo => ["FIFO", "FIFOs"],
            Reason::Strange => ["of an unknown kind"; 2],
            Reason::LongName => ["name too long", "names too long"],
            Reason::LongBody => ["body too long", "bodies too long"],
            Reason::EmptyBody => ["empty body", "empty bodies"],
        }
    }
}

#[derive(Default)]
pub struct Left(Vec<(PathBuf, Reason)>);

impl Left {
    pub fn add(&mut self, path: &Path, reason: Reason) {
        self.0.push((path.into(), reason));
    }

    pub fn is_empty(&self) -> bool {
        self.0.is_empty()
    }

    /// A line for each, and one that counts them.
    pub fn lines(&self) -> impl Iterator<Item = String> + '_ {
        let one = |(path, reason): &(PathBuf, Reason)| {
            format!("left out: {}: {}", escape::name(path.as_os_str()), reason.words())
        };
        self.0.iter().map(one).chain(self.sum())
    }

    fn sum(&self) -> Option<String> {
        let parts = Reason::ALL.into_iter().filter_map(|reason| {
            let count = self.0.iter().filter(|(_, other)| *other == reason).count();
            let [one, many] = reason.nouns();
            (count > 0).then(|| counted(count, one, many))
        });
        let parts: Vec<String> = parts.collect();
        let all = self.0.len();
        (all > 0).then(|| format!("{all} left out: {}", parts.join(", ")))
    }

    pub fn json(&self) -> Object {
        let one = |(path, reason): &(PathBuf, Reason)| {
            let object = Object::new().bytes("path", path.as_os_str().as_encoded_bytes());
            object.text("reason", reason.words())
        };
        Object::new().list("left_out", self.0.iter().map(one)).with("left_out_count", self.0.len())
    }
}

#[cfg(test)]
mod tests {
    use super::*;

    #[test]
    fn each_is_told_and_all_are_counted() {
        let mut left = Left::default();
        assert!(left.is_empty() && left.lines().next().is_none());
        assert_eq!(left.json().to_string(), r#"{"left_out":[],"left_out_count":0}"#);
        left.add(Path::new("lab/a\nb"), Reason::LongName);
        left.add(Path::new("lab/log"), Reason::Socket);
        left.add(Path::new("lab/sda"), Reason::Device);
        left.add(Path::new("lab/sdb"), Reason::Device);
        let lines: Vec<String> = left.lines().collect();
        let expected = [
            r"left out: lab/a\nb: its name is too long",
            "left out: lab/log: a socket",
            "left out: lab/sda: a device",
            "left out: lab/sdb: a device",
            "4 left out: 2 devices, 1 socket, 1 name too long",
        ];
        assert_eq!(lines, expected);
        let json = left.json().to_string();
        assert!(json.contains(r#"{"path":"lab/log","reason":"a socket"}"#), "{json}");
        assert!(json.ends_with(r#"],"left_out_count":4}"#), "{json}");
    }
}
