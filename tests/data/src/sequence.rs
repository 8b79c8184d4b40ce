//! Calls on descriptors, and how `compare replay` takes them.

use crate::{hex, unhex};
use std::fmt;
use std::str::FromStr;

/// One call of a sequence.
#[derive(Clone, Debug, PartialEq, Eq)]
pub enum Step {
    Open(Open),
    Dup(u64),
    Close(u64),
    SetMark(u64),
}

#[derive(Clone, Debug, Default, PartialEq, Eq)]
pub struct Open {
    pub number: u64,
    /// Whether the mark is asked for.
    pub mark: bool,
    pub path: Vec<u8>,
    pub how: Vec<u8>,
    /// What a second open that is compared with this one adds: bits of resolve, and
    /// the mark of its number.
    pub added: u64,
    pub added_mark: bool,
}

impl Step {
    /// The call's name.
    pub fn name(&self) -> &'static str {
        match self {
            Step::Open(_) => "open",
            Step::Dup(_) => "dup",
            Step::Close(_) => "close",
            Step::SetMark(_) => "set_mark",
        }
    }

    /// The descriptor that it is about.
    pub fn number(&self) -> u64 {
        match self {
            Step::Open(open) => open.number,
            Step::Dup(number) | Step::Close(number) | Step::SetMark(number) => *number,
        }
    }

    pub fn number_mut(&mut self) -> &mut u64 {
        match self {
            Step::Open(open) => &mut open.number,
            Step::Dup(number) | Step::Close(number) | Step::SetMark(number) => number,
        }
    }
}

/// Its name and number, parted by colons; of an open also whether the mark is asked for,
/// path and open_how in hexadecimal, and what a second one adds, if it adds something.
impl fmt::Display for Step {
    fn fmt(&self, f: &mut fmt::Formatter) -> fmt::Result {
        write!(f, "{}:{}", self.name(), self.number())?;
        let Step::Open(open) = self else { return Ok(()) };
        write!(f, ":{}:{}:{}", u8::from(open.mark), hex(&open.path), hex(&open.how))?;
        if open.added != 0 || open.added_mark {
            write!(f, ":{}:{}", open.added, u8::from(open.added_mark))?;
        }
        Ok(())
    }
}

/// The same read. The error is one line.
impl FromStr for Step {
    type Err = String;

    fn from_str(text: &str) -> Result<Step, String> {
        let parts: Vec<&str> = text.split(':').collect();
        let step = match parts[..] {
            ["dup", number] => number.parse().ok().map(Step::Dup),
            ["close", number] => number.parse().ok().map(Step::Close),
            ["set_mark", number] => number.parse().ok().map(Step::SetMark),
            ["open", number, mark, path, how] => open([number, mark, path, how, "0", "0"]),
            ["open", number, mark, path, how, added, added_mark] => {
                open([number, mark, path, how, added, added_mark])
            }
            _ => None,
        };
        step.ok_or_else(|| format!("{text} is no call on descriptors"))
    }
}

fn open([number, mark, path, how, added, added_mark]: [&str; 6]) -> Option<Step> {
    let flag = |text: &str| match text {
        "0" => Some(false),
        "1" => Some(true),
        _ => None,
    };
    Some(Step::Open(Open {
        number: number.parse().ok()?,
        mark: flag(mark)?,
        path: unhex(path)?,
        how: unhex(how)?,
        added: added.parse().ok()?,
        added_mark: flag(added_mark)?,
    }))
}

/// Calls as one argument, parted by commas.
pub fn written(steps: &[Step]) -> String {
    steps.iter().map(Step::to_string).collect::<Vec<String>>().join(",")
}

/// The same read.
pub fn read(text: &str) -> Result<Vec<Step>, String> {
    if text.is_empty() {
        return Ok(Vec::new());
    }
    text.split(',').map(str::parse).collect()
}

#[cfg(test)]
mod tests {
    use super::*;

    #[test]
    fn what_is_written_is_read() {
        let open = Open { number: 3, path: b"a/b".to_vec(), ..Open::default() };
        let second = Open { added: 9, added_mark: true, mark: true, ..open.clone() };
        let steps = [
            Step::Open(open),
            Step::Open(second),
            Step::Dup(0),
            Step::Close(u64::MAX),
            Step::SetMark(64),
        ];
        let text = written(&steps);
        assert_eq!(
            text,
            "open:3:0:612f62:,open:3:1:612f62::9:1,dup:0,close:18446744073709551615,set_mark:64"
        );
        assert_eq!(read(&text).unwrap(), steps);
        assert_eq!(read("").unwrap(), []);
    }

    #[test]
    fn other_texts_are_refused() {
        for text in ["dup", "dup:", "dup:-1", "dup:1:2", "open:0", "open:0:2::", "open:0:0:6:", ","]
        {
            let fault = read(text).unwrap_err();
            assert!(fault.ends_with("is no call on descriptors"), "{fault}");
        }
        assert!(read("open:0:0:zz:").is_err() && read("open:0:0:::0:2").is_err());
    }
}
