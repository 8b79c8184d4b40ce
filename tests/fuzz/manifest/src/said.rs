//! The words of a text that was accepted, read a second time: by this file alone, so that a word
//! that the crate reads or prints otherwise is seen.

/// What a text says.
pub struct Said {
    pub lines: Vec<Line>,
}

/// A line that describes something.
pub struct Line {
    /// The first of the text is 1.
    pub number: u64,
    /// Each path as [`path`] has it.
    pub words: Vec<Vec<u8>>,
}

impl Said {
    pub fn of(text: &[u8]) -> Self {
        let lines = text.split(|byte| *byte == b'\n').zip(1..);
        let lines = lines.map(|(line, number)| Line::of(line, number));
        Said { lines: lines.filter(|line| !line.words.is_empty()).collect() }
    }

    pub fn words(&self) -> impl Iterator<Item = &Vec<Vec<u8>>> {
        self.lines.iter().map(|line| &line.words)
    }

    /// The lines of one kind.
    pub fn of_kind<'a>(&'a self, kind: &'a str) -> impl Iterator<Item = &'a Line> {
        self.lines.iter().filter(move |line| line.kind() == kind.as_bytes())
    }

    /// The lines that describe what has a path, second names too.
    pub fn objects(&self) -> impl Iterator<Item = &Line> {
        self.lines.iter().filter(|line| !matches!(line.kind(), b"mount" | b"root"))
    }

    /// The line that describes a path.
    pub fn about(&self, path: &[u8]) -> Option<&Line> {
        self.objects().find(|line| line.word(1) == path)
    }

    /// How many nodes there are: the main tree's top need not be described.
    pub fn nodes(&self) -> usize {
        let second = self.of_kind("hard").count();
        let top = self.about(b"").is_none_or(|line| line.kind() == b"hard");
        self.objects().count() - second + usize::from(top)
    }

    /// The last names, those of the entries.
    pub fn names(&self) -> impl Iterator<Item = &[u8]> {
        self.objects().filter_map(|line| {
            let slash = line.word(1).iter().rposition(|byte| *byte == b'/')?;
            Some(&line.word(1)[slash + 1..])
        })
    }
}

impl Line {
    fn of(line: &[u8], number: u64) -> Self {
        let mut words = words(line.strip_suffix(b"\r").unwrap_or(line));
        let paths = match words.first().map_or(&b""[..], |word| word) {
            b"hard" | b"mount" | b"magic" => [1, 2],
            b"dir" => [1, 3],
            _ => [1, 1],
        };
        for at in paths {
            if let Some(word) = words.get_mut(at) {
                *word = path(word);
            }
        }
        Line { number, words }
    }

    pub fn kind(&self) -> &[u8] {
        self.word(0)
    }

    /// The word of a number; empty if it is not there.
    pub fn word(&self, number: usize) -> &[u8] {
        self.words.get(number).map_or(b"", |word| word)
    }

    /// What stands behind "in" or "as".
    pub fn behind(&self, word: &str) -> Option<&[u8]> {
        let from = match self.kind() {
            b"dir" => 2,
            _ => 3,
        };
        let mut pairs = self.words.get(from..)?.chunks_exact(2);
        pairs.find(|pair| pair[0] == word.as_bytes()).map(|pair| &pair[1][..])
    }
}

/// A path's tree, and each name behind a slash.
fn path(word: &[u8]) -> Vec<u8> {
    let mut pieces = word.split(|byte| *byte == b'/');
    let tree = pieces.next().unwrap_or_default().to_vec();
    pieces.filter(|name| !name.is_empty()).fold(tree, |mut path, name| {
        path.push(b'/');
        path.extend(name);
        path
    })
}

/// The words of a line up to a comment.
fn words(line: &[u8]) -> Vec<Vec<u8>> {
    let (mut words, mut rest) = (Vec::new(), line);
    loop {
        rest = past_blanks(rest);
        if matches!(rest, [] | [b'#', ..]) {
            return words;
        }
        let (word, behind) = word(rest);
        words.push(word);
        rest = behind;
    }
}

fn past_blanks(text: &[u8]) -> &[u8] {
    let blanks = text.iter().take_while(|byte| matches!(byte, b' ' | b'\t')).count();
    &text[blanks..]
}

/// The word at the start, and what is behind it.
fn word(mut rest: &[u8]) -> (Vec<u8>, &[u8]) {
    let (mut word, mut open) = (Vec::new(), None);
    while let [first, behind @ ..] = rest {
        rest = behind;
        match (first, open) {
            (b' ' | b'\t', None) => break,
            (b'\\', _) => rest = escape(behind, &mut word),
            (b'\'' | b'"', None) => open = Some(first),
            (first, Some(quote)) if first == quote => open = None,
            _ => word.push(*first),
        }
    }
    (word, rest)
}

/// Reads an escape into a word: what is behind it.
fn escape<'a>(text: &'a [u8], word: &mut Vec<u8>) -> &'a [u8] {
    let Some((letter, behind)) = text.split_first() else { return text };
    let digits = match letter {
        b'x' => 2,
        b'u' => 4,
        b'U' => 8,
        _ => 0,
    };
    let (number, rest) = behind.split_at(digits.min(behind.len()));
    let number =
        str::from_utf8(number).ok().and_then(|digits| u32::from_str_radix(digits, 16).ok());
    match (letter, number) {
        (b'x', Some(number)) => word.push(number as u8),
        (b'u' | b'U', Some(number)) => word.extend(char::from_u32(number).map_or(vec![], utf8)),
        (b'n', _) => word.push(b'\n'),
        (b'r', _) => word.push(b'\r'),
        (b't', _) => word.push(b'\t'),
        _ => word.push(*letter),
    }
    rest
}

fn utf8(char: char) -> Vec<u8> {
    char.to_string().into_bytes()
}
