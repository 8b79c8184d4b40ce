//! Manifests, read.

use super::object::{is_name, Object};
use super::{Item, Kind, Manifest, ManifestError, Position, Problem};
use crate::text::{Quoted, WordError, Words};
use std::str::FromStr;

impl Manifest {
    /// Reads a manifest.
    ///
    /// ```
    /// use ventolaire::Manifest;
    ///
    /// let manifest = Manifest::parse(
    ///     r"
    ///     ## A laboratory, and a disk that is mounted in it.
    ///     dir   /lab
    ///     file  '/lab/first run'
    ///     link  /lab/latest 'first run'
    ///     dir   /lab/pool
    ///     dir   disk:
    ///     file  disk:/caf\xe9
    ///     mount disk: /lab/pool
    ///     ",
    /// )?;
    /// assert_eq!(manifest.build()?.len(), 20 + 7 * 12 + 2 * 8 + 5 * 8 + 35);
    /// # Ok::<(), ventolaire::ManifestError>(())
    /// ```
    pub fn parse(text: impl AsRef<[u8]>) -> Result<Self, ManifestError> {
        let mut manifest = Manifest::new();
        for (line, number) in text.as_ref().split(|byte| *byte == b'\n').zip(1..) {
            let line = line.strip_suffix(b"\r").unwrap_or(line);
            let mut reader = Reader { line, number, words: Words::of(line), end: END };
            let position = reader.position(reader.words.clone().at());
            if let Some(item) = reader.item()? {
                manifest.add(Some(position), item);
            }
        }
        Ok(manifest)
    }
}

impl FromStr for Manifest {
    type Err = ManifestError;

    fn from_str(text: &str) -> Result<Self, ManifestError> {
        Manifest::parse(text)
    }
}

const LINE: &str = "dir, file, link, magic, hard, mount or root";
const END: &str = "the line's end";

/// The most bytes of a word that are told.
const TOLD: usize = 60;

/// A line, read from left to right.
struct Reader<'a> {
    line: &'a [u8],
    number: u64,
    words: Words<'a>,
    /// What may stand behind what was read.
    end: &'static str,
}

impl Reader<'_> {
    /// What is described, if anything is.
    fn item(&mut self) -> Result<Option<Item>, ManifestError> {
        let at = self.words.at();
        let Some(word) = self.word(LINE)? else { return Ok(None) };
        let item = match &word[..] {
            b"dir" => self.node(Self::directory)?,
            b"file" => self.node(|_, _| Ok(Kind::File))?,
            b"link" => self.node(|own, _| own.wanted("a link's body").map(Kind::Link))?,
            b"magic" => self.node(Self::magic)?,
            b"hard" => Item::Hard { object: self.object()?, other: self.object()? },
            b"mount" => self.mount()?,
            b"root" => Item::Root { object: self.object()? },
            _ => return Err(self.unexpected(at, LINE, &word)),
        };
        let at = self.words.at();
        match self.word(self.end)? {
            Some(word) => Err(self.unexpected(at, self.end, &word)),
            None => Ok(Some(item)),
        }
    }

    fn node(
        &mut self,
        kind: impl FnOnce(&mut Self, &Object) -> Result<Kind, ManifestError>,
    ) -> Result<Item, ManifestError> {
        let object = self.object()?;
        let kind = kind(self, &object)?;
        Ok(Item::Node { object, kind })
    }

    fn directory(&mut self, object: &Object) -> Result<Kind, ManifestError> {
        // What has a name has a parent by it.
        let ends = if object.named().is_none() { "in or the line's end" } else { END };
        self.behind("in", ends, Self::object).map(Kind::Directory)
    }

    fn magic(&mut self, _: &Object) -> Result<Kind, ManifestError> {
        let target = self.object()?;
        let mount = self.behind("in", "in or the line's end", Self::name)?;
        Ok(Kind::Magic { target, mount })
    }

    fn mount(&mut self) -> Result<Item, ManifestError> {
        let (root, point) = (self.object()?, self.object()?);
        let parent = self.behind("in", "in, as or the line's end", Self::name)?;
        let ends = if parent.is_some() { "as or the line's end" } else { self.end };
        Ok(Item::Mount { root, point, parent, name: self.behind("as", ends, Self::name)? })
    }

    fn object(&mut self) -> Result<Object, ManifestError> {
        const PATH: &str = "a path, /.. or TREE:/..";
        let at = self.words.at();
        let word = self.wanted(PATH)?;
        let object = Object::of(&word);
        match object.is_path() {
            true => Ok(object),
            false => Err(self.unexpected(at, PATH, &word)),
        }
    }

    fn name(&mut self) -> Result<String, ManifestError> {
        const NAME: &str = "a mount's name, of letters, digits, -, _ and .";
        let at = self.words.at();
        let word = self.wanted(NAME)?;
        let name = str::from_utf8(&word).ok().filter(|_| is_name(&word));
        name.map(String::from).ok_or_else(|| self.unexpected(at, NAME, &word))
    }

    /// What stands behind a word, if that is the next. If not, this may be.
    fn behind<T>(
        &mut self,
        word: &str,
        else_end: &'static str,
        read: impl FnOnce(&mut Self) -> Result<T, ManifestError>,
    ) -> Result<Option<T>, ManifestError> {
        let mut ahead = self.words.clone();
        match ahead.next() {
            Some(Ok(next)) if next.bytes == word.as_bytes() => {
                (self.words, self.end) = (ahead, END);
                read(self).map(Some)
            }
            _ => {
                self.end = else_end;
                Ok(None)
            }
        }
    }

    fn wanted(&mut self, expected: &'static str) -> Result<Vec<u8>, ManifestError> {
        let at = self.words.at();
        let found = match self.words.rest() {
            [b'#', ..] => "found a comment",
            _ => "found the line's end",
        };
        let word = self.word(expected)?;
        word.ok_or_else(|| self.error(at, expected, found.into()))
    }

    /// The next word, if there is one before a comment and the line's end.
    fn word(&mut self, expected: &'static str) -> Result<Option<Vec<u8>>, ManifestError> {
        if self.words.rest().starts_with(b"#") {
            return Ok(None);
        }
        match self.words.next().transpose() {
            Ok(word) => Ok(word.map(|word| word.bytes)),
            Err(error) => {
                let WordError { at, .. } = error;
                Err(self.error(at, expected, format!("but {error}")))
            }
        }
    }

    fn unexpected(&self, at: usize, expected: &'static str, word: &[u8]) -> ManifestError {
        let found = match word.get(..TOLD) {
            Some(begin) if word.len() > TOLD => format!("found {}..", Quoted(begin)),
            _ => format!("found {}", Quoted(word)),
        };
        self.error(at, expected, found)
    }

    fn error(&self, at: usize, expected: &'static str, found: String) -> ManifestError {
        let position = Some(self.position(at));
        let problem = Problem::Unexpected { expected, found };
        ManifestError { position, path: Vec::new(), problem }
    }

    fn position(&self, at: usize) -> Position {
        let before = self.line[..at].utf8_chunks();
        let chars = before.map(|chunk| chunk.valid().chars().count() + chunk.invalid().len());
        Position { line: self.number, column: 1 + chars.sum::<usize>() as u64 }
    }
}
