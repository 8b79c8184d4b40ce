//! Faults planted in what is looked at: each has to be found.

use super::*;
use data::fields::{get, number_at, set, Layout};
use ventolaire::Table;
use Fault::{Build, OfTable, Parse, Print};

/// A fault, in one of the four functions.
#[derive(Clone, Copy, Debug)]
enum Fault {
    Parse(fn(&[u8]) -> Result<Manifest, ManifestError>),
    Print(fn(String) -> String),
    Build(fn(&Manifest) -> Built),
    OfTable(fn(Manifest) -> Manifest),
}

impl Subject for Fault {
    fn parse(&self, text: &[u8]) -> Result<Manifest, ManifestError> {
        match self {
            Fault::Parse(parse) => parse(text),
            _ => Crate.parse(text),
        }
    }

    fn print(&self, manifest: &Manifest) -> String {
        match self {
            Fault::Print(print) => print(Crate.print(manifest)),
            _ => Crate.print(manifest),
        }
    }

    fn build(&self, manifest: &Manifest) -> Built {
        match self {
            Fault::Build(build) => build(manifest),
            _ => Crate.build(manifest),
        }
    }

    fn of_table(&self, table: &Table) -> Manifest {
        match self {
            Fault::OfTable(of_table) => of_table(Crate.of_table(table)),
            _ => Crate.of_table(table),
        }
    }
}

/// Of a text with one part of it changed throughout.
fn with(text: &[u8], from: &str, to: &str) -> Result<Manifest, ManifestError> {
    // Bytes that are no text stay: each is a character here, and one byte again.
    let text: String = text.iter().map(|byte| char::from(*byte)).collect();
    let text = text.replace(from, to);
    Crate.parse(&text.chars().map(|char| char as u8).collect::<Vec<u8>>())
}

fn unread(text: &[u8], change: fn(&mut ManifestError)) -> Result<Manifest, ManifestError> {
    changed(Crate.parse(text), change)
}

fn refused(manifest: &Manifest, change: fn(&mut ManifestError)) -> Built {
    changed(manifest.build(), change)
}

/// Changes rule, record or reason of what the builder has refused.
fn broken(manifest: &Manifest, change: fn(&mut u64, &mut u64, &mut String)) -> Built {
    manifest.build().map_err(|mut error| {
        if let Problem::Broken { broken, reason, .. } = &mut error.problem {
            change(&mut broken.rule, &mut broken.record, reason);
        }
        error
    })
}

fn column(error: &mut ManifestError, more: i64) {
    let position = error.position.iter_mut();
    position.for_each(|at| at.column = at.column.saturating_add_signed(more));
}

fn line(error: &mut ManifestError, more: u64) {
    error.position.iter_mut().for_each(|at| at.line += more);
}

fn changed<T>(
    mut end: Result<T, ManifestError>,
    change: fn(&mut ManifestError),
) -> Result<T, ManifestError> {
    end.as_mut().err().map(change);
    end
}

/// Each line as a function has it. Bytes that are no text are left as they are.
fn by_line(text: &[u8], change: impl Fn(&str) -> String) -> Vec<u8> {
    let lines = text.split(|byte| *byte == b'\n').map(|line| match str::from_utf8(line) {
        Ok(line) => change(line).into_bytes(),
        Err(_) => line.to_vec(),
    });
    lines.collect::<Vec<Vec<u8>>>().join(&b'\n')
}

fn in_print(text: &str, change: impl Fn(&str) -> String) -> String {
    String::from_utf8(by_line(text.as_bytes(), change)).unwrap()
}

/// The manifest with its lines changed, if it can be built so.
fn in_manifest(manifest: &Manifest, change: impl Fn(&str) -> String) -> Manifest {
    match Manifest::parse(in_print(&manifest.to_string(), change)) {
        Ok(changed) if changed.build().is_ok() => changed,
        _ => manifest.clone(),
    }
}

fn in_image(manifest: &Manifest, change: impl Fn(&str) -> String) -> Built {
    manifest.build().and_then(|_| in_manifest(manifest, change).build())
}

/// With a word and the one behind it left out.
fn without(line: &str, word: &str) -> String {
    let words: Vec<&str> = line.split(' ').collect();
    match words.iter().skip(3).position(|other| *other == word) {
        Some(at) => [&words[..at + 3], words.get(at + 5..).unwrap_or_default()].concat().join(" "),
        None => line.into(),
    }
}

/// A second name as a file of its own.
fn hard_as_file(line: &str) -> String {
    let mut words = line.split(' ').filter(|word| !word.is_empty());
    match (words.next(), words.next()) {
        (Some("hard"), Some(path)) => format!("file  {path}"),
        _ => line.into(),
    }
}

/// Two files have their numbers exchanged where the first line comes after the last in the
/// order of bytes.
fn numbered_by_order(manifest: &Manifest) -> Built {
    let (mut image, text) = (manifest.build()?, manifest.to_string());
    let layout = Layout::of(&image);
    let node = |at: &usize| get(&image, at + 6, 2).unwrap_or_default() as usize;
    let is_file = |at: &usize| get(&image, layout.node(node(at)), 2) == Some(2);
    let entries: Vec<usize> = (0..layout.entries).map(|entry| layout.entry(entry)).collect();
    let files: Vec<usize> = entries.into_iter().filter(is_file).collect();
    if let ([one, .., other], true) = (&files[..], text.lines().next() > text.lines().last()) {
        let numbers = [node(one), node(other)];
        set(&mut image, one + 6, 2, numbers[1]);
        set(&mut image, other + 6, 2, numbers[0]);
    }
    Ok(image)
}

/// The bytes of the first name stand where the text ends, not where they belong.
fn out_of_order(manifest: &Manifest) -> Built {
    let mut image = manifest.build()?;
    let layout = Layout::of(&image);
    if layout.entries > 0 {
        let length = number_at(&image, layout.entry(0) + 4, 2);
        image[layout.text_at..].rotate_left(length);
        for at in (0..layout.entries).map(|entry| layout.entry(entry)) {
            let offset = number_at(&image, at, 4);
            set(&mut image, at, 4, (offset + layout.text - length) % layout.text);
        }
    }
    Ok(image)
}

/// A fault, words of what finds it, and where it is.
type Row = (&'static str, &'static str, Fault);

#[rustfmt::skip]
const IN_READING: &[Row] = &[
    ("a comment is taken for a body", "other words are printed", Parse(|t| with(t, " #", " \\#"))),
    ("an escape is read as its letter", "other words are printed", Parse(|t| with(t, "\\t", "t"))),
    ("a byte is read as a character", "other words are printed", Parse(|t| with(t, "\\xe9", "\\u00e9"))),
    ("a carriage return stays in a word", "other words are printed", Parse(|t| with(t, "\r\n", "\\r\n"))),
    ("a long name is cut", "other words are printed", Parse(|t| with(t, &"n".repeat(255), &"n".repeat(254)))),
    ("a tree's name is cut", "other words are printed", Parse(|t| with(t, "bb:", "b:"))),
    ("a second name is a file", "other words are printed", Parse(|t| Crate.parse(&by_line(t, hard_as_file)))),
    ("the last line is lost", "other words are printed", Parse(|t| {
        Crate.parse(&t[..t.iter().rposition(|byte| *byte == b'\n').unwrap_or(0)])
    })),
    ("the first line is taken for good", "not read; with its lines", Parse(|t| {
        Crate.parse(t).or_else(|error| match error.position {
            Some(position) if position.line == 2 => Ok(Manifest::new()),
            _ => Err(error),
        })
    })),
    ("a column is one more", "a column that is not there", Parse(|t| unread(t, |e| column(e, 1)))),
    ("a column is one more", "a column where nothing begins", Parse(|t| unread(t, |e| column(e, 1)))),
    ("a column is one less", "a column that is not there", Parse(|t| unread(t, |e| column(e, -1)))),
    ("a column is one less", "a column where nothing begins", Parse(|t| unread(t, |e| column(e, -1)))),
    ("a line is one more", "a line that is not there", Parse(|t| unread(t, |e| line(e, 9)))),
    ("an error has no position", "an error without a position", Parse(|t| unread(t, |e| e.position = None))),
    ("an error has a path", "no error of a text", Parse(|t| unread(t, |e| e.path.push(b'/')))),
    ("an error is another", "no error of a text", Parse(|t| unread(t, |e| e.problem = Problem::NoPath))),
    ("an error has two lines", "odd words", Parse(|t| unread(t, |e| {
        if let Problem::Unexpected { found, .. } = &mut e.problem { found.push('\n') }
    }))),
];

#[rustfmt::skip]
const IN_PRINTING: &[Row] = &[
    ("an escape is not printed", "other words are printed", Print(|t| t.replace("\\x", "x"))),
    ("a backslash is printed as one", "other words are printed", Print(|t| t.replace("\\\\", "\\"))),
    ("quotes are not printed", "other words are printed", Print(|t| t.replace('\'', ""))),
    ("in MOUNT is not printed", "other words are printed", Print(|t| in_print(&t, |line| without(line, "in")))),
    ("as NAME is not printed", "other words are printed", Print(|t| in_print(&t, |line| without(line, "as")))),
    ("another root is printed", "other words are printed", Print(|t| t.replace("root  /lab", "root  /"))),
    ("a character acts on a terminal", "odd characters are printed", Print(|t| t.replace("\\u202e", "\u{202e}"))),
    ("a quote stays open", "what is printed cannot be read", Print(|t| t.replace("'\n", "\n"))),
    ("a tab is printed as it is", "odd characters are printed", Print(|t| t.replace("\\t", "\\\t"))),
];

#[rustfmt::skip]
const IN_BUILDING: &[Row] = &[
    ("numbers hang on the order of lines", "built to", Build(numbered_by_order)),
    ("names stand in another order", "its own parts build", Build(out_of_order)),
    ("a body is cut", "other bodies", Build(|m| in_image(m, |line| line.replace(" ../..", " ..")))),
    ("a name is cut", "other names", Build(|m| in_image(m, |line| line.replace("/tare", "/tar")))),
    ("two bodies are exchanged", "not so in the table", Build(|m| in_image(m, |line| {
        line.replace("/loop loop", "/loop ../..").replace("/up ../..", "/up loop")
    }))),
    ("a second name is a file", "nodes, and", Build(|m| in_image(m, hard_as_file))),
    ("a magic link leads to mount 0", "magic links to mounts", Build(|m| in_image(m, |line| {
        if line.starts_with("magic") { without(line, "in") } else { line.into() }
    }))),
    ("a directory is a top", "directories with a parent", Build(|m| in_image(m, |line| {
        if line.starts_with("dir ") { without(line, "in") } else { line.into() }
    }))),
    ("an image has a byte more", "what is built", Build(|m| Ok([m.build()?, vec![0]].concat()))),
    ("what is refused is built", "what is built", Build(|m| m.build().or_else(|_| Ok(Vec::new())))),
    ("a refusal speaks of another path", "in another line", Build(|m| refused(m, |e| e.path.push(b'x')))),
    ("a refusal is of another line", "in another line", Build(|m| refused(m, |e| line(e, 1)))),
    ("a refusal is of another column", "in another column", Build(|m| refused(m, |e| column(e, 1)))),
    ("a refusal has no position", "without a line", Build(|m| refused(m, |e| e.position = None))),
    ("a refusal is another", "not so", Build(|m| refused(m, |e| e.problem = Problem::Parents))),
    ("a refusal has another rule", "not so", Build(|m| broken(m, |rule, _, _| *rule += 1))),
    ("a refusal has another record", "not so", Build(|m| broken(m, |_, record, _| *record += 1))),
    ("a reason has no words", "not so", Build(|m| broken(m, |_, _, reason| reason.clear()))),
    ("a reason has numbers", "not so", Build(|m| broken(m, |_, _, reason| reason.push_str("node 1")))),
    ("a reason has two lines", "odd words", Build(|m| broken(m, |_, _, reason| reason.push('\n')))),
    ("only what has a position is refused", "by way of its text", Build(|m| match m.build() {
        Err(error) if error.position.is_some_and(|at| at.column == 3) => Manifest::new().build(),
        end => end,
    })),
];

#[rustfmt::skip]
const IN_TABLES: &[Row] = &[
    ("second names are files", "the table's manifest builds another", OfTable(|m| in_manifest(&m, hard_as_file))),
    ("mounts lose their mount", "the table's manifest builds another", OfTable(|m| {
        in_manifest(&m, |line| without(line, "in"))
    })),
    ("the root is forgotten", "the table's manifest builds another", OfTable(|m| {
        in_manifest(&m, |line| line.replace("root ", "# "))
    })),
    ("a lost link is forgotten", "the table's manifest builds another", OfTable(|m| {
        in_manifest(&m, |line| line.replace("link  lost", "# "))
    })),
    ("a directory is described twice", "the table's manifest is refused", OfTable(|mut m| {
        m.directory("/lab").directory("/lab");
        m
    })),
    ("a path is none", "the table's manifest is refused", OfTable(|mut m| {
        m.file("lab");
        m
    })),
];

/// Whether a text of the seeds, or a damaged one, is found wrong in these words.
fn is_found(fault: &Fault, words: &str) -> bool {
    let seeds = seeds();
    let texts: Vec<&[u8]> = seeds.iter().map(|(_, text)| &text[..]).collect();
    let is_found = |text: &[u8]| wrong(fault, text).is_some_and(|wrong| wrong.contains(words));
    let damaged = |(stream, seed)| damaged(stream, seed, &texts).take(20);
    texts.iter().any(|text| is_found(text))
        || (0..).zip(&seeds).flat_map(damaged).any(|(_, text)| is_found(&text))
}

#[test]
fn each_fault_is_found() {
    let rows = [IN_READING, IN_PRINTING, IN_BUILDING, IN_TABLES].concat();
    let missed = rows.into_iter().filter(|(_, words, fault)| !is_found(fault, words));
    let missed: Vec<String> = missed.map(|(what, words, _)| format!("{what}: {words}")).collect();
    assert!(missed.is_empty(), "not found: {missed:#?}");
}
