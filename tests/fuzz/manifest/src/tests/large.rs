//! Texts of 64 KiB: none takes long, however far it passes the limits.

use super::*;
use std::time::{Duration, Instant};
use ventolaire::Table;

const LONG: usize = 65_536;

/// Numbered lines, as many as there is room for.
fn numbered(line: impl Fn(usize) -> String) -> Vec<u8> {
    let mut text = Vec::new();
    for line in (0..).map(|number| line(number) + "\n") {
        if text.len() + line.len() > LONG {
            break;
        }
        text.extend(line.bytes());
    }
    text
}

/// One word or line as often as there is room for it.
fn repeated(before: &str, part: &str) -> Vec<u8> {
    (before.to_string() + &part.repeat((LONG - before.len()) / part.len())).into_bytes()
}

/// A text by what is in it.
type Shape = (&'static str, Vec<u8>);

fn of_lines() -> Vec<Shape> {
    let body = "b".repeat(4_080);
    vec![
        ("tops", numbered(|n| format!("dir {n}:"))),
        ("files", numbered(|n| format!("file /{n}"))),
        ("files of a nameless directory", numbered(|n| format!("file {n}:"))),
        ("few long bodies", numbered(|n| format!("link /{n} {body}"))),
        (
            "directories, each in the last",
            numbered(|n| match n {
                0 => "dir 0:".into(),
                _ => format!("dir {n}: in {}:", n - 1),
            }),
        ),
        ("directories, each in the next", numbered(|n| format!("dir {n}: in {}:", n + 1))),
        (
            "deep directories with their mounts",
            numbered(|n| match n % 2 {
                0 => format!("dir {}: in {n}:", n + 2),
                _ => format!("mount {}: /", n + 1),
            }),
        ),
        (
            "deep directories with magic links to them",
            numbered(|n| match (n, n % 2) {
                (0, _) => "dir 0: in /".into(),
                (_, 0) => format!("dir {n}: in {}:", n - 2),
                _ => format!("magic /{n} {}:", n - 1),
            }),
        ),
    ]
}

fn of_mounts_and_names() -> Vec<Shape> {
    vec![
        ("mounts on one place", repeated("", "mount / /\n")),
        ("mounts, each in the last", numbered(|n| format!("mount / / in {n} as {}", n + 1))),
        ("mounts, each in the next", numbered(|n| format!("mount / / in {} as {n}", n + 1))),
        (
            "second names of one file",
            numbered(|n| match n {
                0 => "file /f".into(),
                _ => format!("hard /{n} /f"),
            }),
        ),
        ("second names, each of the last", numbered(|n| format!("hard /{} /{n}", n + 1))),
        ("one path again and again", repeated("", "dir /a\n")),
    ]
}

fn of_words() -> Vec<Shape> {
    vec![
        ("line ends", repeated("", "\n")),
        ("blanks", repeated("", " ")),
        ("a comment", repeated("", "#")),
        ("slashes", repeated("dir ", "/")),
        ("names in one path", repeated("dir ", "/a")),
        ("a name", repeated("file /", "n")),
        ("a body", repeated("link /a ", "b")),
        ("quotes", repeated("link /a ", "''")),
        ("words", repeated("dir /a ", "in ")),
        ("escapes", repeated("file /", "\\xff")),
        ("bytes that are no text", [&b"file /"[..], &[0xff; LONG - 6]].concat()),
        ("an error behind many characters", repeated("file /a ", "é")),
        ("an escape cut behind many", [&repeated("link /a ", "\\u00e9")[..], b"\\"].concat()),
    ]
}

fn shapes() -> impl Iterator<Item = Shape> {
    of_lines().into_iter().chain(of_mounts_and_names()).chain(of_words())
}

/// Reads a text, builds it, and makes a manifest of the table, as far as each goes.
fn through(text: &[u8]) -> Option<usize> {
    let image = Manifest::parse(text).ok()?.build().ok()?;
    Some(Manifest::try_from(&Table::new(&image).ok()?).ok()?.to_string().len())
}

#[test]
fn no_text_takes_long() {
    for (shape, text) in shapes() {
        let start = Instant::now();
        through(&text);
        let took = start.elapsed();
        assert!(took < Duration::from_secs(1), "{shape}: {took:?}");
        assert_eq!(wrong(&Crate, &text), None, "{shape}");
    }
}

/// Images that pass the limits are refused where they do.
#[test]
fn long_texts_break_rules_1_and_3() {
    for (shape, rule) in [("few long bodies", 1), ("tops", 1), ("mounts on one place", 3)] {
        let text = shapes().find(|(name, _)| *name == shape).unwrap().1;
        let error = Manifest::parse(&text).unwrap().build().unwrap_err();
        let Problem::Broken { broken, .. } = &error.problem else { panic!("{error}") };
        assert_eq!(broken.rule, rule, "{error}");
    }
}
