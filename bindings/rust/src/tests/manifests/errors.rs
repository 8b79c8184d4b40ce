//! Manifests that no records can be made of.

use super::{error, told};
use crate::text::Quoted;
use crate::*;

fn expect(rows: &[(&str, &str)]) {
    for (text, words) in rows {
        assert_eq!(told(text), *words, "{text}");
    }
}

#[test]
fn what_is_described_twice_is_told_with_its_first_line() {
    let first = "it is described already, in line";
    for (text, words) in [
        ("dir /a\ndir /a", format!("line 2, column 1: /a: {first} 1, column 1")),
        ("  file /a\n\n hard /a/ /b", format!("line 3, column 2: /a: {first} 1, column 3")),
        ("file /a\nlink //a// x", format!("line 2, column 1: /a: {first} 1, column 1")),
        ("# x\ndir /\nmagic / /", format!("line 3, column 1: /: {first} 2, column 1")),
        ("dir d:\nfile d:/", format!("line 2, column 1: d: {first} 1, column 1")),
        ("hard /x /y\nhard /x /z", format!("line 2, column 1: /x: {first} 1, column 1")),
        ("dir '/a b'\ndir /a\\ b", format!("line 2, column 1: '/a b': {first} 1, column 1")),
    ] {
        assert_eq!(told(text), words, "{text}");
    }
    let mut manifest = Manifest::parse("dir /a").unwrap();
    let words = "/a: it is described already, in line 1, column 1";
    assert_eq!(manifest.file("/a").build().unwrap_err().to_string(), words);
    let error = Manifest::new().file("/a").file("/a").build().unwrap_err();
    assert_eq!(error.to_string(), "/a: it is described twice");
    assert_eq!((error.problem, error.position), (Problem::Twice(None), None));
}

#[test]
fn what_is_in_no_directory_is_told() {
    expect(&[
        ("file /lab/run", "line 1, column 1: /lab/run: no directory /lab is described"),
        ("file d:/x", "line 1, column 1: d:/x: no directory d: is described"),
        ("dir /a\nfile /a/b/c", "line 2, column 1: /a/b/c: no directory /a/b is described"),
        ("dir s: in /n", "line 1, column 1: s: no directory /n is described"),
        ("file /a\nfile /a/b", "line 2, column 1: /a/b: /a is no directory"),
        ("link /a/b x\nlink /a .", "line 1, column 1: /a/b: /a is no directory"),
        ("magic /a /\ndir /a/b", "line 2, column 1: /a/b: /a is no directory"),
        ("file d:\nhard d:/b d:", "line 2, column 1: d:/b: d: is no directory"),
        ("file /\nfile /a", "line 2, column 1: /a: / is no directory"),
        ("file /f\n dir s: in /f", "line 2, column 2: s: /f is no directory"),
        ("dir /a\nhard /b /a\nfile /b/x", "line 3, column 1: /b/x: /b is a second name"),
        ("dir /a\nhard /b /a\ndir s: in /b", "line 3, column 1: s: /b is a second name"),
        ("dir /x in /y\ndir /y", "line 1, column 1: /x: it has a name, and needs no parent"),
        ("dir d:/x in d:\ndir d:", "line 1, column 1: d:/x: it has a name, and needs no parent"),
    ]);
    let problem = |text| error(text).problem;
    assert_eq!(problem("file /lab/run"), Problem::NoDirectory(b"/lab".into()));
    assert_eq!(problem("file /\nfile /a"), Problem::NotDirectory(b"/".into()));
    assert_eq!(problem("dir /x in /"), Problem::Parents);
}

#[test]
fn what_nothing_describes_is_told() {
    expect(&[
        ("hard /a /b", "line 1, column 1: /a: nothing describes /b"),
        ("magic /a d:", "line 1, column 1: /a: nothing describes d:"),
        ("dir /x\nmount d: /x", "line 2, column 1: /x: nothing describes d:"),
        ("mount / '/a b'", "line 1, column 1: '/a b': nothing describes '/a b'"),
        ("root /x", "line 1, column 1: /x: nothing describes /x"),
        ("hard /a /b\nhard /b /c", "line 1, column 1: /a: /b is a second name"),
        ("file /a\nhard /b /a\nhard /c /b", "line 3, column 1: /c: /b is a second name"),
        ("hard /a /a", "line 1, column 1: /a: /a is a second name"),
        ("hard /a /b\nmagic /m /a", "line 1, column 1: /a: nothing describes /b"),
        ("hard / /x\nfile /x", "line 1, column 1: /: it has no name, and cannot be a second one"),
        ("file /x\nhard s: /x", "line 2, column 1: s: it has no name, and cannot be a second one"),
    ]);
    assert_eq!(error("magic /a d:").problem, Problem::NoObject(b"d:".into()));
    assert_eq!(error("hard /a /a").problem, Problem::SecondName(b"/a".into()));
    assert_eq!(error("hard /// /x").problem, Problem::Nameless);
    assert_eq!(error("hard /// /x").path, b"/");
}

#[test]
fn mounts_and_roots_are_told() {
    expect(&[
        ("dir /x\nmount / /x in pool", "line 2, column 1: /x: no mount is named pool"),
        ("magic /m / in pool", "line 1, column 1: /m: no mount is named pool"),
        (
            "dir /x\ndir /y\nmount / /x as p\nmount / /y as p",
            "line 4, column 1: /y: two mounts are named p",
        ),
        (
            "dir /x\nroot /x\n root /",
            "line 3, column 2: /: the root is given already, in line 2, column 1",
        ),
    ]);
    let problem = |text| error(text).problem;
    assert_eq!(problem("magic /m / in pool"), Problem::NoMount("pool".into()));
    let twice = "dir /x\nmount / /x as p\nmount / /x as p";
    assert_eq!(problem(twice), Problem::MountTwice("p".into()));
    let error = Manifest::new().root("/").root("/").build().unwrap_err();
    assert_eq!(error.to_string(), "/: the root is given twice");
    // The first line that is wrong is told.
    assert!(told("file /a/b\ndir /c\ndir /c").starts_with("line 3"));
}

/// What no text can have, but a program may ask for.
#[test]
fn paths_of_programs_are_told() {
    let words = |manifest: &mut Manifest| manifest.build().unwrap_err().to_string();
    for (path, told) in
        [("", "''"), ("lab", "lab"), ("a b:", "'a b:'"), ("\u{1b}", "\\x1b"), (":", ":")]
    {
        let expected = format!("{told}: it begins with no / and with no tree's name and :");
        assert_eq!(words(Manifest::new().directory(path)), expected);
        assert_eq!(words(Manifest::new().nameless("s:", path)), expected);
        assert_eq!(words(Manifest::new().magic_link("/m", (path, "m"))), expected);
        assert_eq!(words(Manifest::new().hard_link("/h", path)), expected);
        assert_eq!(words(Manifest::new().mount(path, "/")), expected);
        assert_eq!(words(Manifest::new().mount("/", path)), expected);
        assert_eq!(words(Manifest::new().root(path)), expected);
        // It is not read as another manifest.
        let printed = Manifest::new().directory(path).to_string();
        assert_eq!(printed, format!("dir   {told}\n"));
        assert!(Manifest::parse(printed).is_err());
    }
    let error = Manifest::new().directory("").build().unwrap_err();
    assert_eq!((&error.path[..], error.problem), (&b""[..], Problem::NoPath));
}

#[test]
fn names_of_programs_are_told() {
    let words = |manifest: &mut Manifest| manifest.build().unwrap_err().to_string();
    for name in ["", "a b", "\n", "p\nfile /evil", "é", "a:"] {
        let mut manifest = Manifest::new();
        manifest.directory("/x").mount_as(name, "/", "/x");
        let has = "/x: a mount's name has letters, digits, -, _ and ., unlike";
        assert_eq!(words(&mut manifest), format!("{has} {}", Quoted(name.as_bytes())));
        assert!(Manifest::parse(manifest.to_string()).is_err(), "{manifest}");
    }
    let mut manifest = Manifest::new();
    manifest.magic_link("/m", ("/", "\u{1b}[2J"));
    assert_eq!(words(&mut manifest), "/m: no mount is named \\x1b[2J");
}
