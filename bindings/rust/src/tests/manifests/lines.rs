//! Lines that cannot be read: where, what was expected, and what is there.

use super::{build, error, told};
use crate::*;

const LINE: &str = "dir, file, link, magic, hard, mount or root";
const PATH: &str = "a path, /.. or TREE:/..";
const NAME: &str = "a mount's name, of letters, digits, -, _ and .";
const BODY: &str = "a link's body";
const END: &str = "the line's end";
const IN: &str = "in or the line's end";
const AS: &str = "as or the line's end";
const IN_AS: &str = "in, as or the line's end";

/// A text's line and column, what was expected there, and the rest of the message.
type Row<'a> = (&'a str, (u64, u64), &'static str, &'a str);

fn expect(rows: &[Row]) {
    for (text, (line, column), expected, found) in rows {
        let words = format!("line {line}, column {column}: expected {expected}, {found}");
        assert_eq!(told(text), words, "{text:?}");
        // What comes before and behind makes no difference, but for the line.
        let inside = format!("\n# none\r\n{text}\r\ndri\n");
        let words = format!("line {}, column {column}: expected {expected}, {found}", line + 2);
        assert_eq!(told(inside), words, "{text:?}");
    }
}

#[test]
fn unknown_words_are_told() {
    expect(&[
        ("dri /lab", (1, 1), LINE, "found dri"),
        ("\n\n \tDir /x", (3, 3), LINE, "found Dir"),
        ("'' /x", (1, 1), LINE, "found ''"),
        ("/lab", (1, 1), LINE, "found /lab"),
        ("dir#", (1, 1), LINE, "found dir#"),
        ("'dir /x'", (1, 1), LINE, "found 'dir /x'"),
        ("\u{feff}dir /x", (1, 1), LINE, "found \\ufeffdir"),
        ("\u{a0}dir /x", (1, 1), LINE, "found \u{a0}dir"),
        ("'#'", (1, 1), LINE, "found '#'"),
        (&"x".repeat(60), (1, 1), LINE, &format!("found {}", "x".repeat(60))),
        (&"x".repeat(61), (1, 1), LINE, &format!("found {}..", "x".repeat(60))),
    ]);
}

#[test]
fn missing_words_are_told() {
    expect(&[
        ("dir", (1, 4), PATH, "found the line's end"),
        ("file \t", (1, 7), PATH, "found the line's end"),
        ("link # x", (1, 6), PATH, "found a comment"),
        ("magic /fd", (1, 10), PATH, "found the line's end"),
        ("hard /a", (1, 8), PATH, "found the line's end"),
        ("mount", (1, 6), PATH, "found the line's end"),
        ("mount /", (1, 8), PATH, "found the line's end"),
        ("root", (1, 5), PATH, "found the line's end"),
        ("dir a: in", (1, 10), PATH, "found the line's end"),
        ("link /x", (1, 8), BODY, "found the line's end"),
        ("link /x # body", (1, 9), BODY, "found a comment"),
        ("mount / /x in", (1, 14), NAME, "found the line's end"),
        ("mount / /x as", (1, 14), NAME, "found the line's end"),
        ("mount / /x in a as", (1, 19), NAME, "found the line's end"),
        ("magic /x / in #", (1, 15), NAME, "found a comment"),
    ]);
}

#[test]
fn surplus_words_are_told() {
    expect(&[
        ("dir /x /y", (1, 8), END, "found /y"),
        ("dir /x in /y z", (1, 14), END, "found z"),
        ("file /x ''", (1, 9), END, "found ''"),
        ("file /x in /y", (1, 9), END, "found in"),
        ("link /x a b", (1, 11), END, "found b"),
        ("hard /a /b c", (1, 12), END, "found c"),
        ("hard /a /b in c", (1, 12), END, "found in"),
        ("magic /a /b c", (1, 13), IN, "found c"),
        ("magic /a /b as c", (1, 13), IN, "found as"),
        ("mount /a /b c", (1, 13), IN_AS, "found c"),
        ("mount /a /b in x c", (1, 18), AS, "found c"),
        ("dir x: on /", (1, 8), IN, "found on"),
        ("mount /a /b as x in y", (1, 18), END, "found in"),
        ("mount /a /b in x as y z", (1, 23), END, "found z"),
        ("root /x '#'", (1, 9), END, "found '#'"),
    ]);
}

#[test]
fn what_is_no_path_is_told() {
    expect(&[
        ("dir ''", (1, 5), PATH, "found ''"),
        ("dir lab", (1, 5), PATH, "found lab"),
        ("dir ./lab", (1, 5), PATH, "found ./lab"),
        ("dir :", (1, 5), PATH, "found :"),
        ("dir :/x", (1, 5), PATH, "found :/x"),
        ("dir 'a b:/x'", (1, 5), PATH, "found 'a b:/x'"),
        ("dir é:/x", (1, 5), PATH, "found é:/x"),
        ("dir disk:x", (1, 5), PATH, "found disk:x"),
        ("dir a:b:/x", (1, 5), PATH, "found a:b:/x"),
        ("dir a: in x", (1, 11), PATH, "found x"),
        ("link x x", (1, 6), PATH, "found x"),
        ("magic /fd x", (1, 11), PATH, "found x"),
        ("hard /a x", (1, 9), PATH, "found x"),
        ("mount x /", (1, 7), PATH, "found x"),
        ("mount / x", (1, 9), PATH, "found x"),
        ("root \\x1b", (1, 6), PATH, "found \\x1b"),
    ]);
}

#[test]
fn what_is_no_name_is_told() {
    expect(&[
        ("mount / /x in a:b", (1, 15), NAME, "found a:b"),
        ("mount / /x in /", (1, 15), NAME, "found /"),
        ("mount / /x as ''", (1, 15), NAME, "found ''"),
        ("mount / /x as é", (1, 15), NAME, "found é"),
        ("mount / /x as 'a b'", (1, 15), NAME, "found 'a b'"),
        ("mount / /x in \\xff", (1, 15), NAME, "found \\xff"),
        ("magic /x / in pool:", (1, 15), NAME, "found pool:"),
    ]);
}

#[test]
fn what_is_no_word_is_told() {
    let open = "but a quote (') is not closed";
    let end = "but a backslash stands at the line's end";
    expect(&[
        ("\\q", (1, 1), LINE, "but \\q is no escape"),
        ("file /\\q", (1, 7), PATH, "but \\q is no escape"),
        ("file /x \\q", (1, 9), END, "but \\q is no escape"),
        ("link /x a\\u12", (1, 10), BODY, "but \\u12 is no escape"),
        ("link /x '\\ud800'", (1, 10), BODY, "but \\ud800 is no escape"),
        ("mount / /x in \\xg0", (1, 15), NAME, "but \\xg0 is no escape"),
        ("mount / /x \\q", (1, 12), IN_AS, "but \\q is no escape"),
        ("dir /x 'in /y", (1, 8), END, open),
        ("file '/x", (1, 6), PATH, open),
        ("link /x a'b", (1, 10), BODY, open),
        ("link /x 'it\\'s", (1, 9), BODY, open),
        ("file /x\"y' z", (1, 8), PATH, "but a quote (\") is not closed"),
        ("file /x\\", (1, 8), PATH, end),
        ("link /x '\\", (1, 10), BODY, end),
        ("\\", (1, 1), LINE, end),
    ]);
}

/// Columns are characters; each byte that is no text is one.
#[test]
fn columns_are_counted_in_characters() {
    let column = |line: &[u8]| error(line).position.unwrap().column;
    assert_eq!(column(b"file /e x"), 9);
    assert_eq!(column("file /é x".as_bytes()), 9);
    assert_eq!(column("file /猫e\u{301} x".as_bytes()), 11);
    assert_eq!(column("file\t/🐈\tx".as_bytes()), 9);
    assert_eq!(column(b"file /\xff x"), 9);
    // The beginning of a character alone, which is two bytes; and a zero.
    assert_eq!(column(b"file /\xe2\x82 x"), 10);
    assert_eq!(column(b"file /\xe2\x82\xc3\xa9\0 x"), 12);
    assert_eq!(column("file 'é\\xff' é'".as_bytes()), 6);
    assert_eq!(column("file /é\\xff é'".as_bytes()), 14);
    // Of a line's end that is two bytes.
    assert_eq!(column("link /é\r\n".as_bytes()), 8);
}

#[test]
fn comments_and_ends_of_lines_are_left_out() {
    let mut manifest = Manifest::new();
    manifest.directory("/a#b").link("/l", "#x").link("/m", "#y").file("/n#").file("/o\rp");
    let image = manifest.build().unwrap();
    let text = "# c 'open\n\n  # \\q\ndir /a#b # the directory 'a\nlink /l '#x' #\n\
                link /m \\#y #\nfile \"/n#\"\t#!\nfile /o\rp";
    assert_eq!(build(text), image);
    assert_eq!(build(text.replace('\n', "\r\n")), image);
    assert_eq!(build(text.to_string() + "\r\n \t\r\n\n\n#"), image);
    assert_eq!(Manifest::new().build().unwrap(), build(""));
}

/// Words that mean something in one place are words like others in another.
#[test]
fn words_are_read_by_their_place() {
    let mut manifest = Manifest::new();
    manifest.directory("/in").directory("/as").directory("in:").link("/dir", "in").link("/l", "#");
    manifest.mount_as("in", "in:", "/in").mount_as("as", "in:", ("/as", "as2"));
    manifest.mount_as("as2", "/", ("/as", "in")).magic_link("/m", ("/as", "as2"));
    let text = "dir /in\ndir /as\ndir in:\nlink /dir in\nlink /l '#'\nmount in: /in as in\n\
                mount in: /as in as2 as as\nmount / /as in in as as2\nmagic /m /as in as2\n";
    let spaced = text.replace(' ', " \t ");
    let printed = Manifest::parse(text).unwrap().to_string();
    assert_eq!(Manifest::parse(&spaced).unwrap().to_string(), printed);
    assert_eq!(printed, manifest.to_string());
}

#[test]
fn slashes_may_be_repeated() {
    let plain = build("dir /a\nfile /a/b\ndir d:\nfile d:/c\nhard /h /a/b\nmount d: /a\nroot /");
    let text = "dir ///a/\nfile //a///b//\ndir d:/\nfile d://c/\nhard /h/ //a/b/\n\
                mount d:// //a// \nroot ///";
    assert_eq!(build(text), plain);
    assert_eq!(
        build(
            "'dir' \"/a\"\nfile /'a'/\\x62\ndir d\\x3a\nfile 'd:'/c\n\
                      hard /h '/a'\"/\"b\nmount d: /a\n"
        ),
        plain
    );
}
