//! Manifests that the proved builder refuses, by each sentence of the rules that one can break.
//! Rules and records are worked out by hand, from the rules and the numbering that `Manifest`
//! documents.

use super::error;
use crate::*;

/// A text, the rule and the record that it breaks, and the whole message.
fn expect(text: &str, (rule, record): (u64, u64), words: &str) {
    let error = error(text);
    assert_eq!(error.to_string(), words, "{text}");
    let Problem::Broken { broken, record: of, clause, reason } = &error.problem else {
        panic!("{error:?}");
    };
    assert_eq!(*broken, Broken { rule, record }, "{text}");
    let expected = match rule {
        4 | 7 => Some(Record::Node(record)),
        5 => Some(Record::Entry(record)),
        6 => Some(Record::Mount(record)),
        _ => None,
    };
    assert_eq!(*of, expected, "{text}");
    assert!(words.ends_with(&format!(": {reason} (RULES {clause})")));
}

/// The same for many: line and path, and behind "rule 4 broken by node 1: " what is said there.
fn expect_all(rule: u64, rows: &[(&str, u64, &str, &str)]) {
    for (text, record, at, reason) in rows {
        let what = ["node", "entry", "mount", "node"][rule as usize - 4];
        let broken = format!("rule {rule} broken by {what} {record}");
        // A tree's name has its colon.
        let colon = if at.ends_with(':') { "" } else { ":" };
        expect(text, (rule, *record), &format!("{at}{colon} {broken}: {reason}"));
    }
}

/// 20 + 2 * 12 + 9,001 * 8 + 8 + 1, and with mount 8,189 the mounts alone have 65,540.
#[test]
fn mounts_alone_may_be_too_long() {
    let text = format!("dir /p\n{}", "mount / /p\n".repeat(9_000));
    let words = "line 8190, column 1: /p: rule 1 broken: the image would have 72061 bytes, over \
                 65,536 (RULES 4.1)";
    expect(&text, (1, 0), words);
}

#[test]
fn images_too_long_are_refused() {
    // 20 + 2 * 12 + 8 + 8 + 65,540: not cut to a name of four bytes.
    for (length, bytes) in [(65_540, 65_600), (65_536, 65_596), (65_535, 65_595)] {
        let path = format!("/{}", "n".repeat(length));
        let words = format!(
            "line 2, column 1: {path}: rule 1 broken: the image would have {bytes} bytes, over \
             65,536 (RULES 4.1)"
        );
        expect(&format!("# A name.\nfile {path}"), (1, 0), &words);
    }
    // 20 + 3 * 12 + 8 + 2 * 8 + 2 + 70,000: the body is what makes it too long.
    let words = "line 1, column 1: /a: rule 1 broken: the image would have 70082 bytes, over \
                 65,536 (RULES 4.1)";
    expect(&format!("link /a {}\nfile /b", "n".repeat(70_000)), (1, 0), words);
}

#[test]
fn images_of_too_much_are_refused() {
    let lines = |count: usize, line: &dyn Fn(usize) -> String| -> String {
        (0..count).map(|number| line(number) + "\n").collect()
    };
    let nodes = lines(4_096, &|number| format!("file f{number}:"));
    let words = "line 4096, column 1: f4095: rule 3 broken: there are 4097 nodes, not 1 to \
                 4,096 (RULES 4.3)";
    expect(&nodes, (3, 0), words);
    let mounts = lines(256, &|number| format!("dir /p{number:03}\nmount / /p{number:03}"));
    let words = "line 512, column 1: /p255: rule 3 broken: there are 257 mounts, not 1 to 256 \
                 (RULES 4.3)";
    expect(&mounts, (3, 0), words);
    let entries = lines(4_096, &|number| format!("hard /h{number:04} /f"));
    let words = "line 4097, column 1: /h4095: rule 3 broken: there are 4097 entries, over 4,096 \
                 (RULES 4.3)";
    expect(&format!("file /f\n{entries}"), (3, 0), words);
}

#[test]
fn nodes_are_refused() {
    let none = "its body has 0 bytes, not 1 to 4,095 (RULES 4.4f)";
    let long = "its body has 4096 bytes, not 1 to 4,095 (RULES 4.4f)";
    let body = format!("dir /a\nlink l: x\nlink /a/m {}", "n".repeat(4_096));
    let ring = "dir /x\n dir b: in a:\ndir a: in b:\ndir a:/y\nfile z:";
    let above = "its parent is b:, above its own number (RULES 4.4b)";
    let hanging = "dir c:\ndir a: in b:\ndir b:/d\ndir b: in a:";
    expect_all(
        4,
        &[
            ("link /l ''", 1, "line 1, column 1: /l", none),
            ("file /a\nlink l: ''", 2, "line 2, column 1: l:", none),
            (&body, 2, "line 3, column 1: /a/m", long),
            (
                "dir /a\nlink /b a\\x00b",
                2,
                "line 2, column 1: /b",
                "its body has a zero byte, at 1 (RULES 4.4f)",
            ),
            // What leads in a ring comes behind all trees, in the order of its names.
            (ring, 2, "line 3, column 1: a:", above),
            (hanging, 2, "line 2, column 1: a:", above),
        ],
    );
}

#[test]
fn names_are_refused() {
    let long = format!("file /a\nfile /{}", "n".repeat(256));
    let at = format!("line 2, column 1: /{}", "n".repeat(256));
    expect_all(
        5,
        &[
            (
                "file /lab/.\ndir /lab",
                1,
                "line 1, column 1: /lab/.",
                "its name is \".\" (RULES 4.5c)",
            ),
            ("file /..\nfile /a", 0, "line 1, column 1: /..", "its name is \"..\" (RULES 4.5c)"),
            (
                "file /a\ndir /-\ndir /.",
                1,
                "line 3, column 1: /.",
                "its name is \".\" (RULES 4.5c)",
            ),
            (&long, 1, &at, "its name has 256 bytes, not 1 to 255 (RULES 4.5a)"),
            (
                "file /a\\x00",
                0,
                "line 1, column 1: /a\\x00",
                "its name has a zero byte, at 1 (RULES 4.5b)",
            ),
        ],
    );
}

#[test]
fn directories_are_named_in_their_parents_alone() {
    let top = "it names d:, the top of a tree (RULES 4.5f)";
    expect_all(
        5,
        &[
            // Entries of /: a and b; of /a: x; of /a/x none; of /b: x.
            (
                "dir /a\ndir /b\ndir /a/x\nhard /b/x /a/x",
                3,
                "line 4, column 1: /b/x",
                "it names /a/x, whose parent is /a, in /b (RULES 4.5f)",
            ),
            (
                "dir /a\nhard /a/s s:\ndir s: in /",
                1,
                "line 2, column 1: /a/s",
                "it names s:, whose parent is /, in /a (RULES 4.5f)",
            ),
            ("dir d:\nhard /d d:", 0, "line 2, column 1: /d", top),
            ("dir d:\nhard d:/d d:", 0, "line 2, column 1: d:/d", top),
            (
                "dir /a\nhard /a/b /",
                1,
                "line 2, column 1: /a/b",
                "it names /, the top of a tree (RULES 4.5f)",
            ),
        ],
    );
}

#[test]
fn roots_and_parents_are_refused() {
    let file = "its root is /f, no directory (RULES 4.6a)";
    let itself = "its parent is the mount on /p, not a lower one (RULES 4.6d)";
    expect_all(
        6,
        &[
            ("dir /p\nfile /f\nmount /f /p", 1, "line 3, column 1: /p", file),
            ("file /f\nroot /f", 0, "line 2, column 1: /f", file),
            ("file /", 0, "line 1, column 1: /", "its root is /, no directory (RULES 4.6a)"),
            ("dir /p\nmount / /p in a as a", 1, "line 2, column 1: /p", itself),
            // Two that hang in each other: the first of them has a higher one for its parent.
            (
                "dir /p\ndir /q\nmount / /p in b as a\nmount / /q in a as b",
                1,
                "line 3, column 1: /p",
                "its parent is the mount on /q, not a lower one (RULES 4.6d)",
            ),
        ],
    );
}

/// A mount with a name, to hang others in.
const POOL: &str = "dir /p\ndir d:\nmount d: /p as pool\n";

#[test]
fn points_are_refused() {
    expect_all(
        6,
        &[
            (
                "file /f\nmount / /f",
                1,
                "line 2, column 1: /f",
                "its point is /f, no directory (RULES 4.6e)",
            ),
            (
                "dir /p\ndir d:\ndir d:/q\nmount / d:/q",
                1,
                "line 4, column 1: d:/q",
                "its point, d:/q, is not under /, the root of mount 0 (RULES 4.6e)",
            ),
            (
                &format!("{POOL}mount / /p in pool"),
                2,
                "line 4, column 1: /p",
                "its point, /p, is not under d:, the root of the mount on /p (RULES 4.6e)",
            ),
            (
                "mount / /",
                1,
                "line 1, column 1: /",
                "its point, /, is the root of mount 0, its parent (RULES 4.6e)",
            ),
            (
                &format!("{POOL}mount / d: in pool"),
                2,
                "line 4, column 1: d:",
                "its point, d:, is the root of the mount on /p, its parent (RULES 4.6e)",
            ),
        ],
    );
}

#[test]
fn mounts_on_one_place_are_refused() {
    expect_all(
        6,
        &[
            (
                &format!("{POOL}mount / /p"),
                2,
                "line 4, column 1: /p",
                "the mount on /p is on the same place: /p in mount 0 (RULES 4.6f)",
            ),
            (
                &format!("{POOL}dir d:/q\nmount / d:/q in pool\nmount d: d:/q in pool"),
                3,
                "line 6, column 1: d:/q",
                "the mount on d:/q is on the same place: d:/q in the mount on /p (RULES 4.6f)",
            ),
        ],
    );
}

#[test]
fn magic_links_are_refused() {
    let link = "its target is /l, itself a link (RULES 4.7b)";
    expect_all(
        7,
        &[
            ("link /l x\nmagic /m /l", 2, "line 2, column 1: /m", link),
            ("magic /m /n\nlink /l x\nhard /n /l", 2, "line 1, column 1: /m", link),
            (
                "file /a\nmagic /m /m",
                2,
                "line 2, column 1: /m",
                "its target is /m, itself a link (RULES 4.7b)",
            ),
            (
                "dir d:\nmagic /m d:",
                1,
                "line 2, column 1: /m",
                "its target, d:, is not under /, the root of mount 0 (RULES 4.7c)",
            ),
            (
                &format!("{POOL}magic /m /p in pool"),
                1,
                "line 4, column 1: /m",
                "its target, /p, is not under d:, the root of the mount on /p (RULES 4.7c)",
            ),
            (
                "dir /p\nroot /p\nmagic m: /",
                2,
                "line 3, column 1: m:",
                "its target, /, is not under /p, the root of mount 0 (RULES 4.7c)",
            ),
        ],
    );
}

/// Of several rules the lowest is told, and of several records the first.
#[test]
fn the_lowest_rule_is_told() {
    let lines = [
        "magic /m /m\nmagic /a /a",
        "mount / /\nfile /f\nmount /f /f",
        "dir /p\nfile /p/..\nfile /p/.",
        "link /z ''\nlink /y ''",
    ];
    let broken = |from: usize| match error(lines[from..].join("\n")).problem {
        Problem::Broken { broken, .. } => (broken.rule, broken.record),
        problem => panic!("{problem}"),
    };
    // Nodes: /, f, p, p/., p/.., y, z.
    assert_eq!(broken(3), (4, 1));
    assert_eq!(broken(2), (4, 4));
    assert_eq!(broken(0), (4, 7));
    let broken = |lines: &[&str]| error(lines.join("\n")).to_string();
    assert!(broken(&lines[..3]).contains(": /p/.: rule 5 broken by entry 4: "));
    assert!(broken(&lines[..2]).starts_with("line 3, column 1: /: rule 6 broken by mount 1: "));
    assert!(broken(&lines[..1]).starts_with("line 2, column 1: /a: rule 7 broken by node 1: "));
}

/// Without a text there is no line.
#[test]
fn refusals_of_programs_have_no_line() {
    let error = Manifest::new().link("/l", "").build().unwrap_err();
    let words = "/l: rule 4 broken by node 1: its body has 0 bytes, not 1 to 4,095 (RULES 4.4f)";
    assert_eq!((error.to_string(), error.position), (words.into(), None));
    let error = Manifest::new().file("/").build().unwrap_err();
    let words = "/: rule 6 broken by mount 0: its root is /, no directory (RULES 4.6a)";
    assert_eq!((error.to_string(), &error.path[..]), (words.into(), &b"/"[..]));
}
