//! The most that a manifest can describe.

use super::{build, error};
use crate::*;

fn lines(count: usize, line: impl Fn(usize) -> String) -> String {
    (0..count).map(|number| line(number) + "\n").collect()
}

#[test]
fn as_many_records_as_there_may_be_are_built() {
    let counts = |text: String| {
        let image = build(text);
        let table = Table::new(&image).unwrap();
        (table.nodes().len(), table.mounts().len(), table.entries().len())
    };
    assert_eq!(counts(lines(4_095, |number| format!("file f{number}:"))), (4_096, 1, 0));
    let mounts = lines(255, |number| format!("dir /p{number}\nmount / /p{number}"));
    assert_eq!(counts(mounts), (256, 256, 255));
    let entries = lines(4_095, |number| format!("hard /h{number} /f"));
    assert_eq!(counts(format!("file /f\n{entries}")), (2, 1, 4_096));
}

#[test]
fn the_longest_name_and_body_are_built() {
    let (name, body) = ("n".repeat(255), "b".repeat(4_095));
    let image = build(format!("link /{name} {body}"));
    let table = Table::new(&image).unwrap();
    assert_eq!(table.lookup(0, &name[..]).unwrap().node, 1);
    assert!(
        matches!(table.node(1), Some(Node::Link { body: read, .. }) if read == body.as_bytes())
    );
    assert_eq!(image.len(), 20 + 2 * 12 + 8 + 8 + 255 + 4_095);
}

/// 15 bodies of 4,095 bytes, and one with which the image has so many:
/// 20 + 12 + 8 for the top and its mount, 15 * (12 + 4,095), and 12 for the last.
fn long(bytes: usize) -> String {
    let rest = bytes - 40 - 15 * 4_107 - 12;
    lines(16, |number| format!("link l{number}: {}", "b".repeat([4_095, rest][number / 15])))
}

#[test]
fn the_longest_image_is_built() {
    assert_eq!(build(long(65_535)).len(), 65_535);
    assert_eq!(build(long(65_536)).len(), 65_536);
    let words = "line 16, column 1: l15: rule 1 broken: the image would have 65537 bytes, over \
                 65,536 (RULES 4.1)";
    assert_eq!(error(long(65_537)).to_string(), words);
    // A name costs nine bytes. What is named comes first, so the last is still too much.
    let words = words.replace("65537", "65545");
    assert_eq!(error(long(65_536) + "hard /h l0:\n").to_string(), words);
}

/// The image of the longest one is given again, by the manifest of its table too.
#[test]
fn the_longest_image_is_given_again() {
    let image = build(long(65_536));
    let manifest = Manifest::try_from(&Table::new(&image).unwrap()).unwrap();
    assert_eq!(manifest.build().unwrap(), image);
    assert_eq!(build(manifest.to_string()), image);
}

/// A text is read and refused in a time that grows with its length alone, and nothing recurs.
#[test]
fn hostile_texts_are_refused_soon() {
    let since = std::time::Instant::now();
    let mut chain = lines(10_000, |number| format!("dir a{}: in a{number}:", number + 1));
    chain += &lines(10_000, |number| format!("dir /p{number}\nmount a10000: /p{number}"));
    assert!(error(format!("dir a0:\n{chain}")).to_string().contains("rule 1 broken"));
    assert!(error(format!("dir a0: in a10000:\n{chain}")).to_string().contains("rule 1 broken"));
    let rings = lines(10_000, |number| {
        format!(
            "dir b{number}: in c{number}:\n\
        dir c{number}: in b{number}:\nmount b{number}: /"
        )
    });
    assert!(error(rings).to_string().contains("rule 1 broken"));
    let mounts = lines(10_000, |number| format!("mount / /p in m{} as m{number}", number + 1));
    assert!(error(format!("dir /p\n{mounts}mount / /p as m10000")).to_string().contains("rule 1"));
    // A directory with two names, in one with two names, and so on: 2 to the 200th paths.
    let mut path = String::new();
    let twice: String = (0..200)
        .map(|_| {
            let above = path.clone();
            path += "/a";
            format!("dir {path}\nhard {above}/b {path}\n")
        })
        .collect();
    let image = build(twice);
    let table = Table::new(&image).unwrap();
    assert_eq!(Manifest::try_from(&table).unwrap().build().unwrap(), image);
    let deep = "/d".repeat(500_000);
    assert!(error(format!("file {deep}")).to_string().contains("no directory"));
    assert!(error(vec![b'\''; 999_999]).to_string().contains("not closed"));
    assert!(error(vec![b' '; 999_999].into_iter().chain(*b"x").collect::<Vec<_>>())
        .position
        .is_some_and(|position| position.column == 1_000_000));
    assert!(since.elapsed().as_secs() < 60, "{:?}", since.elapsed());
}
