//! Random manifests, each with the image that it should give.

pub mod described;
mod expected;

use crate::*;
use data::dice::Dice;
use data::fields::{number_at, Layout};
use data::image::{Entry, Mount, Node, Text, Tree};
use described::Described;

const MANY: u64 = 1_500;

/// What an image holds, read from its bytes.
pub fn read(image: &[u8]) -> Tree {
    let layout = Layout::of(image);
    let number = |at: usize, width: usize| number_at(image, at, width);
    let text = |offset: usize, length: usize| {
        Text::from(&image[layout.text_at + offset..layout.text_at + offset + length])
    };
    let entry = |at: usize| {
        let at = layout.entry(at);
        Entry { name: text(number(at, 4), number(at + 4, 2)), node: number(at + 6, 2) }
    };
    let node = |at: usize| {
        let at = layout.node(at);
        let (parent, first, count) = (number(at + 2, 2), number(at + 4, 4), number(at + 8, 4));
        match number(at, 2) {
            1 => Node::Directory { parent, entries: (first..first + count).map(entry).collect() },
            2 => Node::File,
            3 => Node::Link(text(first, count)),
            _ => Node::Magic { mount: first, node: count },
        }
    };
    let mount = |at: usize| {
        let [root, parent, point] = [0, 2, 4].map(|field| number(layout.mount(at) + field, 2));
        Mount { root, parent, point }
    };
    let nodes = (0..layout.nodes).map(node).collect();
    let mounts = (0..layout.mounts).map(mount).collect();
    Tree { nodes, mounts, ..Tree::default() }
}

/// Runs a check on many manifests. One that fails is printed.
fn check(check: impl Fn(&mut Dice, &Described, &Manifest) -> Result<(), String>) {
    for seed in 0..MANY {
        let mut dice = Dice::new(seed, 9, 0);
        let described = Described::some(&mut dice);
        let manifest = described.manifest(&mut dice);
        if let Err(what) = check(&mut dice, &described, &manifest) {
            panic!("seed {seed}: {what}\n{manifest}");
        }
    }
}

fn same<T: PartialEq + std::fmt::Debug>(what: &str, one: &T, two: &T) -> Result<(), String> {
    match one == two {
        true => Ok(()),
        false => Err(format!("{what}:\n{one:?}\n{two:?}")),
    }
}

fn built(what: &str, manifest: &Manifest) -> Result<Vec<u8>, String> {
    manifest.build().map_err(|error| format!("{what}: {error}"))
}

fn parsed(what: &str, manifest: &Manifest) -> Result<Manifest, String> {
    let text = manifest.to_string();
    let read = Manifest::parse(&text).map_err(|error| format!("{what}: {error}"))?;
    same(what, &read.to_string(), &text)?;
    Ok(read)
}

#[test]
fn images_hold_what_is_described() {
    check(|_, described, manifest| {
        let image = built("build", manifest)?;
        same("the tree", &read(&image), &described.expected())?;
        let table = Table::new(&image).map_err(|broken| broken.to_string())?;
        // And nothing beside it.
        let parts = table.parts().build().map_err(|error| error.to_string())?;
        same("the image", &parts, &image)
    });
}

#[test]
fn texts_give_the_same_image() {
    check(|_, _, manifest| {
        let image = built("build", manifest)?;
        same("read again", &built("read again", &parsed("text", manifest)?)?, &image)
    });
}

/// Whatever the order of the lines, and the names that are not to count.
#[test]
fn one_tree_gives_one_image() {
    check(|dice, described, manifest| {
        let image = built("build", manifest)?;
        let other = described.renamed(dice).manifest(dice);
        let what = format!("in another order, by other names:\n{other}");
        same(&what, &built(&what, &other)?, &image)
    });
}

#[test]
fn tables_give_their_image_again() {
    check(|_, _, manifest| {
        let image = built("build", manifest)?;
        let table = Table::new(&image).map_err(|broken| broken.to_string())?;
        let again = Manifest::try_from(&table).map_err(|error| error.to_string())?;
        let what = format!("of the table:\n{again}");
        same(&what, &built(&what, &again)?, &image)?;
        same(&what, &built(&what, &parsed(&what, &again)?)?, &image)
    });
}

/// All that can be described is, and often.
#[test]
fn everything_occurs() {
    let mut counts = [0; 12];
    for seed in 0..MANY {
        let mut dice = Dice::new(seed, 9, 0);
        let described = Described::some(&mut dice);
        let occurs = described.occurs();
        counts.iter_mut().zip(occurs).for_each(|(count, occurs)| *count += u64::from(occurs));
    }
    assert!(counts.iter().all(|count| *count > MANY / 40), "{counts:?}");
}

/// A text with some of its bytes and lines changed.
fn spoiled(dice: &mut Dice, text: &str) -> Vec<u8> {
    let mut lines: Vec<&[u8]> = text.as_bytes().split_inclusive(|byte| *byte == b'\n').collect();
    let pieces: [&[u8]; 12] =
        [b" ", b"/", b":", b"'", b"\\", b"\n", b"#", b"in ", b"dir ", b"hard ", b"\xff", b".."];
    for _ in 0..dice.below(4) {
        let (at, from) = (dice.below(lines.len() + 1), dice.below(lines.len()));
        match dice.below(3) {
            0 if !lines.is_empty() => _ = lines.remove(from),
            1 if !lines.is_empty() => lines.insert(at, lines[from]),
            _ => lines.insert(at, b"dir / in a:\n"),
        }
    }
    let mut text = lines.concat();
    (0..dice.below(3)).for_each(|_| {
        let at = dice.below(text.len() + 1);
        let end = text.len().min(at + dice.below(4));
        text.splice(at..end, pieces[dice.below(12)].iter().copied());
    });
    text
}

/// Whatever a text is, there is an answer; and an image gives itself again.
#[test]
fn any_text_is_answered() {
    check(|dice, _, manifest| {
        let text = spoiled(dice, &manifest.to_string());
        let what = text.escape_ascii().to_string();
        match Manifest::parse(&text).and_then(|manifest| manifest.build()) {
            Ok(image) => {
                let table = Table::new(&image).map_err(|broken| broken.to_string())?;
                let again = Manifest::try_from(&table).map_err(|error| error.to_string())?;
                same(&what, &built(&what, &again)?, &image)
            }
            Err(error) => {
                let line = error.position.map_or(1, |position| position.line);
                let lines = text.split(|byte| *byte == b'\n').count() as u64;
                let words = error.to_string();
                same(&what, &(1..=lines).contains(&line), &true)?;
                same(&words, &words.chars().any(|char| char.is_control()), &false)
            }
        }
    });
}
