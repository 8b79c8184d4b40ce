//! What must hold of an image that was built.

use crate::said::{Line, Said};
use crate::{hold, Look, Subject};
use ventolaire::{Manifest, Node, Table};

pub fn look(subject: &impl Subject, said: &Said, image: &[u8]) -> Look {
    let table = Table::new(image).map_err(|broken| format!("what is built: {broken}"))?;
    let again = table.parts().build();
    hold(again.as_deref() == Ok(image), || "its own parts build another image".into())?;
    back(subject, &table)?;
    counts(said, &table)?;
    texts(said, &table)?;
    match is_main_first(said) {
        true => said.lines.iter().try_for_each(|line| line_holds(line, &table)),
        false => Ok(()),
    }
}

/// The table's manifest builds the same image, by way of its text too.
fn back(subject: &impl Subject, table: &Table) -> Look {
    let manifest = subject.of_table(table);
    let text = subject.print(&manifest);
    let builds = |manifest: &Manifest| match subject.build(manifest) {
        Ok(image) => hold(image == table.image(), || {
            format!("the table's manifest builds another image:\n{text}")
        }),
        Err(error) => Err(format!("the table's manifest is refused by {error}:\n{text}")),
    };
    builds(&manifest)?;
    match subject.parse(text.as_bytes()) {
        Ok(read) => builds(&read),
        Err(error) => Err(format!("the table's manifest cannot be read: {error}\n{text}")),
    }
}

/// There is as much of each kind as is said.
fn counts(said: &Said, table: &Table) -> Look {
    let number = |kind| said.of_kind(kind).count();
    let within = |kind| said.of_kind(kind).filter(|line| line.behind("in").is_some()).count();
    let is_under = |line: &&Line| {
        let is_in = |parent| parent != line.word(1);
        line.word(1).contains(&b'/') || line.behind("in").is_some_and(is_in)
    };
    let under = said.of_kind("dir").filter(is_under).count();
    let others = ["file", "link", "magic"].map(number).iter().sum::<usize>();
    let expected = [
        ("nodes", said.nodes()),
        ("directories", said.nodes() - others),
        ("directories with a parent", under),
        ("files", number("file")),
        ("links", number("link")),
        ("magic links", number("magic")),
        ("magic links to mounts", within("magic")),
        ("mounts", number("mount") + 1),
        ("mounts in mounts", within("mount")),
    ];
    for (what, expected) in expected {
        let is_what = |node: &(u64, Node)| is(what, node);
        let found = match what {
            "mounts" => table.mounts().len(),
            "mounts in mounts" => table.mounts().filter(|(_, mount)| mount.parent > 0).count(),
            _ => table.nodes().filter(is_what).count(),
        };
        hold(found == expected, || format!("{found} {what}, and {expected} are described"))?;
    }
    Ok(())
}

fn is(what: &str, (number, node): &(u64, Node)) -> bool {
    match node {
        _ if what == "nodes" => true,
        Node::Directory { .. } if what == "directories" => true,
        Node::Directory { parent, .. } => what == "directories with a parent" && parent != number,
        Node::Link { .. } => what == "links",
        Node::MagicLink { .. } if what == "magic links" => true,
        Node::MagicLink { target, .. } => what == "magic links to mounts" && target.mount > 0,
        _ => what == "files",
    }
}

/// All names and all bodies are the words said, and no others.
fn texts(said: &Said, table: &Table) -> Look {
    let names = sorted(table.entries().map(|entry| entry.name));
    hold(names == sorted(said.names()), || "other names than are described".into())?;
    let bodies = table.nodes().filter_map(|(_, node)| match node {
        Node::Link { body, .. } => Some(body),
        _ => None,
    });
    let expected = said.of_kind("link").map(|line| line.word(2));
    hold(sorted(bodies) == sorted(expected), || "other bodies than are described".into())
}

fn sorted<'a>(texts: impl Iterator<Item = &'a [u8]>) -> Vec<&'a [u8]> {
    let mut texts: Vec<&[u8]> = texts.collect();
    texts.sort_unstable();
    texts
}

/// Whether node 0 is the main tree's top: mount 0 shows that tree, and nothing is above it.
fn is_main_first(said: &Said) -> bool {
    let is_shown = said.of_kind("root").all(|line| is_main(line.word(1)));
    let top = said.about(b"");
    is_shown && top.is_none_or(|line| line.kind() == b"dir" && line.behind("in").is_none())
}

/// The path of a line leads to what the line says. Asked in the main tree alone: of other trees
/// the image does not say which is which.
fn line_holds(line: &Line, table: &Table) -> Look {
    let [one, other] = [1, 2].map(|word| line.word(word));
    let found = lead(table, one);
    let leads = |node: u64| !is_main(other) || lead(table, other) == Some(node);
    let holds = match (line.kind(), found.and_then(|node| table.node(node))) {
        _ if !is_main(one) => true,
        (b"dir", Some(Node::Directory { .. })) => true,
        (b"file", Some(Node::File { .. })) => true,
        (b"link", Some(Node::Link { body, .. })) => body == other,
        (b"magic", Some(Node::MagicLink { target, .. })) => leads(target.node),
        (b"hard", Some(_)) => found.is_some_and(leads),
        (b"root", Some(_)) => found == Some(table.root().node),
        (b"mount", Some(_)) => {
            let mut mounts = table.mounts().skip(1).map(|(_, mount)| mount);
            mounts.any(|mount| Some(mount.root) == found && leads(mount.point))
        }
        _ => false,
    };
    let words = || line.words.join(&b' ').escape_ascii().to_string();
    hold(holds, || format!("not so in the table: {}", words()))
}

fn is_main(path: &[u8]) -> bool {
    matches!(path, [] | [b'/', ..])
}

/// The node that the names of a path lead to.
fn lead(table: &Table, path: &[u8]) -> Option<u64> {
    let mut names = path.split(|byte| *byte == b'/').skip(1);
    names.try_fold(0, |node, name| Some(table.lookup(node, name).ok()?.node))
}
