//! A table as a manifest, and what its image has that a manifest doesn't say.

use crate::counted::counted;
use crate::output::{self, Failure, Output};
use crate::{explain, input};
use std::ffi::OsStr;
use ventolaire::{Manifest, Node, Table};

/// Prints the manifest of a table. Where an image built of it would be another, it is told by what.
pub fn write(file: &OsStr, table: &Table, output: &mut Output) -> Result<(), Failure> {
    let manifest = Manifest::try_from(table).map_err(|error| {
        let why = explain::unbuilt(error);
        format!("cannot show {} as a manifest: {why}", input::shown(file))
    })?;
    output.write(manifest.to_string())?;
    output.flush()?;
    match manifest.build() {
        Ok(built) if built == table.image() => {}
        Ok(built) => changes(table, &built).into_iter().for_each(output::tell),
        Err(error) => return Err(format!("the manifest is refused: {error}").into()),
    }
    Ok(())
}

/// By what an image built of a table's manifest is another.
fn changes(table: &Table, built: &[u8]) -> Vec<String> {
    let Text { gaps, shared, moved } = Text::of(table);
    // The same records, the text in order.
    let ordered = table.parts().build();
    let ordered = ordered.as_deref().unwrap_or_default();
    let nameless = table.nameless().len();
    let rows = [
        (
            shared > 0,
            format!("not kept: sharing of {} in the text", counted(shared, "byte", "bytes")),
        ),
        (gaps > 0, format!("not kept: gaps of {} in the text", counted(gaps, "byte", "bytes"))),
        (moved, "not kept: the order of names and bodies in the text".into()),
        (ordered != built, "not kept: the numbers of nodes and mounts".into()),
        (
            nameless > 0,
            format!("kept: {} without a name", counted(nameless, "directory", "directories")),
        ),
    ];
    rows.into_iter().filter(|(is_so, _)| *is_so).map(|(_, what)| what).collect()
}

/// How a table's text is used.
struct Text {
    /// Bytes that are part of nothing.
    gaps: usize,
    /// Bytes that more names and bodies have than one, counted once for each more.
    shared: usize,
    /// Whether some begin before the one that they come behind when they are written.
    moved: bool,
}

impl Text {
    fn of(table: &Table) -> Self {
        let text = table.parts().text;
        let bodies = table.nodes().filter_map(|(_, node)| match node {
            Node::Link { body, .. } => Some(body),
            _ => None,
        });
        let mut used = vec![false; text.len()];
        let (mut all, mut last, mut moved) = (0, 0, false);
        for part in table.entries().map(|entry| entry.name).chain(bodies) {
            // All parts are of this text.
            let at = part.as_ptr().addr() - text.as_ptr().addr();
            used[at..at + part.len()].fill(true);
            (all, moved, last) = (all + part.len(), moved || at < last, at);
        }
        let used = used.into_iter().filter(|used| *used).count();
        Text { gaps: text.len() - used, shared: all - used, moved }
    }
}
