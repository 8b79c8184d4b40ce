//! Where an image is written to, and what is told of it.

use crate::counted::counted;
use crate::json::Object;
use crate::output::{Failure, Output};
use crate::{escape, file};
use std::ffi::{OsStr, OsString};
use std::fs;
use std::io::{self, IsTerminal};
use ventolaire::Table;

pub enum Destination {
    /// Standard output.
    Output,
    File {
        file: OsString,
        /// Whether one that is there may be replaced.
        force: bool,
    },
}

impl Destination {
    /// Whether an image can go there at all, asked before one is made.
    pub fn check(&self) -> Result<(), String> {
        match self {
            Destination::Output if io::stdout().is_terminal() => {
                Err("an image is not printed to a terminal; give --output FILE, or a pipe".into())
            }
            Destination::File { file, force: false } => {
                file::is_free(file).map_err(|error| unwritten(file, &error))
            }
            _ => Ok(()),
        }
    }

    pub fn write(&self, image: &[u8], output: &mut Output) -> Result<(), Failure> {
        let (file, written) = match self {
            Destination::Output => return output.write(image),
            Destination::File { file, force: true } => (file, file::replace(file, image)),
            Destination::File { file, force: false } => (file, file::create(file, image)),
        };
        written.map_err(|error| unwritten(file, &error).into())
    }

    /// Tells what was written to a file: what is in the table, and how long it is. In JSON with
    /// more members.
    pub fn tell(
        &self,
        image: &[u8],
        json: Option<Object>,
        output: &mut Output,
    ) -> Result<(), Failure> {
        let (Destination::File { file, .. }, Ok(table)) = (self, Table::new(image)) else {
            return Ok(());
        };
        let counts = [table.nodes().len(), table.entries().len(), table.mounts().len()];
        let ([nodes, entries, mounts], bytes) = (counts, image.len());
        match json {
            Some(more) => {
                let object = Object::new().bytes("file", file.as_encoded_bytes());
                let object = object.with("nodes", nodes).with("entries", entries);
                output.line(object.with("mounts", mounts).with("bytes", bytes).and(more))
            }
            None => {
                let nodes = counted(nodes, "node", "nodes");
                let entries = counted(entries, "entry", "entries");
                let mounts = counted(mounts, "mount", "mounts");
                let file = escape::name(file);
                output.line(format_args!("{file}: {nodes}, {entries}, {mounts}; {bytes} bytes"))
            }
        }
    }
}

fn unwritten(file: &OsStr, error: &io::Error) -> String {
    let is_file = fs::symlink_metadata(file).is_ok_and(|there| there.is_file());
    let hint = match error.kind() {
        io::ErrorKind::AlreadyExists if is_file => "; --force replaces a file",
        _ => "",
    };
    format!("cannot write {}: {error}{hint}", escape::name(file))
}
