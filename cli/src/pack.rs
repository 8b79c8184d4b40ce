//! Images of real directories.

mod left;
mod mounts;
mod progress;
mod tree;
mod walk;

use crate::arguments::Pack;
use crate::escape;
use crate::json::Object;
use crate::output::{self, Failure, Output};
use progress::Progress;
use std::ffi::OsStr;
use std::path::Path;
use tree::Tree;
use ventolaire::ManifestError;
use walk::{Packed, Walk};

pub fn run(asked: &Pack, output: &mut Output) -> Result<(), Failure> {
    asked.to.check()?;
    let packed = Walk::new(&asked.directory, asked.mounts, Progress::of_terminal()).run()?;
    let image = packed.tree.manifest().build();
    let image = image.map_err(|error| refused(&asked.directory, &packed.tree, &error))?;
    asked.to.write(&image, output)?;
    output.refused = !packed.left.is_empty();
    // First what must not be lost, should nobody read the rest.
    if !asked.json {
        tell(&packed);
    }
    asked.to.tell(&image, asked.json.then(|| members(&packed)), output)
}

/// Why there is no image, by the path on the system that is to blame.
fn refused(directory: &OsStr, tree: &Tree, error: &ManifestError) -> String {
    let path = Path::new(directory).join(tree.real(&error.path));
    format!("cannot pack {}: {}", escape::name(path.as_os_str()), error.problem)
}

/// What is not in the image as it is in the directory, in JSON.
fn members(packed: &Packed) -> Object {
    let object = Object::new().with("mounts_as_directories", packed.as_directories);
    object.with("mounts_as_files", packed.as_files).and(packed.left.json())
}

/// The same in lines on standard error.
fn tell(packed: &Packed) {
    match packed.as_directories {
        0 => {}
        1 => output::tell("1 mount became a directory; --mounts keeps it"),
        many => output::tell(format_args!("{many} mounts became directories; --mounts keeps them")),
    }
    let why = "a table has mounts on directories alone";
    match packed.as_files {
        0 => {}
        1 => output::tell(format_args!("1 mount on a file became a file; {why}")),
        many => output::tell(format_args!("{many} mounts on files became files; {why}")),
    }
    packed.left.lines().for_each(output::tell);
}
