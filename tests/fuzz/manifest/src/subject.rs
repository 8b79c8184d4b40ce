//! What is looked at.

use ventolaire::{Manifest, ManifestError, Table};

/// The four ways in and out of a manifest. A test plants faults in them.
pub trait Subject {
    fn parse(&self, text: &[u8]) -> Result<Manifest, ManifestError> {
        Manifest::parse(text)
    }

    fn print(&self, manifest: &Manifest) -> String {
        manifest.to_string()
    }

    fn build(&self, manifest: &Manifest) -> Result<Vec<u8>, ManifestError> {
        manifest.build()
    }

    fn of_table(&self, table: &Table) -> Manifest {
        // What is built has one; an empty one builds another image.
        Manifest::try_from(table).unwrap_or_default()
    }
}

/// The crate as it is.
pub struct Crate;

impl Subject for Crate {}
