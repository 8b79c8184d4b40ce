//! Manifests: what they say of a text, what image they give, and what they refuse.

mod bench;
mod errors;
pub mod generated;
mod limits;
mod lines;
mod numbers;
mod rules;

use crate::*;

/// What is said of a text of which no image is made.
fn told(text: impl AsRef<[u8]>) -> String {
    error(text).to_string()
}

fn error(text: impl AsRef<[u8]>) -> ManifestError {
    let text = text.as_ref();
    let built = Manifest::parse(text).and_then(|manifest| manifest.build());
    built.expect_err(&text.escape_ascii().to_string())
}

fn build(text: impl AsRef<[u8]>) -> Vec<u8> {
    let built = Manifest::parse(text).and_then(|manifest| manifest.build());
    built.unwrap_or_else(|error| panic!("{error}"))
}
