//! Images from manifests.

use crate::arguments::Build;
use crate::input;
use crate::json::Object;
use crate::output::{Failure, Output};
use ventolaire::Manifest;

pub fn run(asked: &Build, output: &mut Output) -> Result<(), Failure> {
    asked.to.check()?;
    let text = input::manifest(&asked.manifest)?;
    let built = Manifest::parse(&text).and_then(|manifest| manifest.build());
    let image = built
        .map_err(|error| format!("cannot build {}: {error}", input::shown(&asked.manifest)))?;
    asked.to.write(&image, output)?;
    asked.to.tell(&image, asked.json.then(Object::new), output)
}
