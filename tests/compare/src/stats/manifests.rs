//! What became of the manifests of tables.

use super::line;
use crate::manifest::Told;

#[derive(Default)]
pub struct Manifests {
    pub manifests: u64,
    pub rewritten: u64,
    too_long: u64,
    not_asked: u64,
}

impl Manifests {
    pub fn note(&mut self, told: &Told) {
        self.manifests += 1;
        *match told {
            Told::Rewritten => &mut self.rewritten,
            Told::TooLong => &mut self.too_long,
            Told::NotAsked => &mut self.not_asked,
        } += 1;
    }

    /// What should occur in every run of some length and did not.
    #[cfg(test)]
    pub fn missing(&self) -> Vec<String> {
        let counts = [("rewritten", self.rewritten), ("too long", self.too_long)];
        let missing = counts.into_iter().filter(|(_, count)| *count == 0);
        missing.map(|(what, _)| format!("manifest: {what}")).collect()
    }

    pub fn print(&self) {
        println!("manifests of tables:");
        for (what, count) in [
            ("rewritten", self.rewritten),
            ("rule 1", self.too_long),
            ("not asked", self.not_asked),
        ] {
            line(&what, count, self.manifests);
        }
    }
}
