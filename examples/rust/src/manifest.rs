//! A table described by path, in code and as text.

use std::error::Error;
use ventolaire::{Manifest, OpenHow, Resolve, Table};

fn main() -> Result<(), Box<dyn Error>> {
    let mut manifest = Manifest::new();
    manifest.directory("/clients").directory("/clients/a").directory("/clients/b");
    manifest.file("/clients/a/run").file("/clients/b/run");
    manifest.link("/clients/a/latest", "run").link("/clients/a/other", "../b/run");
    // The disk of client b, mounted in its directory.
    manifest.directory("/clients/b/disk").directory("disk:").file("disk:/tare");
    manifest.mount("disk:", "/clients/b/disk");
    let image = manifest.build()?;
    let table = Table::new(&image)?;
    println!("{} bytes, {} nodes", image.len(), table.nodes().len());

    // A script of client a is held in its own directory.
    let a = table.resolve(table.root(), "clients/a", OpenHow::new())?.place;
    for path in ["latest", "other", "../b/disk/tare"] {
        match table.resolve(a, path, Resolve::BENEATH) {
            Ok(found) => println!("{path}: {found}"),
            Err(refusal) => println!("{path}: {refusal}"),
        }
    }

    // As text, which is read again.
    let text = manifest.to_string();
    println!("{} lines, the last: {}", text.lines().count(), text.lines().last().unwrap_or(""));
    println!("the same image: {}", Manifest::parse(&text)?.build()? == image);

    // A mistake is told with its place.
    let wrong = text + "link /clients/c/latest run\n";
    if let Err(error) = Manifest::parse(&wrong)?.build() {
        println!("{error}");
    }
    Ok(())
}
