//! The case that the arguments of `compare replay` tell.

use crate::arguments::Arguments;
use crate::build::{Build, MOST_ROOM};
use crate::builder::Parts;
use crate::case::{Call, Case};
use crate::lookup::Lookup;
use crate::pair::{is_common, Pair};
use crate::sequence::Sequence;

pub fn given(arguments: &Arguments) -> Result<Case, String> {
    let numbers = ["--mount", "--node", "--mark", "--added", "--added-mark"];
    let bytes = ["--image", "--path", "--how", "--name"];
    if PARTS.iter().any(|name| arguments.flag(name)) {
        return given_build(arguments);
    }
    if arguments.flag("--manifest") {
        return given_manifest(arguments);
    }
    if arguments.flag("--other") {
        return given_pair(arguments);
    }
    arguments.known(&[], &[&numbers[..], &bytes, &["--sequence", "--fault"]].concat())?;
    let image = arguments.bytes("--image")?;
    let is_call = arguments.flag("--path") || arguments.flag("--how");
    if arguments.flag("--name") {
        let others = ["--mount", "--mark", "--added", "--added-mark", "--sequence"];
        if is_call || others.iter().any(|name| arguments.flag(name)) {
            return Err("--name stands with --image and --node alone".into());
        }
        let node = arguments.number("--node")?.unwrap_or(0);
        let name = arguments.bytes("--name")?;
        return Ok(Case::Lookup(Lookup { image, node, name }));
    }
    if let Some(steps) = arguments.text("--sequence") {
        if is_call || numbers.iter().any(|name| arguments.flag(name)) {
            return Err("--sequence stands with --image alone".into());
        }
        return Ok(Case::Sequence(Sequence { image, steps: data::sequence::read(steps)? }));
    }
    match is_call {
        true => given_call(arguments, image).map(Case::Call),
        false => Ok(Case::Table(image)),
    }
}

fn given_call(arguments: &Arguments, image: Vec<u8>) -> Result<Call, String> {
    let number = |name| Ok::<u64, String>(arguments.number(name)?.unwrap_or(0));
    Ok(Call {
        image,
        mount: number("--mount")?,
        node: number("--node")?,
        mark: number("--mark")? != 0,
        path: arguments.bytes("--path")?,
        how: arguments.bytes("--how")?,
        added: number("--added")?,
        added_mark: number("--added-mark")? != 0,
    })
}

/// Without --common it is as the tables have it.
fn given_pair(arguments: &Arguments) -> Result<Case, String> {
    let numbers = ["--mount", "--node", "--mark", "--common"];
    let bytes = ["--image", "--other", "--path", "--how"];
    arguments.known(&[], &[&numbers[..], &bytes, &["--script", "--fault"]].concat())?;
    let call = given_call(arguments, arguments.bytes("--image")?)?;
    let other = arguments.bytes("--other")?;
    let is_common = match arguments.number("--common")? {
        Some(number) => number != 0,
        None => is_common(&call, &other),
    };
    let steps = data::sequence::read(arguments.text("--script").unwrap_or(""))?;
    Ok(Case::Pair(Pair { call, other, steps, is_common }))
}

fn given_manifest(arguments: &Arguments) -> Result<Case, String> {
    arguments.known(&["--manifest"], &["--image", "--fault"])?;
    Ok(Case::Manifest(arguments.bytes("--image")?))
}

/// What tells a build.
const PARTS: [&str; 5] = ["--nodes", "--mounts", "--entries", "--text", "--room"];

fn given_build(arguments: &Arguments) -> Result<Case, String> {
    arguments.known(&[], &[&PARTS[..], &["--fault"]].concat())?;
    let room = arguments.number("--room")?.ok_or("a build wants --room N")?;
    let room = usize::try_from(room).ok().filter(|room| *room <= MOST_ROOM);
    let parts = Parts {
        nodes: arguments.bytes("--nodes")?,
        mounts: arguments.bytes("--mounts")?,
        entries: arguments.bytes("--entries")?,
        text: arguments.bytes("--text")?,
    };
    let room = room.ok_or(format!("--room is at most {MOST_ROOM}"))?;
    Ok(Case::Build(Build { parts, room }))
}

#[cfg(test)]
mod tests;
