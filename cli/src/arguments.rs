//! What the arguments ask for.

use crate::destination::Destination;
use crate::options::Parts;
use crate::{escape, input, place};
use std::ffi::{OsStr, OsString};
use ventolaire::{Flags, OpenHow, Place, Resolve};

pub enum Command {
    Help,
    Version,
    Check { image: OsString, json: bool },
    Show { image: OsString, form: Form },
    Resolve(Query),
    Lookup(Lookup),
    Part(Part),
    Canonical(Canonical),
    Build(Build),
    Pack(Pack),
    Script { image: OsString, calls: OsString, json: bool },
    Demo { file: Option<OsString>, json: bool },
}

/// In what form a table is shown.
pub enum Form {
    Text,
    Manifest,
    Dot,
    Json,
}

pub struct Query {
    pub image: OsString,
    pub paths: Asked,
    /// The handle, if one is given.
    pub handle: Option<Place>,
    pub mark: bool,
    /// The bytes of the open_how.
    pub how: Vec<u8>,
}

pub struct Lookup {
    pub image: OsString,
    /// The directory, by its number.
    pub node: u64,
    pub names: Asked,
}

pub struct Part {
    pub image: OsString,
    /// The handle, if one is given.
    pub handle: Option<Place>,
    /// The image to compare with.
    pub other: Option<OsString>,
    pub json: bool,
}

pub struct Canonical {
    pub image: OsString,
    pub goal: Goal,
}

/// What is done with the one image of a tree.
pub enum Goal {
    Check { json: bool },
    Write(Destination),
}

pub struct Build {
    pub manifest: OsString,
    pub to: Destination,
    pub json: bool,
}

pub struct Pack {
    pub directory: OsString,
    /// Whether what is mounted below becomes a mount.
    pub mounts: bool,
    pub to: Destination,
    pub json: bool,
}

/// Paths or names, to be answered one by one.
pub struct Asked {
    /// What each of them is.
    pub what: &'static str,
    pub source: Source,
    pub json: bool,
}

/// Where the paths or names are.
pub enum Source {
    /// Their bytes are these words': they need not be text.
    Given(Vec<OsString>),
    /// In a file, each with this byte at its end.
    List { file: OsString, end: u8 },
}

/// The commands with their options.
const COMMANDS: &[(&str, &[&str])] = &[
    ("check", &["--json"]),
    ("show", &["--manifest", "--dot", "--json"]),
    ("build", &["--output", "--force", "--json"]),
    ("pack", &["--output", "--force", "--mounts", "--json"]),
    (
        "resolve",
        &["--handle", "--mark", "--flag", "--resolve", "--how", "--paths-from", "--null", "--json"],
    ),
    ("lookup", &["--names-from", "--null", "--json"]),
    ("part", &["--handle", "--common", "--json"]),
    ("canonical", &["--output", "--force", "--check", "--json"]),
    ("script", &["--json"]),
    ("demo", &["--json"]),
];

/// What a command asks one by one, in the words of its usage.
struct Usage {
    command: &'static str,
    what: &'static str,
    operand: &'static str,
    list: &'static str,
}

const PATHS: Usage =
    Usage { command: "resolve", what: "path", operand: "PATH", list: "--paths-from" };
const NAMES: Usage =
    Usage { command: "lookup", what: "name", operand: "NAME", list: "--names-from" };

pub fn read(mut arguments: impl Iterator<Item = OsString>) -> Result<Command, String> {
    let first = arguments.next().ok_or("no command given; see ventolaire --help")?;
    match first.to_str() {
        Some("--help" | "-h" | "help") => return Ok(Command::Help),
        Some("--version" | "-V" | "version") => return Ok(Command::Version),
        _ => {}
    }
    let (command, options) =
        *COMMANDS.iter().find(|(name, _)| first == *name).ok_or_else(|| {
            format!("no command is named {}; see ventolaire --help", escape::name(&first))
        })?;
    let parts = Parts::of(arguments)?;
    if parts.has("--help") {
        return Ok(Command::Help);
    }
    parts.allow(command, options)?;
    let json = parts.has("--json");
    match command {
        "check" => Ok(Command::Check { image: only(command, "IMAGE", &parts)?, json }),
        "show" => Ok(Command::Show { image: only(command, "IMAGE", &parts)?, form: form(&parts)? }),
        "build" => build(&parts).map(Command::Build),
        "pack" => pack(&parts).map(Command::Pack),
        "lookup" => lookup(&parts).map(Command::Lookup),
        "part" => part(&parts).map(Command::Part),
        "canonical" => canonical(&parts).map(Command::Canonical),
        "script" => script(&parts),
        "demo" => Ok(Command::Demo { file: demo_file(&parts)?, json }),
        _ => query(&parts).map(Command::Resolve),
    }
}

/// The one operand of a command.
fn only(command: &str, operand: &str, parts: &Parts) -> Result<OsString, String> {
    match &parts.operands[..] {
        [] => Err(format!("{command} wants {operand}")),
        [image] => Ok(image.clone()),
        [_, surplus, ..] => Err(format!("{command} has no use for {}", escape::name(surplus))),
    }
}

fn form(parts: &Parts) -> Result<Form, String> {
    parts.exclude("--dot", "--json")?;
    parts.exclude("--manifest", "--dot")?;
    parts.exclude("--manifest", "--json")?;
    Ok(match [parts.has("--manifest"), parts.has("--dot"), parts.has("--json")] {
        [true, ..] => Form::Manifest,
        [_, true, _] => Form::Dot,
        [.., true] => Form::Json,
        _ => Form::Text,
    })
}

fn build(parts: &Parts) -> Result<Build, String> {
    let (manifest, to) = (only("build", "MANIFEST", parts)?, destination(parts)?);
    Ok(Build { manifest, json: summary(parts)?, to })
}

fn pack(parts: &Parts) -> Result<Pack, String> {
    let (directory, to) = (only("pack", "DIRECTORY", parts)?, destination(parts)?);
    Ok(Pack { directory, mounts: parts.has("--mounts"), json: summary(parts)?, to })
}

/// Where an image is to be written to.
fn destination(parts: &Parts) -> Result<Destination, String> {
    match (parts.value("--output"), parts.has("--force")) {
        (Some(file), _) if input::is_stdin(file) => {
            Err("--output wants a file; write ./- for one of that name".into())
        }
        (None, true) => Err("--force wants --output".into()),
        (None, false) => Ok(Destination::Output),
        (Some(file), force) => Ok(Destination::File { file: file.clone(), force }),
    }
}

/// Whether what is written is told in JSON. Where an image is printed, nothing else is.
fn summary(parts: &Parts) -> Result<bool, String> {
    match (parts.has("--json"), parts.value("--output")) {
        (true, None) => Err("--json wants --output".into()),
        (json, _) => Ok(json),
    }
}

fn script(parts: &Parts) -> Result<Command, String> {
    let (image, calls) = match &parts.operands[..] {
        [] => return Err("script wants IMAGE".into()),
        [image] => (image.clone(), "-".into()),
        [image, calls] => (image.clone(), calls.clone()),
        [_, _, surplus, ..] => {
            return Err(format!("script has no use for {}", escape::name(surplus)));
        }
    };
    if input::is_stdin(&image) && input::is_stdin(&calls) {
        return Err("IMAGE and the calls cannot both be standard input".into());
    }
    Ok(Command::Script { image, calls, json: parts.has("--json") })
}

fn canonical(parts: &Parts) -> Result<Canonical, String> {
    let image = only("canonical", "IMAGE", parts)?;
    parts.exclude("--check", "--output")?;
    let to = destination(parts)?;
    let json = parts.has("--json");
    match parts.has("--check") {
        true => Ok(Canonical { image, goal: Goal::Check { json } }),
        false if json => Err("--json wants --check".into()),
        false => Ok(Canonical { image, goal: Goal::Write(to) }),
    }
}

fn demo_file(parts: &Parts) -> Result<Option<OsString>, String> {
    match parts.operands.is_empty() {
        true => Ok(None),
        false => match only("demo", "IMAGE", parts)? {
            file if input::is_stdin(&file) => {
                Err("demo writes its image to a file; write ./- for one of that name".into())
            }
            file => Ok(Some(file)),
        },
    }
}

fn query(parts: &Parts) -> Result<Query, String> {
    let (image, paths) = parts.operands.split_first().ok_or("resolve wants IMAGE")?;
    Ok(Query {
        image: image.clone(),
        paths: asked(&PATHS, image, paths, parts)?,
        handle: handle(parts)?,
        mark: parts.has("--mark"),
        how: how(parts)?,
    })
}

fn handle(parts: &Parts) -> Result<Option<Place>, String> {
    let handle = parts.value("--handle").map(|given| {
        let wrong = || format!("--handle wants MOUNT:NODE, not {}", escape::name(given));
        place::read(given).ok_or_else(wrong)
    });
    handle.transpose()
}

fn part(parts: &Parts) -> Result<Part, String> {
    let (image, other) = (only("part", "IMAGE", parts)?, parts.value("--common"));
    if other.is_some_and(|other| input::is_stdin(other) && input::is_stdin(&image)) {
        return Err("IMAGE and --common cannot both be standard input".into());
    }
    Ok(Part { image, handle: handle(parts)?, other: other.cloned(), json: parts.has("--json") })
}

fn lookup(parts: &Parts) -> Result<Lookup, String> {
    let (image, rest) = parts.operands.split_first().ok_or("lookup wants IMAGE")?;
    let (node, names) = rest.split_first().ok_or("lookup wants NODE")?;
    let wrong = || format!("lookup wants a node's number, not {}", escape::name(node));
    Ok(Lookup {
        image: image.clone(),
        node: number(node).ok_or_else(wrong)?,
        names: asked(&NAMES, image, names, parts)?,
    })
}

/// The paths or names that a command asks for, as operands or by a list.
fn asked(
    usage: &Usage,
    image: &OsStr,
    operands: &[OsString],
    parts: &Parts,
) -> Result<Asked, String> {
    let Usage { command, what, operand, list } = usage;
    let null = parts.has("--null");
    let source = match (parts.value(list), operands) {
        (None, _) if null => return Err(format!("--null wants {list}")),
        (None, []) => return Err(format!("{command} wants {operand}, or {list}")),
        (None, operands) => Source::Given(operands.to_vec()),
        (Some(_), [given, ..]) => {
            let given = escape::name(given);
            return Err(format!("{list} and the {what} {given} exclude each other"));
        }
        (Some(file), []) if input::is_stdin(file) && input::is_stdin(image) => {
            return Err(format!("IMAGE and {list} cannot both be standard input"));
        }
        (Some(file), []) => Source::List { file: file.clone(), end: if null { 0 } else { b'\n' } },
    };
    Ok(Asked { what, source, json: parts.has("--json") })
}

/// A number in decimal. For one that has no room in 64 bits stands the highest that has, which is
/// no descriptor and no node either.
pub fn number(word: &OsStr) -> Option<u64> {
    let digits = word.to_str().filter(|word| !word.is_empty())?;
    let is_number = digits.bytes().all(|byte| byte.is_ascii_digit());
    is_number.then(|| digits.parse().unwrap_or(u64::MAX))
}

/// The bytes of the open_how that options ask for.
pub fn how(parts: &Parts) -> Result<Vec<u8>, String> {
    parts.exclude("--how", "--flag")?;
    parts.exclude("--how", "--resolve")?;
    if let Some(given) = parts.value("--how") {
        let wrong = || format!("--how wants bytes in hexadecimal, not {}", escape::name(given));
        return bytes(given).ok_or_else(wrong);
    }
    let mut how = OpenHow::new();
    for given in parts.values("--flag") {
        let bits =
            bits("flag", given, Flags::NAMED, |name| Flags::from_name(name).map(Flags::bits));
        how.flags |= Flags::from_bits_retain(bits?);
    }
    for given in parts.values("--resolve") {
        let bit = |name: &str| Resolve::from_name(name).map(Resolve::bits);
        let bits = bits("resolve bit", given, Resolve::NAMED, bit);
        how.resolve |= Resolve::from_bits_retain(bits?);
    }
    Ok(how.to_bytes().to_vec())
}

/// The bits of names with commas between them, in letters of either case, and of
/// numbers in hexadecimal.
fn bits<T>(
    what: &str,
    given: &OsStr,
    named: &[(&str, T)],
    from_name: impl Fn(&str) -> Option<u64>,
) -> Result<u64, String> {
    let number = |part: &str| {
        let digits = part.strip_prefix("0x").filter(|digits| !digits.starts_with('+'))?;
        u64::from_str_radix(digits, 16).ok()
    };
    // What is no text is no name either.
    let given = given.to_string_lossy();
    given.split(',').try_fold(0, |bits, part| {
        let bit = from_name(&part.to_ascii_uppercase()).or_else(|| number(part));
        let bit = bit.ok_or_else(|| {
            let names: Vec<&str> = named.iter().map(|(name, _)| *name).collect();
            let part = escape::text(part.as_bytes());
            format!("no {what} is named \"{part}\"; there are {}", names.join(", "))
        })?;
        Ok(bits | bit)
    })
}

/// The bytes of pairs of hexadecimal digits.
fn bytes(value: &OsStr) -> Option<Vec<u8>> {
    let digit = |byte: &u8| char::from(*byte).to_digit(16);
    value
        .as_encoded_bytes()
        .chunks(2)
        .map(|pair| match pair {
            [high, low] => Some((digit(high)? << 4 | digit(low)?) as u8),
            _ => None,
        })
        .collect()
}
