//! Differences and cases, told.

use crate::builder::Parts;
use crate::case::{Call, Case, Difference};
use crate::generate::Numbered;
use crate::pair::{in_words, Pair};
use crate::resolver;
use crate::shrink;
use crate::subject::Subject;
use crate::tree;
use data::hex;
use data::image::{Mount, Node};
use data::sequence::Step;

pub fn print_difference(difference: &Difference) {
    println!("  {}", difference.what);
    println!("  expected {:?}", difference.expected);
    println!("  got      {:?}", difference.got);
}

pub fn report(seed: u64, numbered: &Numbered, difference: &Difference, subject: &mut dyn Subject) {
    let Numbered { stream, number, case } = numbered;
    println!("DIFFERENCE at seed {seed}, {stream} {number}");
    print_difference(difference);
    println!("  replay {case}");
    let small = shrink::shrink(subject, case);
    println!("shrunk:");
    if let Err(difference) = small.compare(subject) {
        print_difference(&difference);
    }
    describe(&small);
    println!("  replay {small}");
}

/// The case in words, as far as its table can be read.
pub fn describe(case: &Case) {
    describe_table(&case.image());
    match case {
        Case::Table(_) | Case::Manifest(_) => {}
        Case::Call(call) => describe_call(call),
        Case::Sequence(sequence) => {
            for (number, step) in sequence.steps.iter().enumerate() {
                println!("  call {number}: {}", call_in_words(step));
            }
        }
        Case::Lookup(lookup) => {
            println!("  in node {}, name \"{}\"", lookup.node, lookup.name.escape_ascii());
        }
        Case::Build(build) => {
            let Parts { nodes, mounts, entries, text } = &build.parts;
            let [nodes, mounts, entries, text] = [nodes, mounts, entries, text].map(Vec::len);
            println!("  parts of {nodes}, {mounts}, {entries} and {text} bytes");
            println!("  a buffer of {} bytes", build.room);
        }
        Case::Pair(pair) => describe_pair(pair),
    }
}

fn describe_table(image: &[u8]) {
    let Ok(table) = resolver::accept(image) else { return };
    let tree = tree::of(&table);
    for (number, node) in tree.nodes.iter().enumerate() {
        println!("  node {number}: {}", node_in_words(node));
    }
    for (number, Mount { root, parent, point }) in tree.mounts.iter().enumerate() {
        println!("  mount {number}: root {root}, on ({parent},{point})");
    }
}

fn describe_pair(pair: &Pair) {
    println!("  and in the second table:");
    describe_table(&pair.other);
    describe_call(&pair.call);
    let common = if pair.is_common { "in common" } else { "not in common" };
    println!("  with the part {common}; reachable: {}", in_words(&pair.part()));
    for (number, step) in pair.steps.iter().enumerate() {
        println!("  call {number}: {}", call_in_words(step));
    }
}

fn describe_call(call: &Call) {
    println!(
        "  handle ({},{}){}, path \"{}\"",
        call.mount,
        call.node,
        if call.mark { " marked" } else { "" },
        call.path.escape_ascii()
    );
    println!("  open_how {}; {}", hex(&call.how), added(call.added, call.added_mark));
}

fn added(resolve: u64, mark: bool) -> String {
    format!("added resolve {resolve:#x}{}", if mark { " and the mark" } else { "" })
}

fn call_in_words(step: &Step) -> String {
    let name = format!("{} {}", step.name(), step.number());
    let Step::Open(open) = step else { return name };
    let asked = if open.mark { ", the mark asked" } else { "" };
    let path = open.path.escape_ascii();
    let second = match (open.added, open.added_mark) {
        (0, false) => String::new(),
        (resolve, mark) => format!("; {}", added(resolve, mark)),
    };
    format!("{name}{asked}, path \"{path}\", open_how {}{second}", hex(&open.how))
}

fn node_in_words(node: &Node) -> String {
    match node {
        Node::Directory { parent, entries } => {
            let mut names: Vec<String> = entries
                .iter()
                .take(20)
                .map(|entry| format!("\"{}\" {}", entry.name.bytes.escape_ascii(), entry.node))
                .collect();
            if entries.len() > names.len() {
                names.push(format!("and {} more", entries.len() - names.len()));
            }
            format!("directory in {parent}: {}", names.join(", "))
        }
        Node::File => "file".into(),
        Node::Link(body) => format!("link to \"{}\"", body.bytes.escape_ascii()),
        Node::Magic { mount, node } => format!("magic link to ({mount},{node})"),
    }
}
