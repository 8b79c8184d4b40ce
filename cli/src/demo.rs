//! The worked examples, answered.

use crate::answer::Answer;
use crate::asked::Answered;
use crate::json::{quoted, Object};
use crate::output::{Failure, Output};
use crate::{escape, file, input, place};
use std::ffi::OsStr;
use ventolaire::bench_tree::{Row, IMAGE, TABLE};
use ventolaire::{Place, Refusal, Table};

/// Writes the bench tree's image, if a file is named, and compares the answers
/// to its table with those expected.
pub fn run(file: Option<&OsStr>, json: bool, output: &mut Output) -> Result<(), Failure> {
    let image = match file {
        Some(file) => {
            let name = escape::name(file);
            file::create(file, IMAGE).map_err(|error| format!("cannot write {name}: {error}"))?;
            if !json {
                output.line(format_args!("{name}: the bench tree, {} bytes\n", IMAGE.len()))?;
            }
            input::image(file)?
        }
        None => IMAGE.to_vec(),
    };
    let table = Table::new(&image).map_err(Refusal::from);
    let answered = TABLE.iter().map(|row| {
        let got = table.and_then(|table| table.resolve(row.handle, row.path, row.how));
        (row, got.into())
    });
    let answered: Vec<(&Row, Answer)> = answered.collect();
    let failed = answered.iter().filter(|(row, got)| got.result != row.answer).count();
    let passed = answered.len() - failed;
    output.refused = failed > 0;
    if json {
        let rows = answered.iter().map(|(row, got)| in_json(row, got));
        let object = Object::new().list("rows", rows);
        return output.line(object.with("passed", passed).with("failed", failed));
    }
    for (row, got) in &answered {
        in_text(row, got, output)?;
    }
    output.line(format_args!("{passed} passed, {failed} failed"))
}

fn in_text(row: &Row, got: &Answer, output: &mut Output) -> Result<(), Failure> {
    output.line(format_args!("{:4} {}", row.name, call(row)))?;
    output.line(format_args!("       expected  {}", Answer::from(row.answer)))?;
    output.line(format_args!("       got       {got}"))?;
    match got.result == row.answer {
        true => Ok(()),
        false => output.line("       WRONG"),
    }
}

/// A row's call as the arguments of `ventolaire resolve`.
fn call(row: &Row) -> String {
    let place = place::text(Place { mount: row.handle.mount, node: row.handle.node });
    let mut call = format!("{} --handle {place}", row.path);
    if row.handle.mark {
        call.push_str(" --mark");
    }
    let flags = row.how.flags.iter_names().map(|(name, _)| name);
    let resolve = row.how.resolve.iter_names().map(|(name, _)| name);
    for (option, names) in [("--flag", Vec::from_iter(flags)), ("--resolve", resolve.collect())] {
        if !names.is_empty() {
            call.push_str(&format!(" {option} {}", names.join(",")));
        }
    }
    call
}

fn in_json(row: &Row, got: &Answer) -> Object {
    let named = match row.name {
        "-" => Object::new(),
        name => Object::new().text("name", name),
    };
    named
        .text("path", row.path)
        .place("handle", Place { mount: row.handle.mount, node: row.handle.node })
        .with("mark", row.handle.mark)
        .list("flags", row.how.flags.iter_names().map(|(name, _)| quoted(name)))
        .list("resolve", row.how.resolve.iter_names().map(|(name, _)| quoted(name)))
        .with("expected", Answer::from(row.answer).json())
        .with("got", got.json())
        .with("right", got.result == row.answer)
}
