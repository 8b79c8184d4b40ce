//! `ventolaire`: table images on the command line. `ventolaire --help` says more.

mod answer;
mod arguments;
mod asked;
mod build;
mod call;
mod canonical;
mod common;
mod counted;
mod demo;
mod destination;
mod dot;
mod escape;
mod explain;
mod file;
mod input;
mod json;
mod list;
mod lookup;
mod manifest;
mod options;
mod output;
mod pack;
mod part;
mod place;
mod reply;
mod resolve;
mod script;
mod show;

use arguments::{Command, Form};
use output::{Failure, Output};
use std::ffi::OsStr;
use std::process::ExitCode;

const HELP: &str = include_str!("help.txt");
const VERSION: &str = concat!("ventolaire ", env!("CARGO_PKG_VERSION"), "\n");

fn main() -> ExitCode {
    let mut output = Output::new();
    let command = arguments::read(std::env::args_os().skip(1)).map_err(Failure::from);
    let done = command.and_then(|command| run(command, &mut output)).and_then(|()| output.flush());
    match done {
        // With a closed pipe, whoever reads has had enough.
        Ok(()) | Err(Failure::Closed) => ExitCode::from(u8::from(output.refused)),
        Err(Failure::Message(message)) => {
            output::tell(message);
            ExitCode::from(2)
        }
    }
}

fn run(command: Command, output: &mut Output) -> Result<(), Failure> {
    match command {
        Command::Help => output.write(HELP),
        Command::Version => output.write(VERSION),
        Command::Check { image, json } => check(&image, json, output),
        Command::Show { image, form } => show(&image, form, output),
        Command::Resolve(query) => resolve::run(&query, output),
        Command::Lookup(lookup) => lookup::run(&lookup, output),
        Command::Part(asked) => part::run(&asked, output),
        Command::Canonical(asked) => canonical::run(&asked, output),
        Command::Build(asked) => build::run(&asked, output),
        Command::Pack(asked) => pack::run(&asked, output),
        Command::Script { image, calls, json } => script::run(&image, &calls, json, output),
        Command::Demo { file, json } => demo::run(file.as_deref(), json, output),
    }
}

fn check(file: &OsStr, json: bool, output: &mut Output) -> Result<(), Failure> {
    let image = input::image(file)?;
    let broken = explain::table(&image).err();
    output.refused = broken.is_some();
    match (broken, json) {
        (broken, true) => output.line(explain::verdict(broken)),
        (Some(broken), false) => output.line(broken),
        (None, false) => output.line("accepted"),
    }
}

fn show(file: &OsStr, form: Form, output: &mut Output) -> Result<(), Failure> {
    let image = input::image(file)?;
    let table = explain::table(&image)
        .map_err(|why| format!("cannot show {}: {why}", escape::name(file)))?;
    match form {
        Form::Text => output.write(show::tree(&table)),
        Form::Manifest => manifest::write(file, &table, output),
        Form::Dot => output.write(dot::graph(&table)),
        Form::Json => output.line(list::table(&table)),
    }
}
