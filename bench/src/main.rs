//! Measures Ventolaire's proved table check, resolver and builder against plain Rust
//! versions of the same rules. `bench --help` has the commands.
//!
//! There are two baselines: `plain`, the rules written straight down, and
//! `linear`, for the table check alone, which takes time linear in the image even
//! if the image is hostile.
//!
//! The proved side takes part if the crate is built with the feature `proved`; the
//! variable `VENTOLAIRE_LIB` names the folder of `libventolaire.a`, if that is not
//! in target/staticlib:
//!
//! ```text
//! VENTOLAIRE_LIB=FOLDER cargo run --release --features proved -- table
//! ```
//!
//! `bench/run` proves and builds the library and does `bench all` with
//! docs/speed.svg, or what its arguments say. What is printed is Markdown.
//!
//! Instructions are counted with valgrind's callgrind. A table check is measured
//! as it is. A walk is measured without the table check before it: the table is
//! checked once in each run, and the difference of two runs is the walks alone,
//! each a call of a C function on either side.

#[cfg(test)]
mod agree;
mod builds;
#[cfg(feature = "proved")]
mod calls;
mod chart;
mod descriptors;
mod growth;
mod hostile;
mod linear;
mod lookups;
mod measure;
mod plain;
mod plain_build;
#[cfg(feature = "proved")]
mod proved;
mod side;
mod slots;
mod sweep;
mod tables;
#[cfg(test)]
mod tests;
mod walk;
mod worked;

use measure::Measured;
use side::Side;
use std::error::Error;
use std::fmt;
use std::path::Path;
use std::process::ExitCode;
use tables::cases;

const HELP: &str = "\
Measures the proved table check, resolver and builder against plain Rust versions of the same rules.

bench list            the cases
bench table           all cases: instructions and time per call
bench growth          how instructions per call grow with the input
bench sweep           instructions per call by the length of names and bodies
bench lookups         a name in one directory: instructions and time per call, and their bar
bench descriptors     calls on descriptors: instructions and time per call, and their bars
bench builds          an image built from its parts: instructions and time per call, and the bars
bench calls           a call from Rust, its table checked each time and once
bench all FILE        table, growth, sweep, lookups, descriptors and builds, and a chart of the
                      first two in FILE, as SVG
bench run CASE plain|linear|proved CALLS
                      one case, that many times
bench call TABLE resolve|table CALLS
                      one call of `bench calls`, that many times
bench cases FILE      asks every side for the answers to a list of worked cases, crates/cases/stdin;
                      the last line counts what passed and what failed
bench --help          this text

The proved side takes part in builds with the feature `proved`. The status is 0, 1 if something
failed, 2 if the arguments or a file are wrong.
";

/// What was asked for is wrong: one line that says how.
#[derive(Debug)]
struct Wrong(String);

impl fmt::Display for Wrong {
    fn fmt(&self, f: &mut fmt::Formatter) -> fmt::Result {
        f.write_str(&self.0)
    }
}

impl Error for Wrong {}

fn wrong(what: impl Into<String>) -> Box<dyn Error> {
    Box::new(Wrong(what.into()))
}

fn main() -> ExitCode {
    let args: Vec<String> = std::env::args().skip(1).collect();
    let args: Vec<&str> = args.iter().map(String::as_str).collect();
    let done = match args[..] {
        ["--help" | "-h"] => {
            print!("{HELP}");
            Ok(())
        }
        ["list"] => {
            list();
            Ok(())
        }
        ["table"] => table().map(drop),
        ["growth"] => growth::measure().map(drop),
        ["sweep"] => sweep::measure(),
        ["lookups"] => lookups::measure(),
        ["descriptors"] => descriptors::measure(),
        ["builds"] => builds::measure(),
        #[cfg(feature = "proved")]
        ["calls"] => calls::measure(),
        #[cfg(feature = "proved")]
        ["call", table, way, calls] => calls::run(table, way, calls),
        ["all", file] => all(file),
        ["run", case, side, calls] => run(case, side, calls),
        ["cases", file] => worked(file),
        _ => Err(wrong("no such command; `bench --help` names them")),
    };
    match done {
        Ok(()) => ExitCode::SUCCESS,
        Err(error) => {
            eprintln!("bench: {error}");
            ExitCode::from(if error.is::<Wrong>() { 2 } else { 1 })
        }
    }
}

/// Asks every side for the answers to a list of worked cases.
fn worked(file: &str) -> Result<(), Box<dyn Error>> {
    let cases = data::worked::read_file(file).map_err(wrong)?;
    let (passed, failed) = worked::compare(&cases);
    println!("{passed} passed, {failed} failed");
    if failed > 0 {
        return Err("not all answers are those of the list".into());
    }
    Ok(())
}

fn list() {
    for case in cases() {
        println!("{:24} {}", case.name, case.about);
    }
    for growth in growth::GROWTHS {
        let sizes: Vec<String> = growth.sizes.iter().map(usize::to_string).collect();
        println!("{:24} {}", format!("{}:SIZE", growth.name), growth.about);
        println!("{:24} SIZE one of {}", "", sizes.join(", "));
    }
    for sweep in sweep::SWEEPS {
        let (first, last) = (sweep::LENGTHS.start(), sweep::LENGTHS.end());
        println!("{:24} {}", format!("{}:LENGTH", sweep.name), sweep.about);
        println!("{:24} LENGTH from {first} to {last}", "");
    }
    for (name, about) in descriptors::list() {
        println!("{name:24} {about}");
    }
    for (name, about) in lookups::list().chain(builds::list()) {
        println!("{name:24} {about}");
    }
}

/// One case, by the name that `bench list` gives it. Prints the sum of the
/// answers, so that none of the calls can be left out.
fn run(case: &str, side: &str, calls: &str) -> Result<(), Box<dyn Error>> {
    let side = Side::named(side).ok_or_else(|| wrong(format!("no side {side} in this build")))?;
    let calls = number_of_calls(calls)?;
    if let Some(replied) = descriptors::run(case, side, calls) {
        println!("{}", replied.map_err(|reply| format!("{case}: it replies {reply:?}"))?);
        return Ok(());
    }
    let sum = lookups::run(case, side, calls).or_else(|| builds::run(case, side, calls));
    if let Some(sum) = sum {
        println!("{sum}");
        return Ok(());
    }
    let input = tables::input(case).or_else(|| growth::input(case)).or_else(|| sweep::input(case));
    let input = input.ok_or_else(|| wrong(format!("no case {case}; `bench list` names them")))?;
    println!("{}", side.run(&input, calls));
    Ok(())
}

fn number_of_calls(calls: &str) -> Result<u64, Box<dyn Error>> {
    calls.parse().map_err(|_| wrong(format!("{calls} is no number of calls")))
}

/// All tables, and a chart of the first two.
fn all(file: &str) -> Result<(), Box<dyn Error>> {
    if Side::PROVED.is_none() {
        return Err(wrong("a chart needs the proved side: build with the feature `proved`"));
    }
    // Told before minutes of measuring.
    let path = Path::new(file);
    let folder = path.parent().filter(|folder| !folder.as_os_str().is_empty());
    if path.is_dir() || folder.is_some_and(|folder| !folder.is_dir()) {
        return Err(wrong(format!("cannot write {file}: it is a folder, or is in none")));
    }
    let ratios = table()?;
    println!();
    let series = growth::measure()?;
    let chart = chart::draw(&ratios, geometric_mean(&ratios), &series);
    std::fs::write(file, chart).map_err(|error| format!("cannot write {file}: {error}"))?;
    println!();
    sweep::measure()?;
    println!();
    lookups::measure()?;
    println!();
    descriptors::measure()?;
    println!();
    builds::measure()
}

/// Measures all cases and prints them as a table; the ratios of proved to plain.
fn table() -> Result<Vec<(&'static str, f64)>, Box<dyn Error>> {
    let heads = ["plain", "linear", "proved", "ratio", "to linear", "plain ns", "proved ns"];
    row("case", &heads);
    row("---", &["---:"; 7]);
    let mut to_plain = Vec::new();
    let mut to_linear = Vec::new();
    for case in cases() {
        let costs = Measured::new(case.name, (case.build)())?.costs()?;
        let instructions = costs.map(|cost| cost.instructions);
        let nanoseconds = costs.map(|cost| cost.nanoseconds);
        to_plain.extend(instructions.to_plain().map(|ratio| (case.name, ratio)));
        to_linear.extend(instructions.to_linear().map(|ratio| (case.name, ratio)));
        let cells = [
            grouped(instructions.plain),
            instructions.linear.map_or("-".into(), grouped),
            instructions.proved.map_or("-".into(), grouped),
            optional(instructions.to_plain(), 3),
            optional(instructions.to_linear(), 3),
            grouped(nanoseconds.plain),
            nanoseconds.proved.map_or("-".into(), grouped),
        ];
        row(&format!("{}: {}", case.name, case.about), &cells);
    }
    if !to_plain.is_empty() {
        println!();
        means("plain", &to_plain);
        means("linear", &to_linear);
    }
    Ok(to_plain)
}

/// Prints the geometric means of the ratios to a baseline, by kinds of cases.
fn means(baseline: &str, ratios: &[(&str, f64)]) {
    let mean = |kind: &str| {
        let ratios = ratios.iter().filter(|(name, _)| name.starts_with(kind));
        let ratios: Vec<(&str, f64)> = ratios.copied().collect();
        let of = if kind.is_empty() { "all" } else { kind };
        (!ratios.is_empty()).then(|| format!("{of} {:.2}", geometric_mean(&ratios)))
    };
    let means: Vec<String> =
        ["check", "hostile", "walk", ""].into_iter().filter_map(mean).collect();
    println!("Geometric means of the ratios to {baseline}: {}.", means.join(", "));
}

fn geometric_mean(ratios: &[(&str, f64)]) -> f64 {
    let logs: f64 = ratios.iter().map(|(_, ratio)| ratio.ln()).sum();
    (logs / ratios.len() as f64).exp()
}

/// Prints a row of a table.
fn row(first: &str, cells: &[impl AsRef<str>]) {
    let cells: Vec<&str> = cells.iter().map(AsRef::as_ref).collect();
    println!("| {first} | {} |", cells.join(" | "));
}

fn optional(number: Option<f64>, decimals: usize) -> String {
    number.map_or("-".into(), |number| format!("{number:.decimals$}"))
}

/// A whole number, its digits in groups of three.
fn grouped(number: f64) -> String {
    let digits = format!("{number:.0}");
    let mut grouped = String::new();
    for (i, digit) in digits.chars().enumerate() {
        if i > 0 && (digits.len() - i) % 3 == 0 {
            grouped.push(',');
        }
        grouped.push(digit);
    }
    grouped
}
