//! Compares Ventolaire's resolver, descriptors, lookups and builder with independent second
//! ones over many seeded inputs, and both with the list of worked cases; and tries over pairs of
//! tables that what lies outside a handle's part makes no difference. `compare --help` has the
//! commands.
//!
//! Built with the feature `subject` it compares with the library:
//!
//! ```text
//! VENTOLAIRE_LIB=FOLDER cargo run --release --features subject -- --stats
//! ```
//!
//! Without it, it compares with the second shape of the resolver in `faulty`,
//! where `--fault NAME` plants one of the faults of `faults`.

mod arguments;
#[cfg(all(test, feature = "subject"))]
mod binding;
mod build;
mod builder;
mod case;
mod common;
mod descriptors;
mod faults;
mod faulty;
mod generate;
mod given;
mod halving;
mod lookup;
mod manifest;
mod pair;
mod plant;
mod reach;
mod report;
mod resolver;
mod sequence;
mod shrink;
mod stats;
mod subject;
mod tree;
mod tried;
mod worked;

use arguments::Arguments;
use case::{Call, Case};
use generate::{Cases, Wanted};
use given::given;
use pair::Pair;
use report::{describe, print_difference, report};
use sequence::Sequence;
use stats::Stats;
use std::process::ExitCode;
use std::sync::Mutex;
use std::time::{Duration, Instant};
use subject::{Subject, Way};

const HELP: &str = "\
Compares the resolver, the descriptors, the lookups and the builder with independent second ones.

compare [--seed N] [--calls N] [--tables N] [--sequences N] [--lookups N] [--builds N]
        [--manifests N] [--pairs N] [--seconds N] [--stats] [--announce]
compare replay --image HEX [[--mount N] [--node N] [--mark 0|1] --path HEX --how HEX
               [--added N] [--added-mark 0|1]]
compare replay --image HEX --sequence CALL[,CALL]..
compare replay --image HEX [--node N] --name HEX
compare replay --image HEX --manifest
compare replay --image HEX --other HEX [--mount N] [--node N] [--mark 0|1] --path HEX --how HEX
               [--common 0|1] [--script CALL[,CALL]..]
compare replay [--nodes HEX] [--mounts HEX] [--entries HEX] [--text HEX] --room N
compare show [--seed N] --call N | --table N | --sequence N | --lookup N | --build N |
                        --manifest N | --pair N
compare cases FILE
compare faults [--seed N] [--cases FILE]
compare --help

Without a command, inputs are made from the seed, 1 if not given: as many as said, or as many as
take so many seconds. A sequence is up to 200 calls on descriptors, a lookup is that of a name in
one directory, a build writes an image from its parts into a buffer with room for so many bytes, a
manifest is that of a table, of which an image with the same tree is built again, and a pair is one
call over two tables which have the part of its handle in common (--common 1) or not (0), with a
script of calls on descriptors, of which at first number 1 alone is open, on the handle. A
difference is shrunk and printed as the arguments of `compare replay`, which shows both answers to
it; a CALL on descriptors is open:NUMBER:MARK:PATH:HOW[:ADDED:ADDED_MARK] with the bytes in
hexadecimal, dup:NUMBER, close:NUMBER or set_mark:NUMBER. `compare show` prints one input of a run.
`compare cases` asks both sides for the answers to the list of worked cases, crates/cases/stdin.
`compare faults` plants faults in a resolver and sees that each is found by the comparison, with
a list of cases also by the case that it is known to be found by, and one that lets a walk out of
its handle's part also by what is claimed of pairs. In a build without the library, `--fault NAME`
plants one of them.

The last line counts what passed and what failed. The status is 0, 1 if anything failed, 2 if the
arguments or a file are wrong.
";

const USUAL: Wanted = Wanted {
    tables: 100_000,
    calls: 300_000,
    sequences: 30_000,
    lookups: 500_000,
    builds: 60_000,
    manifests: 20_000,
    pairs: 20_000,
};
/// After so many differences a run ends.
const MOST_DIFFERENCES: u64 = 3;
/// A case that takes longer has not ended.
const LONGEST_CASE: Duration = Duration::from_secs(90);

#[cfg(feature = "subject")]
fn subject(arguments: &Arguments) -> Result<Box<dyn Subject>, String> {
    match arguments.flag("--fault") {
        true => Err("--fault wants a build without the feature `subject`".into()),
        false => Ok(Box::new(subject::Linked)),
    }
}

#[cfg(not(feature = "subject"))]
fn subject(arguments: &Arguments) -> Result<Box<dyn Subject>, String> {
    let named = |name: &str| {
        let fault = faults::Fault::ALL.iter().find(|fault| format!("{fault:?}") == name);
        fault.copied().ok_or_else(|| format!("no fault is named {name}"))
    };
    Ok(Box::new(subject::Planted(arguments.text("--fault").map(named).transpose()?)))
}

fn main() -> ExitCode {
    let arguments = Arguments(std::env::args().skip(1).collect());
    if arguments.flag("--help") || arguments.flag("-h") {
        print!("{HELP}");
        return ExitCode::SUCCESS;
    }
    let done = match arguments.command() {
        None => run(&arguments),
        Some("replay") => replay(&arguments),
        Some("show") => show(&arguments),
        Some("cases") => cases(&arguments),
        Some("faults") => plant::run(&arguments),
        Some(other) => Err(format!("no command is named {other}; `compare --help` has them")),
    };
    match done {
        Ok(true) => ExitCode::SUCCESS,
        Ok(false) => ExitCode::FAILURE,
        Err(message) => {
            eprintln!("compare: {message}");
            ExitCode::from(2)
        }
    }
}

/// The case under comparison, for the watch.
static NOW: Mutex<(&str, u64)> = Mutex::new(("", 0));

fn now() -> (&'static str, u64) {
    *NOW.lock().unwrap_or_else(|poisoned| poisoned.into_inner())
}

/// Every walk ends: a case that does not is reported by name.
fn watch(seed: u64) {
    std::thread::spawn(move || {
        let mut last = (now(), Instant::now());
        loop {
            std::thread::sleep(Duration::from_secs(1));
            let current = now();
            if current != last.0 {
                last = (current, Instant::now());
            } else if last.1.elapsed() > LONGEST_CASE {
                println!("seed {seed}, {} {}: no answer", current.0, current.1);
                println!("0 passed, 1 failed");
                std::process::exit(1);
            }
        }
    });
}

/// What a run is asked for.
struct Run {
    seed: u64,
    wanted: Wanted,
    longest: Option<Duration>,
    announce: bool,
}

/// How many of each stream there are to be.
const COUNTS: [&str; 7] =
    ["--tables", "--calls", "--sequences", "--lookups", "--builds", "--manifests", "--pairs"];

impl Run {
    fn of(arguments: &Arguments) -> Result<Run, String> {
        let options = [&COUNTS[..], &["--seed", "--seconds", "--fault"]].concat();
        arguments.known(&["--stats", "--announce"], &options)?;
        let seconds = arguments.number("--seconds")?;
        let is_counted = COUNTS.iter().any(|name| arguments.flag(name));
        // With a time given alone, it is the time that ends the run.
        let count = |name, usual| {
            let usual = if seconds.is_some() && !is_counted { u64::MAX } else { usual };
            Ok::<u64, String>(arguments.number(name)?.unwrap_or(usual))
        };
        let wanted = Wanted {
            tables: count("--tables", USUAL.tables)?,
            calls: count("--calls", USUAL.calls)?,
            sequences: count("--sequences", USUAL.sequences)?,
            lookups: count("--lookups", USUAL.lookups)?,
            builds: count("--builds", USUAL.builds)?,
            manifests: count("--manifests", USUAL.manifests)?,
            pairs: count("--pairs", USUAL.pairs)?,
        };
        Ok(Run {
            seed: arguments.number("--seed")?.unwrap_or(1),
            wanted,
            longest: seconds.map(Duration::from_secs),
            announce: arguments.flag("--announce"),
        })
    }

    /// What was alike, and how many differences were found and told.
    fn compare(&self, subject: &mut dyn Subject) -> (Stats, u64) {
        let since = Instant::now();
        let mut stats = Stats::default();
        let mut failed = 0;
        for numbered in Cases::new(self.seed, self.wanted) {
            if self.longest.is_some_and(|longest| since.elapsed() >= longest) {
                break;
            }
            if self.announce {
                eprintln!("{} {}", numbered.stream, numbered.number);
            }
            *NOW.lock().unwrap_or_else(|poisoned| poisoned.into_inner()) =
                (numbered.stream, numbered.number);
            match numbered.case.compare(subject) {
                Ok(alike) => stats.note(&alike),
                Err(difference) => {
                    failed += 1;
                    report(self.seed, &numbered, &difference, subject);
                    if failed == MOST_DIFFERENCES {
                        break;
                    }
                }
            }
        }
        (stats, failed)
    }
}

fn run(arguments: &Arguments) -> Result<bool, String> {
    let run = Run::of(arguments)?;
    let mut subject = subject(arguments)?;
    let since = Instant::now();
    watch(run.seed);
    let (stats, failed) = run.compare(subject.as_mut());
    if arguments.flag("--stats") {
        stats.print();
    }
    println!(
        "seed {}: {} tables checked, {} of them accepted; {} calls, {} of them found, \
         each with a second call, {} of these stopped by an added restriction; {} sequences \
         of {} calls on descriptors, {} of them with all 64 open; {} lookups, {} of them \
         found; {} builds, {} of them written; {} manifests, {} of them built again; {} pairs, {} \
         of them with a part in common; {:.1} s",
        run.seed,
        stats.tables,
        stats.accepted,
        stats.calls,
        stats.found,
        stats.stopped,
        stats.descriptors.sequences,
        stats.descriptors.steps,
        stats.descriptors.filled,
        stats.lookups.lookups,
        stats.lookups.found,
        stats.builds.builds,
        stats.builds.written,
        stats.manifests.manifests,
        stats.manifests.rewritten,
        stats.pairs.pairs,
        stats.pairs.common,
        since.elapsed().as_secs_f64()
    );
    println!("{} passed, {failed} failed", stats.cases());
    Ok(failed == 0)
}

/// Both answers to one given case.
fn replay(arguments: &Arguments) -> Result<bool, String> {
    let case = given(arguments)?;
    let mut subject = subject(arguments)?;
    if !matches!(case, Case::Build(_)) {
        println!("check:");
        println!("  expected {:?}", resolver::check(&case.image()));
        println!("  got      {:?}", subject.check(&mut case.image().to_vec()));
    }
    print_answers(&case, subject.as_mut());
    describe(&case);
    let compared = case.compare(subject.as_mut());
    if let Err(difference) = &compared {
        print_difference(difference);
    }
    let passed = u8::from(compared.is_ok());
    println!("{passed} passed, {} failed", 1 - passed);
    Ok(compared.is_ok())
}

/// Both answers, besides that to the check of the image.
fn print_answers(case: &Case, subject: &mut dyn Subject) {
    match case {
        Case::Table(_) | Case::Manifest(_) => {}
        Case::Call(call) => call_answers(call, subject),
        Case::Sequence(sequence) => sequence_answers(sequence, subject),
        Case::Lookup(lookup) => {
            println!("lookup:\n  expected {:?}", lookup.expected());
            for (got, _) in lookup.got(subject) {
                println!("  got      {got:?}");
            }
        }
        Case::Build(build) => {
            let built = build.expected();
            println!("build:\n  expected {:?}", built.numbers);
            println!("  got      {:?}", build.got(subject, &built.image).0);
            println!("  image    {}", data::hex(&built.image));
        }
        Case::Pair(pair) => pair_answers(pair, subject),
    }
}

fn sequence_answers(sequence: &Sequence, subject: &mut dyn Subject) {
    let (got, _) = sequence.got(subject, Way::CHECKED);
    // The start's is the check's.
    let replies = sequence.expected().into_iter().zip(got).skip(1);
    for ((number, step), (expected, got)) in sequence.steps.iter().enumerate().zip(replies) {
        println!("call {number}, {step}:\n  expected {expected:?}\n  got      {got:?}");
    }
}

/// The call over both tables, with the places stood on, and the script.
fn pair_answers(pair: &Pair, subject: &mut dyn Subject) {
    println!("check of the second table:");
    println!("  expected {:?}", resolver::check(&pair.other));
    println!("  got      {:?}", subject.check(&mut pair.other.clone()));
    for (name, call) in pair::NAMES.iter().zip(pair.calls()) {
        answers(&format!("{name}: resolve"), &call, subject);
        println!("  stood on {}", pair::in_words(&call.stood()));
    }
    for (name, sequence) in pair::NAMES.iter().zip(pair.scripts().iter().flatten()) {
        println!("{name}: script");
        sequence_answers(sequence, subject);
    }
}

/// The call, the same from another handle if its own is not checked, and the second call.
fn call_answers(call: &Call, subject: &mut dyn Subject) {
    answers("resolve", call, subject);
    if let Some(other) = call.with_another_handle() {
        answers(&format!("from ({},{})", other.mount, other.node), &other, subject);
    }
    answers("with the added ones", &call.second(), subject);
}

/// Prints both answers to a call, and the events of its walk.
fn answers(title: &str, call: &Call, subject: &mut dyn Subject) {
    let (answer, events) = call.answer();
    println!("{title}:");
    println!("  expected {:?}", answer.numbers());
    println!("  got      {:?}", call.ask(subject));
    for met in events {
        println!("  {:?} at {},{}", met.event, met.components, met.links);
    }
}

/// The bytes of one case of a run, without comparing it.
fn show(arguments: &Arguments) -> Result<bool, String> {
    let streams = ["call", "table", "sequence", "lookup", "build", "manifest", "pair"];
    let options = streams.map(|stream| format!("--{stream}"));
    let options: Vec<&str> = options.iter().map(String::as_str).chain(["--seed"]).collect();
    arguments.known(&[], &options)?;
    let seed = arguments.number("--seed")?.unwrap_or(1);
    let mut numbers = Vec::new();
    for stream in streams {
        let number = arguments.number(&format!("--{stream}"))?;
        numbers.extend(number.map(|number| (stream, number)));
    }
    let case = match numbers[..] {
        [(stream, number)] => generate::one(seed, stream, number),
        _ => None,
    };
    let wanted = "show wants one number: --call N, --table N or another stream";
    let case = case.ok_or(wanted)?;
    describe(&case);
    println!("replay {case}");
    Ok(true)
}

/// Asks both sides for the answers that were worked out by hand.
fn cases(arguments: &Arguments) -> Result<bool, String> {
    let others = arguments.others(&[], &["--fault"])?;
    let [file] = others[..] else { return Err("cases wants one list of cases".into()) };
    let mut subject = subject(arguments)?;
    let (mut passed, mut failed) = (0, 0);
    for worked in worked::read_file(file)? {
        let compared = [worked.compare_resolver(), worked.compare_subject(subject.as_mut())];
        passed += compared.iter().filter(|compared| compared.is_ok()).count();
        for difference in compared.into_iter().filter_map(Result::err) {
            failed += 1;
            println!("{}", worked.name());
            print_difference(&difference);
            println!("  replay {worked}");
        }
    }
    println!("{passed} passed, {failed} failed");
    Ok(failed == 0)
}
