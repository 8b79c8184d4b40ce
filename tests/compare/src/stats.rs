//! How often each kind of answer, rule, event and count occurred.

mod builds;
mod handles;
mod lookups;
mod manifests;
mod pairs;
mod sequences;

use crate::builder::ERANGE;
use crate::case::Alike;
use crate::descriptors::{EMFILE, ENOTTY};
use crate::resolver::{Answer, Event, Met};
use builds::Builds;
use handles::Handles;
use lookups::Lookups;
use manifests::Manifests;
use pairs::Pairs;
use sequences::Sequences;
use std::collections::BTreeMap;
use std::fmt::Display;

#[derive(Default)]
pub struct Stats {
    pub tables: u64,
    pub accepted: u64,
    pub calls: u64,
    pub found: u64,
    pub stopped: u64,
    rules: BTreeMap<(u64, &'static str), u64>,
    first: BTreeMap<(u64, bool), u64>,
    second: BTreeMap<u64, u64>,
    details: BTreeMap<&'static str, u64>,
    /// How many events there were, and in how many walks they were.
    events: BTreeMap<&'static str, (u64, u64)>,
    stops: BTreeMap<&'static str, u64>,
    components: BTreeMap<(u64, String), u64>,
    links: BTreeMap<(u64, String), u64>,
    handles: Handles,
    pub descriptors: Sequences,
    pub lookups: Lookups,
    pub builds: Builds,
    pub manifests: Manifests,
    pub pairs: Pairs,
}

fn share(count: u64, of: u64) -> f64 {
    100.0 * count as f64 / of.max(1) as f64
}

fn line(label: &dyn Display, count: u64, of: u64) {
    println!("  {label:<30} {count:>9}  {:>6.2} %", share(count, of));
}

const fn errno_name(errno: u64) -> &'static str {
    match errno {
        0 => "found",
        2 => "ENOENT",
        7 => "E2BIG",
        9 => "EBADF",
        18 => "EXDEV",
        20 => "ENOTDIR",
        22 => "EINVAL",
        EMFILE => "EMFILE",
        ENOTTY => "ENOTTY",
        ERANGE => "ERANGE",
        36 => "ENAMETOOLONG",
        40 => "ELOOP",
        117 => "EUCLEAN",
        _ => "?",
    }
}

fn event_name(event: Event) -> &'static str {
    match event {
        Event::Start => "Start",
        Event::Escape => "Escape",
        Event::Cross => "Cross",
        Event::Link => "Link",
        Event::Magic { leaves: true } => "Magic, other mount",
        Event::Magic { leaves: false } => "Magic, same mount",
        Event::Jump { leaves: true } => "Jump, other mount",
        Event::Jump { leaves: false } => "Jump, same mount",
    }
}

fn range(count: u64, bounds: &[u64]) -> (u64, String) {
    let mut low = 0;
    for bound in bounds {
        if count <= *bound {
            let label = if low == *bound { format!("{low}") } else { format!("{low} to {bound}") };
            return (low, label);
        }
        low = bound + 1;
    }
    (low, format!("{low} and more"))
}

impl Stats {
    pub fn cases(&self) -> u64 {
        self.tables
            + self.calls
            + self.descriptors.sequences
            + self.lookups.lookups
            + self.builds.builds
            + self.manifests.manifests
            + self.pairs.pairs
    }

    pub fn note(&mut self, alike: &Alike) {
        match alike {
            Alike::Check([rule, record]) => {
                self.tables += 1;
                self.accepted += u64::from(*rule == 0);
                let which = match (rule, record) {
                    (0..=3, _) => "",
                    (_, 0) => "record 0",
                    _ => "later record",
                };
                *self.rules.entry((*rule, which)).or_default() += 1;
            }
            Alike::Call { first, events, second, stopped, tried } => {
                self.calls += 1;
                self.note_call(first, events);
                if let Some(tried) = tried {
                    self.handles.note(tried, first.numbers()[0]);
                }
                *self.second.entry(second.numbers()[0]).or_default() += 1;
                if let Some(event) = stopped {
                    self.stopped += 1;
                    *self.stops.entry(event_name(*event)).or_default() += 1;
                }
            }
            Alike::Sequence { accepted, told } => self.descriptors.note(*accepted, told),
            Alike::Lookup { count, answer } => self.lookups.note(*count, answer),
            Alike::Build(told) => self.builds.note(told),
            Alike::Manifest(told) => self.manifests.note(told),
            Alike::Pair(told) => self.pairs.note(told),
        }
    }

    fn note_call(&mut self, first: &Answer, events: &[Met]) {
        let [errno, detail, _, _, components, links] = first.numbers();
        self.found += u64::from(errno == 0);
        let walked = components > 0 || !events.is_empty() || errno == 0;
        *self.first.entry((errno, walked)).or_default() += 1;
        if errno == 22 {
            let which = match detail {
                0..=31 => "flags, low half",
                32..=63 => "flags, high half",
                64..=95 => "resolve, low half",
                96..=127 => "resolve, high half",
                _ => "none",
            };
            *self.details.entry(which).or_default() += 1;
        }
        let mut seen = BTreeMap::new();
        for met in events {
            *seen.entry(event_name(met.event)).or_insert(0) += 1;
        }
        for (name, times) in seen {
            let entry = self.events.entry(name).or_default();
            entry.0 += times;
            entry.1 += 1;
        }
        if walked {
            let bounds = [0, 1, 2, 3, 5, 8, 15, 40, 100, 1000, 83_967];
            *self.components.entry(range(components, &bounds)).or_default() += 1;
            let bounds = [0, 1, 2, 3, 5, 10, 37, 38, 39, 40];
            *self.links.entry(range(links, &bounds)).or_default() += 1;
        }
    }

    /// What should occur in every run of some length and did not.
    #[cfg(test)]
    pub fn missing(&self) -> Vec<String> {
        let rules = (0..=7)
            .filter(|rule| !self.rules.keys().any(|(broken, _)| broken == rule))
            .map(|rule| format!("rule {rule}"));
        let before = [2, 7, 9, 20, 22, 36, 117].map(|errno| (errno, false));
        let walked = [0, 2, 18, 20, 36, 40].map(|errno| (errno, true));
        let answers = [&before[..], &walked[..]].concat();
        let answers = answers
            .into_iter()
            .filter(|answer| !self.first.contains_key(answer))
            .map(|(errno, walked)| format!("{}, walked: {walked}", errno_name(errno)));
        let mut events = vec![Event::Start, Event::Escape, Event::Cross, Event::Link];
        for leaves in [false, true] {
            events.push(Event::Magic { leaves });
            events.push(Event::Jump { leaves });
        }
        let events = events
            .into_iter()
            .map(event_name)
            .filter(|name| !self.events.contains_key(name) || !self.stops.contains_key(name))
            .map(String::from);
        let handles = self.handles.missing_in_calls().into_iter();
        let others = handles
            .chain(self.descriptors.missing())
            .chain(self.lookups.missing())
            .chain(self.builds.missing())
            .chain(self.manifests.missing())
            .chain(self.pairs.missing());
        rules.chain(answers).chain(events).chain(others).collect()
    }

    pub fn print(&self) {
        println!("table checks, by the rule broken:");
        for ((rule, which), count) in &self.rules {
            let label = match rule {
                0 => "accepted".to_string(),
                _ => format!("rule {rule} {which}"),
            };
            line(&label, *count, self.tables);
        }
        self.print_answers();
        self.handles.print("calls");
        self.print_walks();
        self.descriptors.print();
        self.lookups.print();
        self.builds.print();
        self.manifests.print();
        self.pairs.print();
    }

    fn print_answers(&self) {
        println!("calls, by the first answer:");
        for ((errno, walked), count) in &self.first {
            let when = if *walked { "" } else { ", before the walk" };
            line(&format!("{}{when}", errno_name(*errno)), *count, self.calls);
        }
        println!("details of EINVAL:");
        for (which, count) in &self.details {
            line(which, *count, self.calls);
        }
        println!("calls, by the answer with restrictions added:");
        for (errno, count) in &self.second {
            line(&errno_name(*errno), *count, self.calls);
        }
    }

    fn print_walks(&self) {
        println!("events met (all, and the share of calls that met one):");
        for (name, (all, calls)) in &self.events {
            println!("  {name:<30} {all:>9}  {:>6.2} %", share(*calls, self.calls));
        }
        println!("second calls stopped by an added restriction, by the event:");
        for (name, count) in &self.stops {
            line(name, *count, self.calls);
        }
        println!("components taken in a walk:");
        for ((_, label), count) in &self.components {
            line(label, *count, self.calls);
        }
        println!("links followed in a walk:");
        for ((_, label), count) in &self.links {
            line(label, *count, self.calls);
        }
    }
}
