//! Makes a case that shows a difference smaller, as long as it still does.

mod builds;
mod pairs;

use crate::case::{Call, Case, Difference};
use crate::lookup::Lookup;
use crate::pair::Pair;
use crate::resolver::accept;
use crate::sequence::Sequence;
use crate::subject::Subject;
use crate::tree;
use data::fields::{get, set};
use data::how;
use data::image::{Entry, Node, Text, Tree};
use data::sequence::{Open, Step};
use std::time::{Duration, Instant};

const MOST_TRIES: usize = 20_000;
const LONGEST: Duration = Duration::from_secs(8);

pub fn shrink(subject: &mut dyn Subject, case: &Case) -> Case {
    let sort = match case {
        Case::Pair(pair) => pair.compare(subject).err().map(|difference| sort(&difference.what)),
        _ => None,
    };
    let since = Instant::now();
    let mut shrinker = Shrinker { subject, best: case.clone(), sort, tries: 0, since };
    while shrinker.pass() {}
    shrinker.best
}

struct Shrinker<'a> {
    subject: &'a mut dyn Subject,
    best: Case,
    /// What must differ still. A pair that is no longer what it is said to be differs too, but
    /// not in what was found.
    sort: Option<String>,
    tries: usize,
    since: Instant,
}

impl Shrinker<'_> {
    /// Whether enough was tried.
    fn spent(&self) -> bool {
        self.tries >= MOST_TRIES || self.since.elapsed() > LONGEST
    }

    /// Keeps the candidate if it still shows a difference.
    fn attempt(&mut self, candidate: Case) -> bool {
        if candidate == self.best || self.spent() {
            return false;
        }
        self.tries += 1;
        let compared = candidate.compare(self.subject);
        let is_wanted = |difference: &Difference| {
            self.sort.as_ref().is_none_or(|wanted| sort(&difference.what) == *wanted)
        };
        let differs = compared.err().is_some_and(|difference| is_wanted(&difference));
        if differs {
            self.best = candidate;
        }
        differs
    }

    /// Number 0 in a field of the best case, if it has it.
    fn attempt_zero(&mut self, field: Field) -> bool {
        let mut candidate = self.best.clone();
        if let Some(number) = field(&mut candidate) {
            *number = 0;
        }
        self.attempt(candidate)
    }

    /// Another name for the best case, if it is a lookup.
    fn attempt_name(&mut self, changed: Vec<u8>) -> bool {
        let mut candidate = self.best.clone();
        if let Case::Lookup(lookup) = &mut candidate {
            lookup.name = changed;
        }
        self.attempt(candidate)
    }

    /// Changes the calls of the best case on descriptors, if it has such.
    fn attempt_steps(&mut self, change: impl FnOnce(&mut Vec<Step>)) -> bool {
        let mut candidate = self.best.clone();
        if let Case::Sequence(Sequence { steps, .. }) | Case::Pair(Pair { steps, .. }) =
            &mut candidate
        {
            change(steps);
        }
        self.attempt(candidate)
    }

    /// Changes one of the best case's calls that have a path.
    fn attempt_parts(&mut self, index: usize, change: impl FnOnce(&mut Parts)) -> bool {
        let mut candidate = self.best.clone();
        if let Some(parts) = parts(&mut candidate).get_mut(index) {
            change(parts);
        }
        self.attempt(candidate)
    }

    /// All the ways once; whether one of them helped.
    fn pass(&mut self) -> bool {
        let before = self.best.clone();
        self.drop_steps();
        self.shrink_steps();
        self.attempt_zero(mount_of);
        self.attempt_zero(node_of);
        self.shrink_name();
        let with_a_path = parts(&mut self.best).len();
        for index in 0..with_a_path {
            self.shrink_parts(index);
        }
        self.shrink_build();
        if accept(&self.best.image()).is_ok() {
            self.shrink_table();
        } else {
            self.shrink_bytes();
        }
        self.shrink_pair();
        self.best != before
    }

    fn steps(&self) -> &[Step] {
        match &self.best {
            Case::Sequence(Sequence { steps, .. }) | Case::Pair(Pair { steps, .. }) => steps,
            _ => &[],
        }
    }

    /// Takes out runs of calls, long ones first.
    fn drop_steps(&mut self) {
        let mut run = self.steps().len();
        while run > 0 {
            let mut at = 0;
            while at < self.steps().len() && !self.spent() {
                let end = (at + run).min(self.steps().len());
                let dropped = self.attempt_steps(|steps| drop(steps.drain(at..end)));
                at += if dropped { 0 } else { run };
            }
            run /= 2;
        }
    }

    /// Lower numbers, and duplicates for opens that only take a number.
    fn shrink_steps(&mut self) {
        for at in 0..self.steps().len() {
            if matches!(self.steps()[at], Step::Open(_)) {
                self.attempt_steps(|steps| steps[at] = Step::Dup(steps[at].number()));
            }
            self.attempt_steps(|steps| *steps[at].number_mut() = 0);
            self.attempt_steps(|steps| {
                let number = steps[at].number_mut();
                *number = number.saturating_sub(1);
            });
        }
    }

    /// Fewer restrictions, a plainer open_how and a shorter path.
    fn shrink_parts(&mut self, index: usize) {
        self.attempt_parts(index, |parts| *parts.mark = false);
        self.attempt_parts(index, |parts| *parts.added_mark = false);
        for bit in 0..4 {
            self.attempt_parts(index, |parts| *parts.added &= !(1 << bit));
        }
        self.shrink_how(index);
        self.shrink_path(index);
    }

    fn shrink_how(&mut self, index: usize) {
        self.attempt_parts(index, |parts| *parts.how = how(0, 0));
        self.attempt_parts(index, |parts| parts.how.truncate(24));
        let length = parts(&mut self.best).get(index).map_or(0, |parts| parts.how.len());
        for at in 0..length {
            self.attempt_parts(index, |parts| parts.how[at] = 0);
            for bit in 0..8 {
                self.attempt_parts(index, |parts| parts.how[at] &= !(1 << bit));
            }
        }
    }

    fn path(&mut self, index: usize) -> Option<Vec<u8>> {
        parts(&mut self.best).get(index).map(|parts| parts.path.clone())
    }

    /// Takes out runs of components, long ones first, then slashes.
    fn shrink_path(&mut self, index: usize) {
        let mut length = usize::MAX;
        while let Some(path) = self.path(index) {
            let components: Vec<&[u8]> = path.split(|byte| *byte == b'/').collect();
            length = length.min(components.len());
            let helped = (0..components.len()).any(|from| {
                let rest = components.get(from + length..).unwrap_or(&[]);
                let kept = [&components[..from], rest].concat().join(&b'/');
                self.attempt_parts(index, |parts| *parts.path = kept)
            });
            if !helped && length <= 1 {
                break;
            }
            if !helped {
                length /= 2;
            }
        }
    }

    /// Takes runs of bytes out of the name that is looked up, long ones first.
    fn shrink_name(&mut self) {
        let mut run = usize::MAX;
        while let Case::Lookup(Lookup { name, .. }) = &self.best {
            let name = name.clone();
            run = run.min(name.len());
            let without = |at: usize| [&name[..at], &name[(at + run).min(name.len())..]].concat();
            let mut starts = (0..name.len()).step_by(run.max(1));
            let helped = starts.any(|at| self.attempt_name(without(at)));
            if !helped && run <= 1 {
                break;
            }
            if !helped {
                run /= 2;
            }
        }
    }

    /// The best case with another tree for its table.
    fn attempt_tree(&mut self, tree: &Tree, change: impl FnOnce(&mut Case)) -> bool {
        let image = tree.shared_image();
        if accept(&image).is_err() {
            return false;
        }
        let mut candidate = self.best.with_image(image);
        change(&mut candidate);
        self.attempt(candidate)
    }

    fn shrink_table(&mut self) {
        let image = self.best.image().into_owned();
        let Ok(table) = accept(&image) else {
            return;
        };
        let mut tree = tree::of(&table);
        // From here on the image is the tree's.
        let in_place = tree::in_place(&table);
        if image != tree.shared_image() && !self.attempt_tree(&tree, |_| {}) {
            tree = in_place;
        }
        self.shrink_nodes(&mut tree);
        self.shrink_beginnings(&mut tree);
        for number in (0..tree.mounts.len()).rev() {
            let candidate = tree::without_mount(&tree, number);
            self.attempt_without(&mut tree, candidate, number as u64, mount_of);
        }
        for number in (0..tree.nodes.len()).rev() {
            if self.spent() {
                return;
            }
            let candidate = tree::without_node(&tree, number);
            self.attempt_without(&mut tree, candidate, number as u64, node_of);
        }
    }

    /// Fewer names, shorter bodies, files for magic links.
    fn shrink_nodes(&mut self, tree: &mut Tree) {
        for number in (0..tree.nodes.len()).rev() {
            if self.spent() {
                return;
            }
            match tree.nodes[number].clone() {
                Node::Directory { entries, .. } => {
                    let names: Vec<Vec<u8>> =
                        entries.into_iter().map(|entry| entry.name.bytes).collect();
                    self.shrink_entries(tree, number, &names);
                }
                Node::Link(body) => {
                    shorter(&body.bytes)
                        .into_iter()
                        .any(|body| self.attempt_node(tree, number, Node::Link(body.into())));
                }
                Node::Magic { .. } => {
                    self.attempt_node(tree, number, Node::File);
                }
                Node::File => {}
            }
        }
    }

    /// The tree without a record whose number the case does not give in this field; the
    /// number there is lowered with the others.
    fn attempt_without(
        &mut self,
        tree: &mut Tree,
        candidate: Option<Tree>,
        gone: u64,
        field: Field,
    ) {
        let Some(candidate) = candidate else { return };
        let is_given = field(&mut self.best).is_some_and(|number| *number == gone);
        let lower = |case: &mut Case| {
            // A number that no record can have stays.
            if let Some(number @ ..=0xFFFF) = field(case) {
                *number -= u64::from(*number > gone);
            }
        };
        if !is_given && self.attempt_tree(&candidate, lower) {
            *tree = candidate;
        }
    }

    /// Another node in the tree's place of that number.
    fn attempt_node(&mut self, tree: &mut Tree, number: usize, node: Node) -> bool {
        let mut candidate = tree.clone();
        candidate.nodes[number] = node;
        let helped = self.attempt_tree(&candidate, |_| {});
        if helped {
            *tree = candidate;
        }
        helped
    }

    /// Takes runs of names out of a directory, long ones first.
    fn shrink_entries(&mut self, tree: &mut Tree, directory: usize, names: &[Vec<u8>]) {
        let mut run = names.len();
        while run > 0 {
            for gone in names.chunks(run) {
                if self.spent() {
                    return;
                }
                let Node::Directory { parent, entries } = &tree.nodes[directory] else {
                    return;
                };
                let (parent, mut entries) = (*parent, entries.clone());
                let before = entries.len();
                // The names are sorted, so a run lies between its ends.
                let stays = |Entry { name, .. }: &Entry| {
                    Some(&name.bytes) < gone.first() || Some(&name.bytes) > gone.last()
                };
                entries.retain(stays);
                if entries.len() < before {
                    self.attempt_node(tree, directory, Node::Directory { parent, entries });
                }
            }
            run /= 2;
        }
    }

    /// Cuts off what all the names begin with where a name is looked up, and the same off that
    /// name.
    fn shrink_beginnings(&mut self, tree: &mut Tree) {
        let Case::Lookup(Lookup { node, name, .. }) = &self.best else { return };
        let (directory, asked) = (*node as usize, name.clone());
        let Some(entries) = tree.entries_of(directory).map(<[Entry]>::to_vec) else { return };
        let (Some(first), Some(last)) = (entries.first(), entries.last()) else { return };
        // The names are sorted, so what these two share is shared by all. Something stays.
        let pairs = first.name.bytes.iter().zip(&last.name.bytes);
        let shared = pairs.take_while(|(one, other)| one == other).count();
        let mut cut = shared.min(first.name.len() - 1);
        let beginning = first.name.bytes[..cut].to_vec();
        while cut > 0 {
            let mut candidate = tree.clone();
            if let Node::Directory { entries, .. } = &mut candidate.nodes[directory] {
                let shorter = |name: &Text| name.part(cut, name.len() - cut);
                entries.iter_mut().for_each(|entry| entry.name = shorter(&entry.name));
            }
            let asked = asked.strip_prefix(&beginning[..cut]).unwrap_or(&asked).to_vec();
            let rename = |case: &mut Case| {
                if let Case::Lookup(lookup) = case {
                    lookup.name = asked;
                }
            };
            if self.attempt_tree(&candidate, rename) {
                *tree = candidate;
                return;
            }
            cut /= 2;
        }
    }

    /// For an image that is refused: fewer records and bytes, more zeros.
    fn shrink_bytes(&mut self) {
        for length in [0, 19, 20, self.best.image().len() / 2] {
            let mut image = self.best.image().to_vec();
            image.truncate(length);
            self.attempt(self.best.with_image(image));
        }
        for part in 0..4 {
            let mut index = 0;
            while let Some(image) = without_record(&self.best.image(), part, index) {
                if self.spent() {
                    return;
                }
                if !self.attempt(self.best.with_image(image)) {
                    index += 1;
                }
            }
        }
        let mut run = self.best.image().len();
        while run > 0 {
            let mut at = 0;
            while at < self.best.image().len() {
                if self.spent() {
                    return;
                }
                let mut image = self.best.image().to_vec();
                let end = (at + run).min(image.len());
                image[at..end].fill(0);
                self.attempt(self.best.with_image(image));
                at += run;
            }
            run /= 2;
        }
    }
}

/// A number of a record that a case gives, if it does.
type Field = fn(&mut Case) -> Option<&mut u64>;

fn mount_of(case: &mut Case) -> Option<&mut u64> {
    match case {
        Case::Call(call) | Case::Pair(Pair { call, .. }) => Some(&mut call.mount),
        _ => None,
    }
}

fn node_of(case: &mut Case) -> Option<&mut u64> {
    match case {
        Case::Call(call) | Case::Pair(Pair { call, .. }) => Some(&mut call.node),
        Case::Lookup(lookup) => Some(&mut lookup.node),
        _ => None,
    }
}

/// What of a call can be made smaller wherever it stands.
struct Parts<'a> {
    mark: &'a mut bool,
    path: &'a mut Vec<u8>,
    how: &'a mut Vec<u8>,
    added: &'a mut u64,
    added_mark: &'a mut bool,
}

/// The calls of a case that have a path: its own, and the opens among those on descriptors.
fn parts(case: &mut Case) -> Vec<Parts<'_>> {
    let (call, steps) = match case {
        Case::Table(_) | Case::Lookup(_) | Case::Build(_) | Case::Manifest(_) => return Vec::new(),
        Case::Call(call) => (Some(call), &mut [][..]),
        Case::Sequence(sequence) => (None, &mut sequence.steps[..]),
        Case::Pair(pair) => (Some(&mut pair.call), &mut pair.steps[..]),
    };
    let own = call.map(|Call { mark, path, how, added, added_mark, .. }| Parts {
        mark,
        path,
        how,
        added,
        added_mark,
    });
    let opens = steps.iter_mut().filter_map(|step| match step {
        Step::Open(Open { mark, path, how, added, added_mark, .. }) => {
            Some(Parts { mark, path, how, added, added_mark })
        }
        _ => None,
    });
    own.into_iter().chain(opens).collect()
}

/// A difference but for the table it was found over, and for its details.
fn sort(what: &str) -> String {
    let what = what.split(',').next().unwrap_or(what);
    what.replace("first ", "").replace("second ", "")
}

/// An image without one node, mount, entry or text byte (parts 0 to 3), its
/// header made right, all other numbers as they are.
fn without_record(image: &[u8], part: usize, index: usize) -> Option<Vec<u8>> {
    let number = |at, width| get(image, at, width).map(|number| number as usize);
    let counts = [number(4, 2)?, number(6, 2)?, number(8, 2)?, number(12, 4)?];
    number(16, 4)?;
    let widths = [12, 8, 8, 1];
    if index >= counts[part] {
        return None;
    }
    let before: usize = (0..part).map(|part| counts[part] * widths[part]).sum();
    let at = 20 + before + index * widths[part];
    let mut smaller = image.get(..at)?.to_vec();
    smaller.extend(image.get(at + widths[part]..)?);
    let (field, width) = [(4, 2), (6, 2), (8, 2), (12, 4)][part];
    let total = smaller.len();
    set(&mut smaller, field, width, counts[part] - 1);
    set(&mut smaller, 16, 4, total);
    Some(smaller)
}

/// A body with one component or slash less.
fn shorter(body: &[u8]) -> Vec<Vec<u8>> {
    let parts: Vec<&[u8]> = body.split(|byte| *byte == b'/').collect();
    (0..parts.len().min(64))
        .map(|gone| [&parts[..gone], &parts[gone + 1..]].concat().join(&b'/'))
        .filter(|body| !body.is_empty())
        .collect()
}

#[cfg(test)]
mod tests {
    use super::*;
    use crate::faults::Fault;
    use crate::generate::{Cases, Wanted};
    use crate::subject::Planted;

    /// A difference that a fault gives, and what is left of it.
    fn shrunk(fault: Fault) -> (Case, Case) {
        // Builds ask for calls and lookups too, and would come before these.
        let wanted = match fault.is_of_builds() {
            true => Wanted { builds: 3_000, ..Wanted::default() },
            false => Wanted {
                tables: 5_000,
                calls: 15_000,
                sequences: 1_000,
                lookups: 15_000,
                ..Wanted::default()
            },
        };
        let mut subject = Planted(Some(fault));
        let case = Cases::new(3, wanted)
            .map(|numbered| numbered.case)
            .find(|case| case.compare(&mut subject).is_err());
        let case = case.expect("a difference");
        let small = shrink(&mut subject, &case);
        assert!(small.compare(&mut subject).is_err());
        (case, small)
    }

    #[test]
    fn a_shrunk_case_still_differs() {
        for fault in
            [Fault::HandleByNode, Fault::MagicEnters, Fault::EarlierName, Fault::TailIgnored]
        {
            let (case, small) = shrunk(fault);
            assert!(format!("{small}").len() <= format!("{case}").len());
        }
    }

    #[test]
    fn a_shrunk_sequence_has_few_calls() {
        for (fault, most) in
            [(Fault::HighestFree, 1), (Fault::RefusalCloses, 1), (Fault::MarkShared, 3)]
        {
            let (case, small) = shrunk(fault);
            let Case::Sequence(sequence) = small else { panic!("{fault:?}: {case}") };
            let steps = sequence.steps.len();
            assert!(steps <= most, "{fault:?}: {}", Case::Sequence(sequence));
        }
    }

    #[test]
    fn a_shrunk_lookup_has_few_names_and_bytes() {
        for (fault, names, bytes) in [
            (Fault::LaterMiddle, 2, 1),
            (Fault::BeginningFound, 1, 1),
            (Fault::NodeCut16, 0, 0),
            (Fault::LookupEnters, 1, 9),
            (Fault::FarBytesUnread, 1, 201),
        ] {
            let (case, small) = shrunk(fault);
            let Case::Lookup(lookup) = &small else { panic!("{fault:?}: {case}") };
            let entries = accept(&lookup.image).map_or(0, |table| table.entries.len());
            assert!(entries <= names && lookup.name.len() <= bytes, "{fault:?}: {small}");
        }
    }

    #[test]
    fn a_shrunk_build_has_few_records_and_bytes() {
        for (fault, records, bytes) in [
            (Fault::BodiesFirst, 5, 2),
            (Fault::BodiesReversed, 4, 3),
            (Fault::TextShared, 4, 1),
            (Fault::NameOffsetKept, 5, 2),
            (Fault::CutIgnored, 2, 0),
            (Fault::OutsideRule3, 3, 0),
            (Fault::RangeFirst, 2, 0),
            (Fault::RoomBound, 2, 0),
            (Fault::ByteBeyond, 2, 0),
        ] {
            let (case, small) = shrunk(fault);
            let Case::Build(build) = &small else { panic!("{fault:?}: {case}") };
            let tree = build.parts.table();
            let left = tree.nodes.len() + tree.mounts.len() + tree.entries.len();
            let text = build.parts.text.len();
            assert!(left <= records && text <= bytes, "{fault:?}: {small}");
        }
    }

    #[test]
    fn a_shrunk_pair_has_few_nodes_and_calls() {
        for fault in
            [Fault::InRootIsTop, Fault::BeneathLetsMagic, Fault::MarkUnread, Fault::CoverByNode]
        {
            let mut subject = Planted(Some(fault));
            let wanted = Wanted { pairs: 1_000, ..Wanted::default() };
            let mut cases = Cases::new(3, wanted).map(|numbered| numbered.case);
            let case =
                cases.find(|case| case.compare(&mut subject).is_err()).expect("a difference");
            let small = shrink(&mut subject, &case);
            let difference = small.compare(&mut subject).err().expect("a difference");
            let Case::Pair(pair) = &small else { panic!("{small}") };
            for image in [&pair.call.image, &pair.other] {
                let left = accept(image).map_or(0, |table| table.nodes.len());
                assert!(left <= 6, "{fault:?}: {}, {small}", difference.what);
            }
            assert!(pair.steps.len() <= 3, "{fault:?}: {small}");
        }
    }

    /// With a place for each of its names the table would be too long.
    #[test]
    fn names_that_share_text_are_made_fewer() {
        let (mut tree, top) = Tree::mounted();
        let file = tree.file();
        let digits: String = (0..700).map(|number| format!("{number:03}")).collect();
        let text = tree.text(digits.as_bytes());
        for number in 0..600 {
            tree.name(top, text.part(3 * number, 250), file);
        }
        let (image, name) = (tree.image(), text.part(900, 250).bytes);
        let case = Case::Lookup(Lookup { image, node: 0, name });
        let small = shrink(&mut Planted(Some(Fault::EqualUncounted)), &case);
        let image = small.image();
        let table = accept(&image).expect("a table");
        let [entry] = &table.entries[..] else { panic!("{small}") };
        assert_eq!((entry.length, table.text.len()), (1, 1), "{small}");
    }
}
