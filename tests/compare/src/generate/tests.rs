use super::*;
use crate::builder::{Parts, LONGEST_IMAGE};
use crate::faults::Fault;
use crate::resolver::{Entry, DIRECTORY, LINK};
use crate::stats::Stats;
use crate::subject::Planted;
use crate::tree;
use data::fields::Layout;
use data::image::Tree;

#[test]
fn the_two_shapes_agree_and_all_occurs() {
    let mut stats = Stats::default();
    let wanted = Wanted {
        tables: 3_000,
        calls: 9_000,
        sequences: 500,
        lookups: 3_000,
        builds: 6_000,
        manifests: 2_000,
        pairs: 2_000,
    };
    for numbered in Cases::new(5, wanted) {
        let alike = numbered.case.compare(&mut Planted(None));
        match alike {
            Ok(alike) => stats.note(&alike),
            Err(difference) => panic!("{}: {}", difference.what, numbered.case),
        }
    }
    assert_eq!(stats.missing(), Vec::<String>::new());
}

#[test]
fn a_case_stands_by_itself() {
    let wanted = Wanted {
        tables: 50,
        calls: 100,
        sequences: 20,
        lookups: 100,
        builds: 50,
        manifests: 50,
        pairs: 50,
    };
    for numbered in Cases::new(9, wanted) {
        let again = one(9, numbered.stream, numbered.number);
        assert!(again == Some(numbered.case));
    }
    let few =
        Wanted { tables: 3, calls: 5, sequences: 2, lookups: 7, builds: 4, manifests: 3, pairs: 4 };
    assert_eq!(Cases::new(9, few).count(), 28);
}

#[test]
fn faults_are_found() {
    let wanted = Wanted {
        tables: 1_000,
        calls: 3_000,
        sequences: 300,
        lookups: 3_000,
        builds: 1_000,
        manifests: 1_000,
        pairs: 1_000,
    };
    for fault in [
        Fault::RootsParent,
        Fault::UnknownLow32,
        Fault::SumAtLast,
        Fault::MarkShared,
        Fault::LaterMiddle,
        Fault::BodiesFirst,
        Fault::ManifestTwoFiles,
    ] {
        let mut subject = Planted(Some(fault));
        let mut cases = Cases::new(1, wanted);
        assert!(cases.any(|numbered| numbered.case.compare(&mut subject).is_err()));
    }
}

/// The faults from one to another.
fn faults(first: Fault, last: Fault) -> &'static [Fault] {
    let place = |wanted| Fault::ALL.iter().position(|fault| *fault == wanted).unwrap();
    &Fault::ALL[place(first)..=place(last)]
}

/// What else is compared finds them sooner, but the replies must show them too.
#[test]
fn faults_of_descriptors_are_found_by_replies_alone() {
    for fault in faults(Fault::HighestFree, Fault::RefusedFirst) {
        let mut subject = Planted(Some(*fault));
        let mut differs = |case| match case {
            Case::Sequence(sequence) => sequence
                .ways()
                .iter()
                .any(|way| sequence.got(&mut subject, *way).0 != sequence.expected()),
            _ => false,
        };
        let mut cases = Cases::new(2, Wanted { sequences: 500, ..Wanted::default() });
        assert!(cases.any(|numbered| differs(numbered.case)), "{fault:?}");
    }
}

/// Other handles and restrictions added aside.
#[test]
fn faults_of_the_handle_are_found_by_answers_alone() {
    for fault in faults(Fault::HandleAlways, Fault::StartCounted) {
        let mut subject = Planted(Some(*fault));
        let mut differs = |case| match case {
            Case::Call(call) => call.ask(&mut subject) != call.answer().0.numbers(),
            _ => false,
        };
        let mut cases = Cases::new(2, Wanted { calls: 5_000, ..Wanted::default() });
        assert!(cases.any(|numbered| differs(numbered.case)), "{fault:?}");
    }
}

/// Also where the call itself is answered right.
#[test]
fn another_handle_shows_that_one_is_checked() {
    let mut subject = Planted(Some(Fault::HandleAlways));
    let wanted = Wanted { calls: 600, sequences: 60, ..Wanted::default() };
    let found =
        Cases::new(2, wanted).filter_map(|numbered| numbered.case.compare(&mut subject).err());
    let found: Vec<String> = found.map(|difference| difference.what).collect();
    for told in ["the same from (", "open: the same from "] {
        assert!(found.iter().any(|what| what.contains(told)), "{told}");
    }
}

/// The rooms and the digits aside; but a name that was changed shows in no answer.
#[test]
fn faults_of_lookups_are_found_by_answers_alone() {
    for fault in faults(Fault::LaterMiddle, Fault::LookupEnters) {
        let mut subject = Planted(Some(*fault));
        let mut differs = |case| match case {
            Case::Lookup(lookup) => lookup.got(&mut subject).into_iter().any(|(got, untouched)| {
                got != lookup.expected() || (*fault == Fault::TouchedName && !untouched)
            }),
            _ => false,
        };
        let mut cases = Cases::new(2, Wanted { lookups: 3_000, ..Wanted::default() });
        assert!(cases.any(|numbered| differs(numbered.case)), "{fault:?}");
    }
}

/// What is asked of a written image aside; but a text that was changed shows in no answer.
#[test]
fn faults_of_builds_are_found_by_answers_alone() {
    for fault in Fault::ALL.iter().filter(|fault| fault.is_of_builds()) {
        let mut subject = Planted(Some(*fault));
        let mut differs = |case| match case {
            Case::Build(build) => {
                let built = build.expected();
                let (got, untouched) = build.got(&mut subject, &built.image);
                got != built.numbers || (*fault == Fault::TouchedText && !untouched)
            }
            _ => false,
        };
        let mut cases = Cases::new(2, Wanted { builds: 3_000, ..Wanted::default() });
        assert!(cases.any(|numbered| differs(numbered.case)), "{fault:?}");
    }
}

/// Every field of the first, a middle and the last record of each kind.
#[test]
fn every_field_is_spoiled() {
    let (mut tree, top) = Tree::mounted();
    for name in ["a", "b", "c"] {
        let directory = tree.named_directory(top, name);
        tree.mount(top, 0, directory);
    }
    let image = tree.image();
    let layout = Layout::of(&image);
    let node = |number| [0, 2, 4, 8].map(|field| layout.node(number) + field).to_vec();
    let mount = |number| [0, 2, 4, 6].map(|field| layout.mount(number) + field).to_vec();
    let entry = |number| [0, 4, 6].map(|field| layout.entry(number) + field).to_vec();
    let records = [[0, 2, 3].map(node), [0, 2, 3].map(mount), [0, 1, 2].map(entry)];
    let mut missing = records.concat().concat();
    assert_eq!((missing.len(), layout.entries), (33, 3));
    for number in 0..3_000 {
        let mut spoiled = image.clone();
        damage::ended_field(&mut Dice::new(8, 7, number), &mut spoiled);
        let changed = image.iter().zip(&spoiled).position(|(one, two)| one != two);
        missing.retain(|at| changed != Some(*at));
    }
    assert_eq!(missing, []);
}

/// Texts as a caller may lay them, of trees that are written.
#[test]
fn texts_of_every_kind_are_built() {
    let kinds = "shared overlapping inside gap leading trailing backwards unnamed high \
                 far long empty name-and-body";
    let mut missing: Vec<&str> = kinds.split_whitespace().collect();
    for numbered in Cases::new(6, Wanted { builds: 3_000, ..Wanted::default() }) {
        let Case::Build(build) = numbered.case else { continue };
        if build.expected().numbers[0] != 0 {
            continue;
        }
        missing.retain(|kind| !is_laid(kind, &build.parts));
    }
    assert_eq!(missing, Vec::<&str>::new());
}

/// Whether names and bodies of parts are laid in this way.
fn is_laid(kind: &str, parts: &Parts) -> bool {
    let tree = parts.table();
    let links = || (0..).zip(&tree.nodes).filter(|(_, node)| node.kind == LINK);
    let names: Vec<(u64, u64)> =
        tree.entries.iter().map(|entry| (entry.offset, entry.offset + entry.length)).collect();
    let bodies: Vec<(u64, u64)> =
        links().map(|(_, link)| (link.first, link.first + link.count)).collect();
    let mut all = [&names[..], &bodies].concat();
    all.sort();
    let end = all.iter().map(|(_, end)| *end).max().unwrap_or(0);
    let beside =
        |is_so: fn((u64, u64), (u64, u64)) -> bool| all.windows(2).any(|two| is_so(two[0], two[1]));
    let text = parts.text.len() as u64;
    match kind {
        "shared" => beside(|one, two| one == two),
        "overlapping" => beside(|one, two| one.0 < two.0 && two.0 < one.1 && one.1 < two.1),
        "inside" => beside(|one, two| one.0 < two.0 && two.1 < one.1),
        "gap" => beside(|one, two| one.1 < two.0),
        "leading" => all.first().is_some_and(|(start, _)| *start > 0),
        "trailing" => !all.is_empty() && end < text,
        "backwards" => names.len() > 2 && names.windows(2).all(|two| two[0] > two[1]),
        "unnamed" => links().any(|(link, _)| tree.entries.iter().all(|entry| entry.node != link)),
        "high" => names.iter().map(|(start, end)| end - start).sum::<u64>() > 1 << 15,
        "far" => all.last().is_some_and(|(start, _)| *start > 0xFFFF),
        "long" => text > LONGEST_IMAGE,
        "empty" => text == 0,
        _ => names.iter().any(|name| bodies.contains(name)),
    }
}

/// Handles out of range, each with absolute and relative paths.
#[test]
fn handles_of_every_number_are_tried() {
    let kinds = "mount-past mount-16 mount-32 mount-cut-16 mount-cut-32 mount-max mount-high \
                 node-past node-16 node-32 node-cut-16 node-cut-32 node-max node-high";
    let pairs = kinds.split(' ').flat_map(|kind| [(kind, false), (kind, true)]);
    let mut missing: Vec<(&str, bool)> = pairs.collect();
    for numbered in Cases::new(7, Wanted { calls: 6_000, ..Wanted::default() }) {
        let Case::Call(call) = numbered.case else { continue };
        let Ok(table) = accept(&call.image) else { continue };
        let counts = [table.mounts.len() as u64, table.nodes.len() as u64];
        let is_tried = |kind: &str, is_absolute: bool| {
            let (field, which) = kind.split_once('-').unwrap_or_default();
            let (number, count) = match field {
                "mount" => (call.mount, counts[0]),
                _ => (call.node, counts[1]),
            };
            call.path.starts_with(b"/") == is_absolute && is_out_of_range(which, number, count)
        };
        missing.retain(|(kind, is_absolute)| !is_tried(kind, *is_absolute));
    }
    assert_eq!(missing, []);
}

/// Whether a number is out of range in this way.
fn is_out_of_range(which: &str, number: u64, count: u64) -> bool {
    match which {
        "past" => number == count,
        "16" => number == 1 << 16,
        "32" => number == 1 << 32,
        "cut-16" => (0..count).contains(&number.wrapping_sub(1 << 16)),
        "cut-32" => (0..count).contains(&number.wrapping_sub(1 << 32)),
        "max" => number == u64::MAX,
        _ => number > 1 << 33 && number < u64::MAX,
    }
}

/// Names as they are asked for: in the directory, near to one that is, or none at all.
#[test]
fn names_of_every_kind_are_looked_up() {
    let kinds = "first middle last before between after cut longer changed high empty . .. \
                 slash zero 255 256 5000 cut-16";
    let mut missing: Vec<&str> = kinds.split(' ').collect();
    for numbered in Cases::new(6, Wanted { lookups: 2_000, ..Wanted::default() }) {
        let Case::Lookup(lookup) = numbered.case else { continue };
        let Ok(table) = accept(&lookup.image) else { continue };
        let Some(directory) = table.node(lookup.node) else { continue };
        let entries = table.entries_of(directory).iter();
        let names: Vec<&[u8]> = entries.filter_map(|entry| table.name(entry)).collect();
        missing.retain(|kind| !is_of_kind(kind, &names, &lookup.name));
    }
    assert_eq!(missing, Vec::<&str>::new());
}

/// Whether a name is of a kind, in a directory of two names or more.
fn is_of_kind(kind: &str, names: &[&[u8]], name: &[u8]) -> bool {
    let [first, between @ .., last] = names else { return false };
    let is_absent = !names.contains(&name);
    let differ = |other: &[u8]| other.iter().zip(name).filter(|(one, two)| one != two).count();
    let any = |is_near: &dyn Fn(&[u8]) -> bool| is_absent && names.iter().any(|one| is_near(one));
    match kind {
        "first" => name == *first,
        "middle" => between.contains(&name),
        "last" => name == *last,
        "before" => name < *first,
        "between" => is_absent && *first < name && name < *last,
        "after" => *last < name,
        "cut" => any(&|other| other.len() == name.len() + 1 && other.starts_with(name)),
        "longer" => any(&|other| other.len() + 1 == name.len() && name.starts_with(other)),
        "changed" => any(&|other| other.len() == name.len() && differ(other) == 1),
        "empty" => name.is_empty(),
        "slash" => name.contains(&b'/'),
        "zero" => name.contains(&0),
        "high" => !is_absent && !name.is_ascii(),
        "cut-16" => names.contains(&&name[..name.len() & 0xFFFF]) && name.len() > 0xFFFF,
        "." | ".." => name == kind.as_bytes(),
        length => length.parse() == Ok(name.len()),
    }
}

/// Directories of every size up to the most, among them such whose names are alike in their
/// first 200 bytes, or share text.
#[test]
fn listings_have_names_of_every_kind() {
    let (mut digits, mut alike, mut sharing, mut refused) = ([false; 14], 0, 0, 0);
    for number in 0..600 {
        let image = listings::listing(&mut Dice::new(8, 6, number));
        let Ok(table) = accept(&image) else {
            refused += 1;
            continue;
        };
        for directory in table.nodes.iter().filter(|node| node.kind == DIRECTORY) {
            digits[(u64::BITS - directory.count.leading_zeros()) as usize] = true;
            let beside = table.entries_of(directory).windows(2);
            let has_many = |pairs: usize| usize::from(pairs > 20);
            let begins = |entry: &Entry| table.name(entry).and_then(|name| name.get(..200));
            let is_alike =
                |two: &&[_]| begins(&two[0]).is_some_and(|one| begins(&two[1]) == Some(one));
            alike += has_many(beside.clone().filter(is_alike).count());
            let reaches = |one: &Entry, two: &Entry| one.offset < two.offset + two.length;
            let is_shared = |two: &&[_]| reaches(&two[0], &two[1]) && reaches(&two[1], &two[0]);
            sharing += has_many(beside.filter(is_shared).count());
        }
    }
    assert_eq!(digits, [true; 14]);
    assert!(alike > 20 && sharing > 20 && refused < 10, "{alike} {sharing} {refused}");
}

#[test]
fn a_tree_keeps_the_table() {
    for number in 0..300 {
        let mut dice = Dice::new(4, 3, number);
        let image = table(&mut dice);
        let Ok(read) = accept(&image) else { continue };
        let tree = tree::of(&read);
        let again = tree.image();
        let read = accept(&again).expect("still accepted");
        assert!(tree == tree::of(&read));
    }
}
