use super::*;
use crate::builder::Parts;
use crate::case::Case;
use crate::common;
use crate::faults::Fault;
use crate::generate::{Cases, Wanted};
use crate::manifest::Rewritten;
use crate::subject::{Handle, Lent, Planted, Slots, Way};
use data::image::Tree;
use data::sequence::Open;
use data::{how, BENCH_TREE};

fn pairs(seed: u64, pairs: u64) -> impl Iterator<Item = Pair> {
    let cases = Cases::new(seed, Wanted { pairs, ..Wanted::default() });
    cases.filter_map(|numbered| match numbered.case {
        Case::Pair(pair) => Some(pair),
        _ => None,
    })
}

/// The bench tree twice, with handle (0,1).
fn bench(path: &str, resolve: u64, steps: Vec<Step>) -> Pair {
    let call = Call {
        image: BENCH_TREE.to_vec(),
        mount: 0,
        node: 1,
        mark: false,
        path: path.into(),
        how: how(0, resolve),
        added: 0,
        added_mark: false,
    };
    Pair { call, other: BENCH_TREE.to_vec(), steps, is_common: true }
}

fn what(pair: &Pair, fault: Option<Fault>) -> Option<String> {
    pair.compare(&mut Planted(fault)).err().map(|difference| difference.what)
}

/// Whether they break the claims, though no answer is asked to be right.
#[test]
fn faults_are_found_by_the_claims_alone() {
    for fault in Fault::UNCONFINED {
        let mut subject = Planted(Some(fault));
        assert!(pairs(2, 3_000).any(|pair| pair.claims(&mut subject).is_err()), "{fault:?}");
    }
}

/// It refuses where it need not, so it breaks no claim.
#[test]
fn a_handle_told_by_its_node_is_found_by_the_answers() {
    let mut subject = Planted(Some(Fault::HandleByNode));
    assert!(pairs(2, 500).all(|pair| pair.claims(&mut subject).is_ok()));
    assert!(pairs(2, 500).any(|pair| pair.compare(&mut subject).is_err()));
}

/// Each of the claims finds something, over each table where it is about one.
#[test]
fn every_claim_is_tried() {
    let mut missing = vec![
        "first table: the place found is not reachable",
        "second table: the place found is not reachable",
        "first table: script, a place opened is not reachable",
        "second table: script, a place opened is not reachable",
        "claim 2: the second table's answer",
        "claim 2: script, reply",
    ];
    let pairs: Vec<Pair> = pairs(2, 300).collect();
    for fault in Fault::UNCONFINED {
        let mut subject = Planted(Some(fault));
        for pair in &pairs {
            let Err(difference) = pair.claims(&mut subject) else { continue };
            missing.retain(|what| !difference.what.starts_with(what));
        }
    }
    assert_eq!(missing, Vec::<&str>::new());
}

/// A subject that replies right, but for what is said of each.
#[derive(Clone, Copy, PartialEq, Eq)]
enum Slipping {
    /// Its slots tell how long the image is.
    Slots,
    /// A part lacks its last place.
    Place,
    /// Every part is in common.
    Common,
}

impl Subject for Slipping {
    fn check(&mut self, image: &mut [u8]) -> Vec<u64> {
        Planted(None).check(image)
    }

    fn resolve(&mut self, lent: &mut Lent, handle: Handle) -> Vec<u64> {
        Planted(None).resolve(lent, handle)
    }

    fn start(&mut self, image: &mut [u8], slots: &mut Slots, room: usize) -> Vec<u64> {
        Planted(None).start(image, slots, room)
    }

    fn start_accepted(&mut self, image: &mut [u8], slots: &mut Slots) {
        Planted(None).start_accepted(image, slots);
    }

    fn act(&mut self, image: &mut [u8], slots: &mut Slots, step: &mut Step, way: Way) -> Vec<u64> {
        let before = *slots;
        let reply = Planted(None).act(image, slots, step, way);
        if *self != Slipping::Slots {
            return reply;
        }
        let changed = slots.iter_mut().zip(before).filter(|(slot, old)| **slot != *old);
        // Bits that are asked for nothing else than whether they are the same.
        changed.for_each(|(slot, _)| *slot |= (image.len() as u64) << 48);
        reply
    }

    fn lookup(&mut self, image: &mut [u8], node: u64, name: &mut [u8], way: Way) -> Vec<u64> {
        Planted(None).lookup(image, node, name, way)
    }

    fn build(&mut self, parts: &mut Parts, buffer: &mut [u8], room: usize) -> Vec<u64> {
        Planted(None).build(parts, buffer, room)
    }

    fn rewritten(&mut self, image: &[u8]) -> Rewritten {
        Planted(None).rewritten(image)
    }

    fn part(&mut self, images: [&[u8]; 2], handle: Place) -> (BTreeSet<Place>, bool) {
        let (mut places, is_common) = Planted(None).part(images, handle);
        if *self == Slipping::Place {
            places.pop_last();
        }
        (places, is_common || *self == Slipping::Common)
    }
}

#[test]
fn a_wrong_part_is_found() {
    for (mut slip, told) in
        [(Slipping::Place, "the part's places"), (Slipping::Common, "the part in common")]
    {
        let found = pairs(2, 30).find_map(|pair| pair.compare(&mut slip).err());
        assert_eq!(found.map(|difference| difference.what).as_deref(), Some(told));
    }
}

#[test]
fn slots_that_tell_the_table_are_found() {
    let found = pairs(2, 30).filter_map(|pair| pair.compare(&mut Slipping::Slots).err());
    let found: Vec<String> = found.map(|difference| difference.what).collect();
    assert!(found.iter().any(|what| what.ends_with("claim 2: script, over the second table")));
}

#[test]
fn a_pair_that_is_not_what_it_is_said_to_be_is_told() {
    let mut other = bench("cal", BENEATH, Vec::new());
    assert_eq!(what(&other, None), None);
    other.is_common = false;
    assert_eq!(what(&other, None).unwrap(), "whether the part is in common");
}

/// The places stood on would differ, were the tables not what they are said to be.
#[test]
fn nothing_is_claimed_of_a_call_that_is_not_confined() {
    let open = Open { number: HANDLE, path: b"..".to_vec(), how: how(0, 0), ..Open::default() };
    let steps = vec![Step::Open(open)];
    let told = |pair: &Pair| pair.claims(&mut Planted(None)).ok();
    let ran = |pair: &Pair| match told(pair) {
        Some(Told::Confined(confined)) => confined.ran,
        _ => panic!("not confined"),
    };
    assert!(matches!(told(&bench("..", 0, Vec::new())), Some(Told::NotConfined)));
    let mut refused = bench("..", BENEATH, steps.clone());
    assert!(ran(&refused) == Ran::NotConfined);
    refused.steps.insert(0, Step::SetMark(HANDLE));
    assert!(ran(&refused) == Ran::Whole([1, 1]));
    refused.other.pop();
    assert!(matches!(told(&refused), Some(Told::NotConfined)));
    let mut bad = bench(".", IN_ROOT, Vec::new());
    bad.call.node = 7;
    assert!(matches!(told(&bad), Some(Told::NotConfined)));
}

#[test]
fn ways_lead_to_handles() {
    let (mut tree, top) = Tree::mounted();
    let a = tree.named_directory(top, "a");
    let nameless = tree.directory(a);
    let second = tree.top();
    let b = tree.named_directory(second, "b");
    tree.mount(second, 0, a);
    let image = tree.image();
    let table = accept(&image).unwrap();
    let way = |mount, node: usize| way_to(&table, Place { mount, node: node as u64 });
    assert_eq!(way(0, top).unwrap(), b".");
    assert_eq!(way(1, b).unwrap(), b"./a/b");
    // Covered, nameless, and in a mount that does not show it.
    assert_eq!([way(0, a), way(0, nameless), way(1, top)], [None, None, None]);
    let magic = tree.magic(0, nameless);
    tree.name(b, "m", magic);
    let image = tree.image();
    let table = accept(&image).unwrap();
    let handle = Place { mount: 0, node: nameless as u64 };
    assert_eq!(way_to(&table, handle).unwrap(), b"./a/b/m");
    let held = opened(&table, handle).and_then(|descriptors| descriptors.held(HANDLE));
    assert_eq!(held.map(|held| (held.place, held.mark)), Some((handle, false)));
}

/// What the generator makes is what it says.
#[test]
fn pairs_are_as_they_were_made() {
    let [mut common, mut apart, mut same, mut ways] = [0; 4];
    for pair in pairs(4, 2_000) {
        let (first, second) = (accept(&pair.call.image).unwrap(), accept(&pair.other).unwrap());
        let handle = pair.call.place();
        assert!([&first, &second].iter().all(|table| table.handle_errno(handle).is_none()));
        assert!(confines(pair.call.mark, &pair.call.how), "{pair}");
        assert_eq!(common::apart(&first, &second, handle).is_none(), pair.is_common, "{pair}");
        *(if pair.is_common { &mut common } else { &mut apart }) += 1;
        let part = reach(&first, handle);
        let changes = Part::of(&first, &part, handle).changes(&second);
        same += usize::from(pair.is_common && changes.is_empty());
        ways += usize::from(!pair.steps.is_empty() && opened(&second, handle).is_some());
    }
    assert!((1_400..1_600).contains(&common) && common + apart == 2_000, "{common} in common");
    assert!(same < 20 && ways > 1_500, "{same} are the same, {ways} with a way to the handle");
}

/// Most parts have something in them and something outside.
#[test]
fn parts_are_of_every_kind() {
    let mut counts = std::collections::BTreeMap::new();
    for pair in pairs(4, 1_000) {
        let table = accept(&pair.call.image).unwrap();
        let reached = reach(&table, pair.call.place());
        for trait_ in Part::of(&table, &reached, pair.call.place()).traits() {
            *counts.entry(trait_).or_insert(0) += 1;
        }
    }
    for (name, least, most) in [
        ("handle: mount 0's root", 100, 300),
        ("handle: another mount's root", 100, 300),
        ("handle: below mount 0's root", 450, 750),
        ("handle: below another root", 10, 100),
        ("no more than the handle", 10, 100),
        ("all nodes", 20, 200),
        ("link up", 200, 600),
        ("absolute link", 250, 700),
        ("magic link", 300, 800),
        ("mount", 300, 700),
        ("node at two places", 200, 700),
    ] {
        let count = counts.get(name).copied().unwrap_or(0);
        assert!((least..=most).contains(&count), "{name}: {count}");
    }
}
