//! Random tables, and others that something is changed in: parts against a plain search, and the
//! answers to confined calls wherever a part is in common.

mod calls;
mod changes;
mod plain;

use super::super::manifests::generated::{described::Described, read};
use crate::*;
use data::dice::Dice;
use data::image::Tree;

const MANY: u64 = 1_500;

/// Two tables, the second perhaps changed, and a handle that is good in the first.
struct Pair {
    trees: [Tree; 2],
    images: [Vec<u8>; 2],
    handle: Place,
}

impl Pair {
    /// None where changes have made no table.
    fn some(dice: &mut Dice) -> Option<Self> {
        let image = Described::some(dice).manifest(dice).build().unwrap();
        let tree = read(&image);
        let handle = dice.choose(&plain::good_handles(&tree)).copied()?;
        let (other, changed) = (0..10).find_map(|_| {
            let mut other = tree.clone();
            (0..dice.from(1, 3)).for_each(|_| changes::change(dice, &mut other));
            let image = if dice.one_in(3) { other.shared_image() } else { other.image() };
            check(&image).is_ok().then_some((other, image))
        })?;
        Some(Pair { trees: [tree, other], images: [image, changed], handle })
    }

    /// Runs a check on many pairs. One that fails is told by its seed.
    fn check(mut check: impl FnMut(&mut Dice, &Pair, [Table; 2])) {
        for seed in 0..MANY {
            let mut dice = Dice::new(seed, 20, 0);
            if let Some(pair) = Pair::some(&mut dice) {
                let told = std::panic::AssertUnwindSafe(|| {
                    let tables = [0, 1].map(|at| Table::new(&pair.images[at]).unwrap());
                    check(&mut dice, &pair, tables);
                });
                if let Err(panic) = std::panic::catch_unwind(told) {
                    eprintln!("seed {seed}, handle {}: {:#?}", pair.handle, pair.trees);
                    std::panic::resume_unwind(panic);
                }
            }
        }
    }
}

#[test]
fn parts_are_those_of_a_plain_search() {
    Pair::check(|_, pair, tables| {
        for (table, tree) in tables.into_iter().zip(&pair.trees) {
            for (mount, node) in plain::all(tree) {
                let handle = Handle::new(mount as u64, node as u64);
                let good = plain::is_good(tree, (mount, node));
                assert_eq!(table.part(handle).is_ok(), good, "{handle:?}");
                if let Ok(part) = table.part(handle) {
                    let reached = plain::reachable(tree, (mount, node));
                    assert_eq!(part.len(), reached.len());
                    let is_reached = |place| part.contains(plain::place(place));
                    assert!(
                        plain::all(tree).all(|place| is_reached(place) == reached.contains(&place))
                    );
                }
            }
        }
    });
}

/// The path of a place that is not covered finds it, without a link, name by name.
#[test]
fn paths_lead_where_they_say() {
    let itself = OpenHow::from(Flags::PATH | Flags::NOFOLLOW).resolve(Resolve::BENEATH);
    Pair::check(|_, pair, [table, _]| {
        let part = table.part(pair.handle).unwrap();
        for reachable in part.places() {
            let found = table.resolve(pair.handle, reachable.path(), itself).unwrap();
            let slashes = reachable.path().iter().filter(|byte| **byte == b'/').count();
            assert_eq!((found.components, found.links), (1 + slashes as u64, 0));
            match reachable.covered_by {
                None => assert_eq!(found.place, reachable.place),
                Some(mount) => assert_eq!(found.place.mount, mount),
            }
        }
    });
}

/// RULES 20.4, asked of the trees that the images were written from.
#[test]
fn a_part_is_in_common_or_something_differs() {
    let mut kinds = std::collections::BTreeMap::<&str, u64>::new();
    Pair::check(|_, pair, [one, two]| {
        let told = one.part(pair.handle).unwrap().in_common_with(&two);
        let expected = plain::in_common(&pair.trees, pair.handle);
        assert_eq!(told.is_ok(), expected, "{told:?}");
        let kind = told.err().map_or("none", |told| match told.what {
            Difference::Handle(_) => "handle",
            Difference::Kind { .. } => "kind",
            Difference::Mount { .. } => "mount",
            Difference::Root { .. } => "root",
            Difference::Count { .. } => "count",
            Difference::Name { .. } => "name",
            Difference::Node { .. } => "node",
            Difference::Body { .. } => "body",
        });
        *kinds.entry(kind).or_default() += u64::from(pair.images[0] != pair.images[1]);
    });
    // Each occurs.
    assert!(kinds.len() == 9 && kinds.values().all(|count| *count >= 5), "{kinds:?}");
    assert!(kinds["none"] > MANY / 5, "{kinds:?}");
}

/// RULES 20.3 and 20.6.
#[test]
fn confined_calls_are_answered_alike() {
    let (mut found, mut refused) = (0, 0);
    Pair::check(|dice, pair, [one, two]| {
        let part = one.part(pair.handle).unwrap();
        if part.in_common_with(&two).is_err() {
            return;
        }
        for _ in 0..50 {
            let (handle, path, how) = calls::confined(dice, &part, &pair.trees[0]);
            let answer = one.resolve(handle, &path, how);
            let what = format!("{handle:?} {} {how:?}", path.escape_ascii());
            assert_eq!(two.resolve(handle, &path, how), answer, "{what}");
            match answer {
                Ok(answer) => {
                    found += 1;
                    assert!(part.contains(answer.place), "{what}: {answer}");
                }
                Err(_) => refused += 1,
            }
        }
    });
    assert!(found > 5_000 && refused > 5_000, "{found} found, {refused} refused");
}
