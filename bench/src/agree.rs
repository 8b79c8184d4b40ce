//! The two baselines of the table check agree: on every table of the bench, on
//! tables that were damaged, and on small random ones. So do the builders of all sides, on the
//! parts of such tables.

use crate::builds::{built, parts_of, Numbers};
use crate::growth::GROWTHS;
use crate::plain::{Broken, Errno};
use crate::side::Side;
use crate::sweep::{LENGTHS, SWEEPS};
use crate::tables::cases;
use crate::worked::list;
use crate::{growth, linear, plain, sweep};
use data::dice::Dice;
use data::fields::{self, Layout, ENTRY, NODES_AT};
use data::image::{Text, Tree};
use data::worked::Build;
use data::{worked, BENCH_TREE};

/// Plain's verdict, which has to be linear's too. If it is not, `seed` and the
/// image are what it takes to see it again.
fn verdict(image: &[u8], about: &str, seed: u64) -> Result<(), Broken> {
    let (plain, linear) = (plain::check(image), linear::check(image));
    if plain != linear {
        let bytes = data::hex(image);
        panic!("{about}, seed {seed}: plain says {plain:?}, linear {linear:?}\n{bytes}");
    }
    plain
}

/// Changes one byte or field of an image, in its header, one of its records or
/// its text.
fn damage(image: &mut [u8], dice: &mut Dice) {
    let Layout { mounts_at, entries_at, text_at, .. } = Layout::of(image);
    let bounds = [0, NODES_AT, mounts_at, entries_at, text_at, image.len()];
    let bounds = bounds.map(|bound| bound.min(image.len()));
    let part = dice.below(5);
    let (start, end) = (bounds[part], bounds[part + 1]);
    let width = dice.pick(&[1, 2, 4]);
    if end - start < width {
        return;
    }
    let place = |dice: &mut Dice| start + dice.below((end - start) / width) * width;
    let (at, other) = (place(dice), place(dice));
    let read = |at: usize| fields::get(image, at, width).unwrap_or(0) as u32;
    let value = match dice.below(6) {
        0 => read(at).wrapping_add(1),
        1 => read(at).wrapping_sub(1),
        2 => dice.below(16) as u32,
        3 => dice.below(5_000) as u32,
        4 => dice.roll() as u32,
        _ => read(other),
    };
    fields::set(image, at, width, value as usize);
}

#[test]
fn on_every_table_of_the_bench() {
    for case in cases() {
        let _ = verdict(&(case.build)().image, case.name, 0);
    }
    for case in GROWTHS.iter().flat_map(|g| g.sizes.iter().map(|size| format!("{}:{size}", g.name)))
    {
        assert_eq!(verdict(&growth::input(&case).unwrap().image, &case, 0), Ok(()));
    }
    for case in SWEEPS.iter().flat_map(|s| LENGTHS.map(|len| format!("{}:{len}", s.name))) {
        assert_eq!(verdict(&sweep::input(&case).unwrap().image, &case, 0), Ok(()));
    }
}

#[test]
fn on_every_table_of_the_worked_cases() {
    for case in worked::read_file(&list()).unwrap() {
        let _ = verdict(&case.image, &case.name, 0);
    }
}

#[test]
fn on_the_bench_tree_with_any_byte_changed_or_left_out() {
    let image = BENCH_TREE.to_vec();
    let mut changed = image.clone();
    for at in 0..image.len() {
        for byte in 0..=255 {
            changed[at] = byte;
            let _ = verdict(&changed, "the bench tree, one byte changed", at as u64);
        }
        changed[at] = image[at];
        let _ = verdict(&image[..at], "the bench tree cut off", at as u64);
    }
}

#[test]
fn on_the_tables_of_the_bench_damaged() {
    for case in cases() {
        let image = (case.build)().image;
        for seed in 0..300 {
            let mut dice = Dice::of(seed);
            let mut damaged = image.clone();
            for _ in 0..=dice.below(3) {
                damage(&mut damaged, &mut dice);
            }
            let _ = verdict(&damaged, case.name, seed);
        }
    }
}

#[test]
fn on_small_random_tables() {
    let mut verdicts = [0; 8];
    for seed in 0..300_000 {
        let mut dice = Dice::of(seed);
        let mut image = tree(&mut dice).image();
        if dice.one_in(2) {
            damage(&mut image, &mut dice);
        }
        let rule = verdict(&image, "a random table", seed).err().map_or(0, |broken| broken.rule);
        verdicts[usize::from(rule)] += 1;
    }
    // That the tables are of use: accepted ones, and many that break each rule.
    for rule in [0, 2, 3, 4, 5, 6, 7] {
        assert!(verdicts[rule] >= 1_000, "of each verdict: {verdicts:?}");
    }
}

/// What all sides that build answer to some parts. An image that is written has to be accepted,
/// and to be built again from its own parts.
fn build(parts: &Build, about: &str, seed: u64) -> Numbers {
    let (answer, image) = built(Side::Plain, parts);
    let replay = || {
        let Build { nodes, mounts, entries, text, room, .. } = parts;
        worked::build_arguments(nodes, mounts, entries, text, *room)
    };
    if let Some(side) = Side::PROVED {
        let other = built(side, parts);
        let is_same = other == (answer, image.clone());
        assert!(is_same, "{about}, seed {seed}: {answer:?}, {:?}\nreplay {}", other.0, replay());
    }
    let [errno, .., bytes] = answer;
    let image = image.unwrap_or_else(|_| panic!("{about}, seed {seed}\nreplay {}", replay()));
    if errno == 0 {
        let is_kept = verdict(&image, about, seed) == Ok(()) && image.len() as u64 == bytes;
        let again = Build { room: bytes, ..parts_of(&image) };
        let is_same = built(Side::Plain, &again) == (answer, Ok(image));
        assert!(is_kept && is_same, "{about}, seed {seed}: {answer:?}\nreplay {}", replay());
    }
    answer
}

/// Leaves out or adds bytes at the end of a part.
fn cut(parts: &mut Build, dice: &mut Dice) {
    let Build { nodes, mounts, entries, text, .. } = parts;
    let part = dice.below(4);
    let part = [nodes, mounts, entries, text].into_iter().nth(part).expect("one of four");
    let by = 1 + dice.below(9);
    let len = if dice.one_in(3) { part.len() + by } else { part.len().saturating_sub(by) };
    part.resize(len, 0);
}

#[test]
fn on_builds_of_small_random_tables() {
    // Written, refused by each rule, and too long for the buffer.
    let mut answers = [0; 9];
    for seed in 0..100_000 {
        let mut dice = Dice::of(seed);
        let mut image = tree(&mut dice).image();
        if dice.one_in(3) {
            damage(&mut image, &mut dice);
        }
        let mut parts = parts_of(&image);
        if dice.one_in(6) {
            cut(&mut parts, &mut dice);
        }
        if dice.one_in(30) {
            let entry = dice.below(1 + parts.entries.len() / ENTRY);
            fields::set(&mut parts.entries, ENTRY * entry + 4, 2, 65_535);
        }
        let (answer, _) = built(Side::Plain, &parts);
        if answer[0] == 0 {
            let bytes = answer[3];
            let less = dice.below(bytes as usize) as u64;
            parts.room = dice.pick(&[bytes, bytes - 1, less, bytes + 1, 1 << 16]);
        }
        let [errno, rule, ..] = build(&parts, "a random build", seed);
        answers[if errno == Errno::ERANGE as u64 { 8 } else { rule as usize }] += 1;
    }
    for kind in [0, 1, 3, 4, 5, 6, 7, 8] {
        assert!(answers[kind] >= 1_000, "of each answer: {answers:?}");
    }
}

#[test]
fn on_builds_of_every_table_of_the_bench() {
    for case in cases() {
        for seed in 0..10 {
            let mut dice = Dice::of(seed);
            let mut image = (case.build)().image;
            if seed > 0 {
                damage(&mut image, &mut dice);
            }
            build(&parts_of(&image), case.name, seed);
        }
    }
}

/// A tree that keeps most rules, but often not all.
fn tree(dice: &mut Dice) -> Tree {
    let (mut tree, top) = Tree::mounted();
    let text = text(&mut tree, dice);
    let mut parents = vec![(top, top)];
    let mut others = Vec::new();
    let deep = dice.one_in(2);
    let most = dice.pick(&[10, 40, 150]);
    for _ in 0..dice.below(most) {
        let (directory, _) = if deep { parents[parents.len() - 1] } else { dice.pick(&parents) };
        match dice.below(6) {
            0 => others.push(tree.file()),
            1 => others.push(tree.link(part(&text, dice))),
            2 => {
                let top = tree.top();
                parents.push((top, top));
            }
            _ => parents.push((tree.directory(directory), directory)),
        }
    }

    let roots = mounts(&mut tree, &parents, dice);
    magic_links(&mut tree, &parents, &roots, &mut others, dice);
    for &(directory, parent) in &parents {
        if directory != parent && dice.one_in(2) {
            tree.name_again(parent, part(&text, dice), directory);
        }
        if !others.is_empty() && dice.one_in(3) {
            tree.name_again(directory, part(&text, dice), dice.pick(&others));
        }
    }
    tree
}

/// Links to directories or to other nodes, most of them in order.
fn magic_links(
    tree: &mut Tree,
    parents: &[(usize, usize)],
    roots: &[usize],
    others: &mut Vec<usize>,
    dice: &mut Dice,
) {
    for _ in 0..dice.below(12) {
        let beyond = usize::from(dice.one_in(16));
        let mount = dice.below(roots.len() + beyond);
        let root = roots.get(mount).copied().unwrap_or(parents[0].0);
        let target = if others.is_empty() || dice.one_in(2) {
            under(parents, root, dice)
        } else {
            dice.pick(others)
        };
        others.push(tree.magic(mount, target));
    }
}

/// Text with few bytes that a name or body may not have, or none.
fn text(tree: &mut Tree, dice: &mut Dice) -> Text {
    let len = 1 + dice.pick(&[20, 100, 700]);
    let rare = dice.pick(&[0, 0, 300, 3_000]);
    let mut bytes = Vec::new();
    for _ in 0..len {
        let is_rare = rare != 0 && dice.one_in(rare);
        bytes.push(if is_rare { dice.pick(b"\0/.") } else { dice.pick(b"abcdefgh") });
    }
    tree.text(&bytes)
}

fn part(text: &Text, dice: &mut Dice) -> Text {
    let at = dice.below(text.len());
    let most = (text.len() - at).min(if dice.one_in(2) { 8 } else { 255 });
    text.part(at, 1 + dice.below(most))
}

/// Up to 12 mounts, most of them in order; the roots of all.
fn mounts(tree: &mut Tree, parents: &[(usize, usize)], dice: &mut Dice) -> Vec<usize> {
    let mut roots = vec![parents[0].0];
    let mut covered = Vec::new();
    for _ in 0..dice.below(12) {
        let (root, _) = dice.pick(parents);
        let parent = dice.below(roots.len());
        let point = under(parents, roots[parent], dice);
        let is_sound = point != roots[parent] && !covered.contains(&(parent, point));
        if is_sound || dice.one_in(16) {
            covered.push((parent, point));
            tree.mount(root, parent, point);
            roots.push(root);
        }
    }
    roots
}

/// A directory that is under the root, but for one time in 16.
fn under(parents: &[(usize, usize)], root: usize, dice: &mut Dice) -> usize {
    if dice.one_in(16) {
        return dice.pick(parents).0;
    }
    let parent = |of: usize| parents.iter().find(|&&(directory, _)| directory == of).unwrap().1;
    for _ in 0..20 {
        let (directory, _) = dice.pick(parents);
        let mut above = directory;
        while above != root && parent(above) != above {
            above = parent(above);
        }
        if above == root {
            return directory;
        }
    }
    root
}
