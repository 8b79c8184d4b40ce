//! Sequences of calls on descriptors.
//!
//! They are written along the plain list of 64 slots, so that most calls are about numbers
//! that are open, and what is open is of every kind.

use super::damage::damage;
use super::hows::{bad_how, good_how};
use super::paths::{bad_path, good_path, Origin};
use super::tables::table;
use crate::case::ADDABLE;
use crate::descriptors::{Descriptors, SLOTS};
use crate::resolver::{accept, resolve_field, Place, Table, IN_ROOT, O_NOFOLLOW, O_PATH};
use crate::sequence::Sequence;
use data::dice::Dice;
use data::how;
use data::image::Tree;
use data::sequence::{Open, Step};

const LONGEST: usize = 200;

pub fn sequence(dice: &mut Dice) -> Sequence {
    let mut image = if dice.percent(50) { furnished(dice) } else { table(dice) };
    if dice.percent(4) {
        image = damage(dice, &image);
    }
    let table = accept(&image).ok();
    let mut script = Script::new(table.as_ref());
    script.write(dice);
    let steps = script.steps;
    Sequence { image, steps }
}

/// A small table in which every kind of place is one name away from the top: files, links,
/// and magic links to a covered directory, to another mount and to a file.
fn furnished(dice: &mut Dice) -> Vec<u8> {
    let (mut tree, top) = Tree::mounted();
    let a = tree.named_directory(top, "a");
    let b = tree.named_directory(a, "b");
    let covered = tree.named_directory(top, "c");
    let second = tree.top();
    tree.mount(second, 0, covered);
    if dice.percent(50) {
        let root = dice.pick(&[top, a, second]);
        tree.mount(root, 0, b);
    }
    let file = tree.file();
    let to_covered = tree.magic(0, covered);
    let to_mount = tree.magic(1, second);
    let to_file = tree.magic(dice.below(2), file);
    let up = tree.link("..");
    let jump = tree.link("/a");
    for directory in [top, a, b, second] {
        let named = [("f", file), ("m", to_covered), ("n", to_mount), ("o", to_file)];
        for (name, node) in named.into_iter().chain([("u", up), ("j", jump)]) {
            if dice.percent(60) {
                tree.name(directory, name, node);
            }
        }
    }
    tree.image()
}

struct Script<'a> {
    table: Option<&'a Table<'a>>,
    /// As the calls so far leave them.
    descriptors: Descriptors,
    /// Numbers that were closed.
    closed: Vec<u64>,
    steps: Vec<Step>,
}

impl<'a> Script<'a> {
    fn new(table: Option<&'a Table<'a>>) -> Script<'a> {
        let descriptors = Descriptors::start(table);
        Script { table, descriptors, closed: Vec::new(), steps: Vec::new() }
    }

    fn write(&mut self, dice: &mut Dice) {
        let mut length = dice.pick(&[1, 4, 8, 15, 15, 30, 30, 60, 100, LONGEST]);
        if self.table.is_none() {
            // Nothing is ever open.
            length = length.min(8);
        }
        let filled_at = dice.percent(35).then(|| dice.below(length));
        // So many are to be open: below, more are opened; from there on, more are closed.
        let mut wanted = dice.pick(&[1, 4, 12, SLOTS]);
        let mut written = 0;
        while written < length && self.steps.len() < LONGEST {
            if filled_at == Some(written) {
                self.fill(dice);
                wanted = SLOTS;
            }
            if dice.one_in(25) {
                wanted = dice.pick(&[1, 4, 12, SLOTS]);
            }
            let step = self.step(dice, wanted);
            self.push(step);
            written += 1;
        }
    }

    fn push(&mut self, step: Step) {
        let reply = self.descriptors.act(self.table, &step);
        if let (0, Step::Close(number)) = (reply[0], &step) {
            self.closed.push(*number);
        }
        self.steps.push(step);
    }

    /// Opens all 64, mostly by duplicates, if there is one to begin with.
    fn fill(&mut self, dice: &mut Dice) {
        let is_partly_open =
            |script: &Script| (1..SLOTS).contains(&script.descriptors.open_ones().len());
        while is_partly_open(self) && self.steps.len() < LONGEST {
            let number = self.open_one(dice);
            let (path, how) = (b".".to_vec(), how(0, 0));
            let step = match dice.percent(70) {
                true => Step::Dup(number),
                false => Step::Open(Open { number, path, how, ..Open::default() }),
            };
            self.push(step);
        }
    }

    fn step(&self, dice: &mut Dice, wanted: usize) -> Step {
        let (opens, dups, closes) = match self.descriptors.open_ones().len() {
            // The last is seldom closed: with none open there is nothing left to be had.
            0 | 1 => (75, 14, 1),
            // All 64 stay open for a while.
            open if open < wanted || wanted == SLOTS => (60, 20, 7),
            _ => (40, 12, 34),
        };
        let rolled = dice.below(100);
        if rolled < opens {
            return Step::Open(self.open(dice));
        }
        let number = self.number(dice);
        if rolled < opens + dups {
            Step::Dup(number)
        } else if rolled < opens + dups + closes {
            Step::Close(number)
        } else {
            Step::SetMark(number)
        }
    }

    /// A number that is open; 0 if none is.
    fn open_one(&self, dice: &mut Dice) -> u64 {
        dice.choose(&self.descriptors.open_ones()).copied().unwrap_or(0)
    }

    /// Mostly one that is open.
    fn number(&self, dice: &mut Dice) -> u64 {
        let open = self.open_one(dice);
        match dice.below(100) {
            0..=3 => dice.choose(&self.closed).copied().unwrap_or(63),
            4..=6 => dice.below(SLOTS) as u64,
            7..=10 => dice.pick(&[64, 65, 127, 128, 1 << 16, 1 << 32, (1 << 32) + 1, u64::MAX]),
            // An open one, if the number is cut to fewer bits.
            11..=13 => dice.pick(&[64, 128, 1 << 16, 1 << 32, 1 << 63]) + open,
            _ => open,
        }
    }

    /// The place that a number holds, if it can be opened through.
    fn good_place(&self, number: u64) -> Option<Place> {
        let place = self.descriptors.held(number)?.place;
        self.table?.handle_errno(place).is_none().then_some(place)
    }

    /// One of the open numbers that hold such a place, if any does.
    fn holding(&self, dice: &mut Dice, is_such: impl Fn(&Table, Place) -> bool) -> Option<u64> {
        let table = self.table?;
        let holds = |number: &u64| {
            self.descriptors.held(*number).is_some_and(|held| is_such(table, held.place))
        };
        let mut numbers = self.descriptors.open_ones();
        numbers.retain(holds);
        dice.choose(&numbers).copied()
    }

    /// A number to open through: mostly one where there is more to be had than a refusal,
    /// sometimes one of a bad handle, covered or no directory.
    fn through(&self, dice: &mut Dice) -> u64 {
        let bad = match dice.below(100) {
            0..=9 => self.holding(dice, |table, place| table.covering(place).is_some()),
            10..=17 => self.holding(dice, |table, place| !table.is_directory(place.node)),
            _ => None,
        };
        if let Some(number) = bad {
            return number;
        }
        let mut number = self.number(dice);
        for _ in 0..3 {
            if self.good_place(number).is_none() && dice.percent(75) {
                number = self.number(dice);
            }
        }
        number
    }

    fn open(&self, dice: &mut Dice) -> Open {
        let number = self.through(dice);
        let mark = dice.percent(25);
        let how = open_how(dice, mark);
        let resolve = resolve_field(&how).unwrap_or(0) & IN_ROOT;
        let path = self.path(dice, number, resolve);
        let mut open = Open { number, mark, path, how, ..Open::default() };
        if dice.percent(20) {
            open.added = dice.roll() & dice.roll() & ADDABLE;
            open.added_mark = dice.percent(40);
        }
        open
    }

    fn path(&self, dice: &mut Dice, number: u64, resolve: u64) -> Vec<u8> {
        let Some(table) = self.table else { return dice.pick(&[".", "/", "", "a\0"]).into() };
        let Some(place) = self.good_place(number) else {
            let origin = Origin { handle: table.top(), resolve: 0, is_absolute: true };
            return match dice.percent(50) {
                true => good_path(dice, table, origin),
                false => dice.pick(&[".", "..", "a", "/", "/a", "", "a\0", "/\0"]).into(),
            };
        };
        let origin = Origin { handle: place, resolve, is_absolute: dice.percent(16) };
        let path = match dice.below(100) {
            0..=19 => b".".to_vec(),
            20..=36 => b"..".to_vec(),
            37..=74 => self.name(dice, place).unwrap_or(b"/".to_vec()),
            75..=77 => dice.pick(&["/", "/a", "/c", "missing", "./"]).into(),
            _ => good_path(dice, table, origin),
        };
        if dice.percent(3) {
            return bad_path(dice, path);
        }
        path
    }

    /// A name in a directory.
    fn name(&self, dice: &mut Dice, directory: Place) -> Option<Vec<u8>> {
        let table = self.table?;
        let entry = dice.choose(table.entries_of(table.node(directory.node)?))?;
        table.name(entry).map(<[u8]>::to_vec)
    }
}

/// An open_how, mostly with O_DIRECTORY where the mark is asked for.
fn open_how(dice: &mut Dice, mark: bool) -> Vec<u8> {
    let mut bytes = match dice.below(100) {
        0..=44 => how(0, 0),
        45..=61 => how(O_PATH | O_NOFOLLOW, 0),
        62..=94 => good_how(dice),
        _ => bad_how(dice),
    };
    if mark && dice.percent(75) {
        // O_DIRECTORY is the lowest bit of this byte.
        if let Some(byte) = bytes.get_mut(2) {
            *byte |= 1;
        }
    }
    bytes
}
