//! That the comparison sees what a subject must not do, besides answering otherwise.

use super::*;
use crate::builder::Parts;
use crate::manifest::Rewritten;
use crate::subject::{Handle, Lent, Planted, Slots};
use data::sequence::Step;
use data::BENCH_TREE;

#[derive(Clone, Copy, Debug, PartialEq)]
enum Slip {
    Nothing,
    /// Changes a byte that it is lent.
    Image,
    Name,
    /// Writes what there is no room for, or behind the answer.
    Short,
    None,
    Behind,
    /// Differs where the image is said to be accepted, or is not.
    Accepted,
    Checked,
}

use Slip::*;

/// A subject that answers right but for its slip.
struct Slipping(Slip);

impl Subject for Slipping {
    fn check(&mut self, image: &mut [u8]) -> Vec<u64> {
        Planted(Option::None).check(image)
    }

    fn resolve(&mut self, lent: &mut Lent, handle: Handle) -> Vec<u64> {
        Planted(Option::None).resolve(lent, handle)
    }

    fn start(&mut self, image: &mut [u8], slots: &mut Slots, room: usize) -> Vec<u64> {
        Planted(Option::None).start(image, slots, room)
    }

    fn start_accepted(&mut self, image: &mut [u8], slots: &mut Slots) {
        Planted(Option::None).start_accepted(image, slots);
    }

    fn act(&mut self, image: &mut [u8], slots: &mut Slots, step: &mut Step, way: Way) -> Vec<u64> {
        Planted(Option::None).act(image, slots, step, way)
    }

    fn rewritten(&mut self, image: &[u8]) -> Rewritten {
        Planted(Option::None).rewritten(image)
    }

    fn lookup(&mut self, image: &mut [u8], node: u64, name: &mut [u8], way: Way) -> Vec<u64> {
        let mut answer = Planted(Option::None).lookup(image, node, name, way);
        match self.0 {
            Image => image[0] ^= 1,
            Name => name[0] ^= 1,
            Short if way.room == 3 => answer = vec![0, 0, 0],
            None if way.room == 0 => answer = vec![0],
            Behind if way.room > 4 => answer.push(0),
            Accepted if way.accepted && way.room == 4 => answer[3] += 1,
            Checked if !way.accepted && way.room == 4 => answer[3] += 1,
            _ => {}
        }
        answer
    }

    fn build(&mut self, parts: &mut Parts, buffer: &mut [u8], room: usize) -> Vec<u64> {
        Planted(Option::None).build(parts, buffer, room)
    }
}

#[test]
fn each_slip_is_seen() {
    let lookup = Lookup { image: BENCH_TREE.to_vec(), node: 2, name: b"tare".to_vec() };
    assert!(lookup.compare(&mut Slipping(Nothing)).is_ok());
    for (slip, what) in [
        (Image, "lent bytes were changed (image, name)"),
        (Name, "lent bytes were changed (image, name)"),
        (Short, "lookup with room for 3"),
        (None, "lookup with room for 0"),
        (Behind, "lookup with room for 6"),
        (Accepted, "lookup_accepted"),
        (Checked, "lookup"),
    ] {
        let difference = lookup.compare(&mut Slipping(slip)).err().expect("a difference");
        assert_eq!(difference.what, what, "{slip:?}");
    }
}

#[test]
fn a_refused_image_is_not_said_to_be_accepted() {
    let mut image = BENCH_TREE.to_vec();
    image.pop();
    let lookup = Lookup { image, node: 2, name: b"tare".to_vec() };
    assert!(lookup.compare(&mut Slipping(Accepted)).is_ok());
    assert!(lookup.compare(&mut Slipping(Checked)).is_err());
}

#[test]
fn no_more_names_are_compared_than_the_count_has_digits() {
    for (count, digits) in
        [(0, 0), (1, 1), (2, 2), (3, 2), (4, 3), (3_000, 12), (4_095, 12), (4_096, 13)]
    {
        assert!((0..=digits).all(|compared| at_most_the_digits(count, compared).is_ok()));
        let difference = at_most_the_digits(count, digits + 1).expect_err("too many");
        assert_eq!((difference.expected, difference.got), (vec![digits], vec![digits + 1]));
    }
}

#[test]
fn a_lookup_is_written_as_arguments() {
    let lookup = Lookup { image: b"TOC".to_vec(), node: u64::MAX, name: b"a\xff".to_vec() };
    assert_eq!(lookup.to_string(), "--image 544f43 --node 18446744073709551615 --name 61ff");
    let empty = Lookup { name: Vec::new(), node: 0, ..lookup };
    assert_eq!(empty.to_string(), "--image 544f43 --node 0 --name ''");
}
