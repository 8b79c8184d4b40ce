//! That the comparison sees what a subject must not do, besides answering otherwise.

use super::*;
use crate::builder::ERANGE;
use crate::manifest::Rewritten;
use crate::subject::{Handle, Lent, Planted, Slots, Way};
use data::image::Tree;
use data::sequence::Step;
use data::BENCH_TREE;

#[derive(Clone, Copy, Debug, PartialEq)]
enum Slip {
    Nothing,
    /// Changes a byte that it is lent.
    Nodes,
    Mounts,
    Entries,
    Text,
    /// Writes what there is no room for, behind the answer, or the image without an answer.
    Short,
    None,
    Behind,
    ShortBuilt,
    /// Writes a byte of the image otherwise, one beyond it, or one at a refusal.
    Inside,
    Beyond,
    Refused,
    /// Writes another image when it has its own, or one with another text.
    Again,
    Relaid,
    /// Answers otherwise over the image that was written.
    Check,
    Resolve,
    Lookup,
}

use Slip::*;

/// A subject that answers right but for its slip, and how often it has built something.
struct Slipping(Slip, usize);

/// One that has no slip.
fn right() -> Planted {
    Planted(Option::None)
}

impl Slipping {
    fn touch(&self, parts: &mut Parts, buffer: &mut [u8], errno: u64) {
        // Four times it is asked for the build itself.
        let part = match self.0 {
            Nodes => &mut parts.nodes[..],
            Mounts => &mut parts.mounts,
            Entries => &mut parts.entries,
            Text => &mut parts.text,
            Inside => buffer,
            Beyond if buffer.len() > 316 => &mut buffer[316..],
            Refused if errno != 0 => buffer,
            Again if self.1 == 5 => buffer,
            Relaid if self.1 == 6 => buffer,
            _ => return,
        };
        part[0] ^= 1;
    }
}

impl Subject for Slipping {
    fn check(&mut self, image: &mut [u8]) -> Vec<u64> {
        if self.0 == Check {
            vec![4, 0]
        } else {
            right().check(image)
        }
    }

    fn resolve(&mut self, lent: &mut Lent, handle: Handle) -> Vec<u64> {
        if self.0 == Resolve {
            vec![0; 6]
        } else {
            right().resolve(lent, handle)
        }
    }

    fn start(&mut self, image: &mut [u8], slots: &mut Slots, room: usize) -> Vec<u64> {
        right().start(image, slots, room)
    }

    fn start_accepted(&mut self, image: &mut [u8], slots: &mut Slots) {
        right().start_accepted(image, slots);
    }

    fn act(&mut self, image: &mut [u8], slots: &mut Slots, step: &mut Step, way: Way) -> Vec<u64> {
        right().act(image, slots, step, way)
    }

    fn rewritten(&mut self, image: &[u8]) -> Rewritten {
        right().rewritten(image)
    }

    fn lookup(&mut self, image: &mut [u8], node: u64, name: &mut [u8], way: Way) -> Vec<u64> {
        if self.0 == Lookup {
            vec![9; 4]
        } else {
            right().lookup(image, node, name, way)
        }
    }

    fn build(&mut self, parts: &mut Parts, buffer: &mut [u8], room: usize) -> Vec<u64> {
        self.1 += 1;
        if room < ROOM {
            return match (self.0, room) {
                (Short, 3) => vec![0, 0, 0],
                (None, 0) => vec![0],
                (ShortBuilt, _) => {
                    right().build(parts, buffer, ROOM);
                    Vec::new()
                }
                _ => Vec::new(),
            };
        }
        let mut numbers = right().build(parts, buffer, room);
        self.touch(parts, buffer, numbers[0]);
        if self.0 == Behind && room > ROOM {
            numbers.push(0);
        }
        numbers
    }
}

fn bench(room: usize) -> Build {
    Build { parts: Parts::of(BENCH_TREE), room }
}

/// How the comparison tells a slip.
fn seen(slip: Slip, build: &Build) -> Option<String> {
    build.compare(&mut Slipping(slip, 0)).err().map(|difference| difference.what)
}

#[test]
fn each_slip_is_seen() {
    let build = bench(320);
    let lent = "lent bytes were changed (nodes, mounts, entries, text)";
    assert_eq!(seen(Nothing, &build), Option::None);
    for (slip, what) in [
        (Nodes, lent),
        (Mounts, lent),
        (Entries, lent),
        (Text, lent),
        (Short, "build with room for 3"),
        (None, "build with room for 0"),
        (Behind, "build with room for 6"),
        (ShortBuilt, "build with room for 0: byte 0 of the buffer"),
        (Inside, "build: byte 0 of the buffer"),
        (Beyond, "build: byte 316 of the buffer"),
        (Again, "what was read from a built image, written: byte 0 of the buffer"),
        (Relaid, "the same tree from another text: byte 0 of the buffer"),
        (Check, "the check of a written image"),
        (Resolve, "a call on the written image, --image "),
        (Lookup, "a lookup in the written image, --image "),
    ] {
        let told = seen(slip, &build).unwrap_or_else(|| panic!("{slip:?} is not seen"));
        assert!(told.starts_with(what), "{slip:?}: {told}");
    }
}

#[test]
fn a_refusal_leaves_the_buffer() {
    let short = bench(315);
    let mut broken = bench(320);
    broken.parts.nodes[0] = 9;
    for (build, errno) in [(short, ERANGE), (broken, 117)] {
        assert_eq!(build.expected().numbers[0], errno);
        assert_eq!(seen(Nothing, &build), Option::None);
        assert_eq!(seen(Refused, &build).as_deref(), Some("build: byte 0 of the buffer"));
        // There is no image to ask.
        assert_eq!(seen(Check, &build), Option::None);
    }
}

#[test]
fn what_is_got_tells_of_another_buffer() {
    let build = bench(320);
    let image = build.expected().image;
    let got = |slip, image: &[u8]| build.got(&mut Slipping(slip, 0), image);
    assert_eq!(got(Nothing, &image), (vec![0, 0, 0, 316], true));
    assert_eq!(got(Nothing, b""), (vec![0, 0, 0, 316, 1], true));
    assert_eq!(got(Beyond, &image), (vec![0, 0, 0, 316, 1], true));
    assert_eq!(got(Text, &image), (vec![0, 0, 0, 316], false));
}

#[test]
fn a_build_is_written_as_arguments() {
    let (tree, _) = Tree::mounted();
    let build = Build { parts: Parts::of(&tree.image()), room: 41 };
    let zeros = "0".repeat(16);
    assert_eq!(
        build.to_string(),
        format!("--nodes 0100{zeros}0000 --mounts {zeros} --entries '' --text '' --room 41")
    );
}

/// The buffer stays as much longer than the image, and a record stays cut.
#[test]
fn other_parts_keep_the_room_and_the_cut() {
    let smallest = Parts::of(&Tree::mounted().0.image());
    let mut build = bench(320);
    build.parts.mounts.extend([7, 7, 7]);
    let other = build.with_parts(smallest.clone());
    assert_eq!((other.room, other.parts.mounts.len()), (44, 11));
    assert_eq!(bench(0).with_parts(smallest).room, 0);
}
