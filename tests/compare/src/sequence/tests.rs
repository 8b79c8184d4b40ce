//! That the comparison sees what a subject must not do, besides answering otherwise.

use super::*;
use crate::builder::Parts;
use crate::manifest::Rewritten;
use crate::subject::{Handle, Lent, Planted};
use data::{how, BENCH_TREE};

#[derive(Clone, Copy, Debug, PartialEq)]
enum Slip {
    Nothing,
    /// Changes a byte that it is lent.
    Image,
    Path,
    How,
    /// Changes a slot at a refusal, a slot beside the one that it may, or one that is
    /// marked already.
    Refused,
    Beside,
    MarkedAgain,
    /// Leaves something in a slot that is closed.
    Closed,
    /// Writes what there is no room for, or changes a slot then.
    Short,
    ShortSlot,
    ShortStart,
    /// Differs where the image is said to be accepted.
    AcceptedReply,
    AcceptedSlot,
    AcceptedStart,
}

use Slip::*;

const SLIPS: [Slip; 13] = [
    Image,
    Path,
    How,
    Refused,
    Beside,
    MarkedAgain,
    Closed,
    Short,
    ShortSlot,
    ShortStart,
    AcceptedReply,
    AcceptedSlot,
    AcceptedStart,
];

/// A subject that answers right but for its slip.
struct Slipping(Slip);

impl Slipping {
    fn has(&self, slip: Slip) -> bool {
        self.0 == slip
    }

    /// What it does after a call to the bytes lent.
    fn touch(&self, image: &mut [u8], step: &mut Step) {
        let Step::Open(open) = step else { return };
        let part = match self.0 {
            Image => image,
            Path => &mut open.path[..],
            How => &mut open.how[..],
            _ => return,
        };
        if let Some(byte) = part.last_mut() {
            *byte ^= 1;
        }
    }

    /// What it does after a call to the slots.
    fn slip(&self, slots: &mut Slots, before: &Slots, step: &Step, reply: &[u64]) {
        let is_done = reply[0] == 0;
        let is_same = slots == before;
        match (self.0, step) {
            (Refused, _) if !is_done => slots[0] ^= 1 << 60,
            (Beside, Step::Dup(_)) if is_done => slots[0] ^= 1 << 60,
            (MarkedAgain, Step::SetMark(number)) if is_done && is_same => {
                slots[*number as usize] ^= 1 << 60;
            }
            (Closed, Step::Close(number)) if is_done => slots[*number as usize] = 1 << 60,
            _ => {}
        }
    }
}

impl Subject for Slipping {
    fn check(&mut self, image: &mut [u8]) -> Vec<u64> {
        Planted(None).check(image)
    }

    fn resolve(&mut self, lent: &mut Lent, handle: Handle) -> Vec<u64> {
        Planted(None).resolve(lent, handle)
    }

    fn start(&mut self, image: &mut [u8], slots: &mut Slots, room: usize) -> Vec<u64> {
        if self.has(ShortStart) {
            slots[63] = 0;
        }
        Planted(None).start(image, slots, room)
    }

    fn start_accepted(&mut self, image: &mut [u8], slots: &mut Slots) {
        Planted(None).start_accepted(image, slots);
        if self.has(AcceptedStart) {
            slots[0] ^= 1 << 60;
        }
    }

    fn act(&mut self, image: &mut [u8], slots: &mut Slots, step: &mut Step, way: Way) -> Vec<u64> {
        let before = *slots;
        let mut reply = Planted(None).act(image, slots, step, way);
        if reply.is_empty() {
            slots[63] ^= u64::from(self.has(ShortSlot));
            return if self.has(Short) { vec![0] } else { reply };
        }
        self.slip(slots, &before, step, &reply);
        self.touch(image, step);
        if way.accepted && reply[0] == 0 {
            reply[5] += u64::from(self.has(AcceptedReply));
            slots[reply[6] as usize] ^= u64::from(self.has(AcceptedSlot)) << 60;
        }
        reply
    }

    fn rewritten(&mut self, image: &[u8]) -> Rewritten {
        Planted(None).rewritten(image)
    }

    fn lookup(&mut self, image: &mut [u8], node: u64, name: &mut [u8], way: Way) -> Vec<u64> {
        Planted(None).lookup(image, node, name, way)
    }

    fn build(&mut self, parts: &mut Parts, buffer: &mut [u8], room: usize) -> Vec<u64> {
        Planted(None).build(parts, buffer, room)
    }
}

fn open(number: u64, path: &str) -> Step {
    let path = path.as_bytes().to_vec();
    Step::Open(Open { number, path, how: how(0, 0), ..Open::default() })
}

#[test]
fn each_slip_is_seen() {
    let steps = vec![
        open(0, "lab"),
        Step::Dup(1),
        Step::SetMark(2),
        Step::SetMark(2),
        open(2, ".."),
        Step::Close(1),
    ];
    let sequence = Sequence { image: BENCH_TREE.to_vec(), steps };
    assert!(sequence.compare(&mut Slipping(Nothing)).is_ok());
    for slip in SLIPS {
        assert!(sequence.compare(&mut Slipping(slip)).is_err(), "{slip:?}");
    }
}

#[test]
fn a_difference_names_its_call() {
    let steps = vec![open(0, "lab"), Step::Dup(1), open(64, "..")];
    let sequence = Sequence { image: BENCH_TREE.to_vec(), steps };
    let difference = sequence.compare(&mut Slipping(Refused)).err().expect("a difference");
    assert_eq!(difference.what, "call 2, open: slot 0, that must stay as it was");
}
