//! Random calls that are confined to a handle.

use crate::*;
use data::dice::Dice;
use data::image::{Node, Tree};

/// A way into the part, and on from there; some restrictions, and one that confines.
pub fn confined(dice: &mut Dice, part: &Part, tree: &Tree) -> (Handle, Vec<u8>, OpenHow) {
    let mut path = match dice.below(5) {
        0 => Vec::new(),
        1 => b"/".to_vec(),
        _ => part.places().nth(dice.below(part.len())).unwrap().path(),
    };
    for _ in 0..dice.below(4) {
        path.extend(
            if dice.one_in(8) { "//" } else { "/" }.bytes().take(usize::from(!path.is_empty())),
        );
        path.extend(component(dice, tree));
    }
    let mut flags = Flags::empty();
    for (_, flag) in Flags::NAMED {
        flags |= if dice.one_in(3) { *flag } else { Flags::empty() };
    }
    let mut resolve = Resolve::empty();
    for bit in [Resolve::NO_XDEV, Resolve::NO_MAGICLINKS, Resolve::NO_SYMLINKS] {
        resolve |= if dice.one_in(8) { bit } else { Resolve::empty() };
    }
    let handle = Handle::from(part.handle());
    let (handle, scope) = match dice.below(4) {
        0 => (handle, Resolve::BENEATH),
        1 => (handle, Resolve::IN_ROOT),
        2 => (handle.marked(), Resolve::empty()),
        _ => {
            (handle.marked(), dice.choose(&[Resolve::BENEATH, Resolve::IN_ROOT]).copied().unwrap())
        }
    };
    (handle, path, OpenHow::new().flags(flags).resolve(resolve | scope))
}

/// "..", a name or a body of the table, or nothing that it has.
fn component(dice: &mut Dice, tree: &Tree) -> Vec<u8> {
    match (dice.below(6), dice.choose(&tree.nodes)) {
        (0 | 1, _) => b"..".to_vec(),
        (2, _) => dice.pick(&[".", "none", ""]).into(),
        (_, Some(Node::Directory { entries, .. })) => {
            dice.choose(entries).map_or(b"..".to_vec(), |entry| entry.name.bytes.clone())
        }
        (_, Some(Node::Link(body))) => body.bytes.clone(),
        _ => b"a".to_vec(),
    }
}
