//! What decides whether a call's handle is checked, and which of the checks refuses it: for
//! the inputs and their statistics.

use crate::resolver::{
    comes_to_handle, handle_is_checked, resolve_field, Place, Table, FILE, LINK, MAGIC,
};

/// A handle by the check that refuses it.
#[derive(Clone, Copy, Debug, PartialEq, Eq, PartialOrd, Ord)]
pub enum Kind {
    Good,
    OutOfRange,
    File,
    Link,
    MagicLink,
    Outside,
    Covered,
}

impl Kind {
    pub fn of(table: &Table, handle: Place) -> Kind {
        let numbers = (table.mount(handle.mount), table.node(handle.node));
        let (Some(_), Some(node)) = numbers else { return Kind::OutOfRange };
        match node.kind {
            FILE => Kind::File,
            LINK => Kind::Link,
            MAGIC => Kind::MagicLink,
            _ if table.covering(handle).is_some() => Kind::Covered,
            _ if table.handle_errno(handle).is_some() => Kind::Outside,
            _ => Kind::Good,
        }
    }
}

/// A path by its beginning.
#[derive(Clone, Copy, Debug, PartialEq, Eq, PartialOrd, Ord)]
pub enum Beginning {
    Relative,
    /// Slashes alone.
    Slashes,
    /// "/.."
    Up,
    /// A slash before another component, or several.
    Slash,
    ManySlashes,
}

impl Beginning {
    fn of(path: &[u8]) -> Beginning {
        let slashes = path.iter().take_while(|byte| **byte == b'/').count();
        let first = path[slashes..].split(|byte| *byte == b'/').next();
        match (slashes, first) {
            (0, _) => Beginning::Relative,
            (_, Some(b"")) => Beginning::Slashes,
            (_, Some(b"..")) => Beginning::Up,
            (1, _) => Beginning::Slash,
            _ => Beginning::ManySlashes,
        }
    }
}

/// A call that comes to its handle.
#[derive(Clone, Copy)]
pub struct Tried {
    pub handle: Kind,
    pub path: Beginning,
    pub resolve: u64,
    pub mark: bool,
    pub is_checked: bool,
}

impl Tried {
    /// None for a call that is refused before that.
    pub fn of(
        table: Option<&Table>,
        handle: Place,
        mark: bool,
        path: &[u8],
        how: &[u8],
    ) -> Option<Tried> {
        let table = table.filter(|_| comes_to_handle(path, how))?;
        let resolve = resolve_field(how)?;
        Some(Tried {
            handle: Kind::of(table, handle),
            path: Beginning::of(path),
            resolve,
            mark,
            is_checked: handle_is_checked(mark, path, resolve),
        })
    }
}
