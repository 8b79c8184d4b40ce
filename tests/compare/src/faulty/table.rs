//! The table, its rules, and the handle checks.

use crate::faults::Fault;
use crate::resolver::{EBADF, ENOTDIR};

/// The image's bytes with the counts of its header.
pub struct Raw<'a> {
    pub fault: Option<Fault>,
    pub image: &'a [u8],
    pub nodes: u64,
    pub mounts: u64,
    pub entries: u64,
    pub text: u64,
}

impl<'a> Raw<'a> {
    pub fn has(&self, fault: Fault) -> bool {
        self.fault == Some(fault)
    }

    /// A field; bytes outside the image read as zero, which matters only
    /// when a fault let a bad table pass.
    fn field(&self, at: u64, width: u64) -> u64 {
        (0..width).fold(0, |sum, byte| {
            let at = usize::try_from(at + byte).unwrap_or(usize::MAX);
            sum | u64::from(*self.image.get(at).unwrap_or(&0)) << (8 * byte)
        })
    }

    pub fn kind(&self, node: u64) -> u64 {
        if node < self.nodes {
            self.field(20 + 12 * node, 2)
        } else {
            0
        }
    }

    pub fn parent(&self, node: u64) -> u64 {
        self.field(20 + 12 * node + 2, 2)
    }

    pub fn first(&self, node: u64) -> u64 {
        self.field(20 + 12 * node + 4, 4)
    }

    pub fn count(&self, node: u64) -> u64 {
        self.field(20 + 12 * node + 8, 4)
    }

    /// root, parent, point, zero; all 0 where there is no such mount, which matters only
    /// when a fault let a bad handle pass
    pub fn mount(&self, mount: u64) -> [u64; 4] {
        if mount >= self.mounts {
            return [0; 4];
        }
        let at = 20 + 12 * self.nodes + 8 * mount;
        [0, 2, 4, 6].map(|field| self.field(at + field, 2))
    }

    /// name offset, name length, node
    pub fn entry(&self, entry: u64) -> (u64, u64, u64) {
        let at = 20 + 12 * self.nodes + 8 * self.mounts + 8 * entry;
        (self.field(at, 4), self.field(at + 4, 2), self.field(at + 6, 2))
    }

    /// A part of the text; empty if it is not inside.
    pub fn part(&self, offset: u64, length: u64) -> &'a [u8] {
        let text = 20 + 12 * self.nodes + 8 * self.mounts + 8 * self.entries;
        let range = (text + offset) as usize..(text + offset + length) as usize;
        self.image.get(range).unwrap_or(&[])
    }

    fn sum(&self, left: u64, right: u64) -> u64 {
        if self.has(Fault::WrappingSums) {
            (left + right) & 0xFFFF_FFFF
        } else {
            left + right
        }
    }

    fn under(&self, node: u64, root: u64) -> bool {
        let mut here = node;
        while here != root && self.parent(here) < here {
            here = self.parent(here);
        }
        here == root
    }

    /// The mount that covers a place.
    pub fn cover(&self, mount: u64, node: u64) -> Option<u64> {
        let lowest = u64::from(!self.has(Fault::MountZeroCovers));
        (lowest..self.mounts).find(|number| {
            let [_, parent, point, _] = self.mount(*number);
            (parent == mount || self.has(Fault::CoverByNode)) && point == node
        })
    }

    pub fn read(fault: Option<Fault>, image: &'a [u8]) -> Result<Raw<'a>, [u64; 2]> {
        let mut raw = Raw { fault, image, nodes: 0, mounts: 0, entries: 0, text: 0 };
        let less = |fault| u64::from(raw.has(fault));
        let length = image.len() as u64;
        if length < 20 || length > 65_536 - less(Fault::LongestImage) {
            return Err([1, 0]);
        }
        let most_nodes = 4096 - less(Fault::MostNodes);
        let most_mounts = 256 - less(Fault::MostMounts);
        let most_entries = 4096 - less(Fault::MostEntries);
        if !image.starts_with(b"TOC1") || raw.field(10, 2) != 0 {
            return Err([2, 0]);
        }
        raw.nodes = raw.field(4, 2);
        raw.mounts = raw.field(6, 2);
        raw.entries = raw.field(8, 2);
        raw.text = raw.field(12, 4);
        let records = 12 * raw.nodes + 8 * raw.mounts + 8 * raw.entries;
        let total = raw.sum(20 + records, raw.text);
        if raw.nodes == 0
            || raw.nodes > most_nodes
            || raw.mounts == 0
            || raw.mounts > most_mounts
            || raw.entries > most_entries
            || total != raw.field(16, 4)
            || total != length
        {
            return Err([3, 0]);
        }
        raw.rules()?;
        Ok(raw)
    }

    /// Rules 4 to 7.
    pub fn rules(&self) -> Result<(), [u64; 2]> {
        let owners = self.owners()?;
        if let Some(record) = (0..self.entries).find(|entry| self.bad_entry(*entry, &owners)) {
            let charged = self.has(Fault::EarlierName) && self.out_of_order(record, &owners);
            return Err([5, record - u64::from(charged)]);
        }
        if let Some(record) = (0..self.mounts).find(|mount| self.bad_mount(*mount)) {
            let earlier = self.earlier_at_point(record);
            let charged = self.has(Fault::EarlierRecord) && record > 0;
            return Err([6, earlier.filter(|_| charged).unwrap_or(record)]);
        }
        match (0..self.nodes).find(|node| self.bad_magic(*node)) {
            Some(record) => Err([7, record]),
            None => Ok(()),
        }
    }

    /// Rule 4; gives the directory that owns each entry.
    fn owners(&self) -> Result<Vec<u64>, [u64; 2]> {
        let mut owners = Vec::new();
        let mut sum = 0;
        for node in 0..self.nodes {
            let (parent, first, count) = (self.parent(node), self.first(node), self.count(node));
            let good = match self.kind(node) {
                1 => {
                    let free = self.has(Fault::EmptyFirst) && count == 0;
                    parent <= node && self.kind(parent) == 1 && (free || first == sum)
                }
                2 => parent == 0 && first == 0 && count == 0,
                3 => {
                    let most = 4095 - u64::from(self.has(Fault::BodyBound));
                    parent == 0
                        && count >= 1
                        && count <= most
                        && self.sum(first, count) <= self.text
                        && !self.part(first, count).contains(&0)
                }
                4 => parent == 0,
                _ => false,
            };
            if !good {
                return Err([4, node]);
            }
            if self.kind(node) == 1 {
                sum = self.sum(sum, count);
                let fitting = sum.min(self.entries) as usize;
                owners.resize(fitting.max(owners.len()), node);
            }
        }
        if sum != self.entries {
            return Err([4, self.nodes - u64::from(self.has(Fault::SumAtLast))]);
        }
        Ok(owners)
    }

    fn bad_entry(&self, entry: u64, owners: &[u64]) -> bool {
        let (offset, length, node) = self.entry(entry);
        let end = self.sum(offset, length) + u64::from(self.has(Fault::TextBound));
        let longest = 255 - u64::from(self.has(Fault::NameBound));
        if end > self.text || length == 0 || length > longest || node >= self.nodes {
            return true;
        }
        let name = self.part(offset, length);
        let owner = *owners.get(entry as usize).unwrap_or(&0);
        let slash = name.contains(&b'/') && !self.has(Fault::SlashInName);
        let dots = name == b".." && !self.has(Fault::DotsNamed);
        name == b"."
            || dots
            || slash
            || name.contains(&0)
            || self.out_of_order(entry, owners)
            || (self.kind(node) == 1
                && (self.parent(node) != owner
                    || !(node > owner || self.has(Fault::TopNamed) && node == owner)))
    }

    /// Whether the entry's name is not above that of the entry before it in
    /// the same directory.
    fn out_of_order(&self, entry: u64, owners: &[u64]) -> bool {
        let owner = |entry: u64| owners.get(entry as usize);
        if entry == 0 || owner(entry) != owner(entry - 1) {
            return false;
        }
        let name = |entry| {
            let (offset, length, _) = self.entry(entry);
            self.part(offset, length)
        };
        let (before, after) = (name(entry - 1), name(entry));
        if self.has(Fault::EqualNames) && before == after {
            return false;
        }
        if self.has(Fault::SignedNames) {
            let signed = |name: &[u8]| -> Vec<i8> { name.iter().map(|byte| *byte as i8).collect() };
            signed(before) >= signed(after)
        } else {
            before >= after
        }
    }

    fn bad_mount(&self, mount: u64) -> bool {
        let [root, parent, point, zero] = self.mount(mount);
        if self.kind(root) != 1 || (zero != 0 && !self.has(Fault::MountField)) {
            return true;
        }
        if mount == 0 {
            return parent != 0 || point != root;
        }
        if parent >= mount || self.kind(point) != 1 {
            return true;
        }
        let [parent_root, ..] = self.mount(parent);
        (point == parent_root && !self.has(Fault::PointAtRoot))
            || !self.under(point, parent_root)
            || self.earlier_at_point(mount).is_some()
    }

    fn earlier_at_point(&self, mount: u64) -> Option<u64> {
        let [_, parent, point, _] = self.mount(mount);
        (1..mount).find(|earlier| {
            let [_, other_parent, other_point, _] = self.mount(*earlier);
            (other_parent == parent || self.has(Fault::ClashAcrossParents)) && other_point == point
        })
    }

    fn bad_magic(&self, node: u64) -> bool {
        if self.kind(node) != 4 {
            return false;
        }
        let (mount, target) = self.target(node);
        mount >= self.mounts
            || match self.kind(target) {
                1 => {
                    let [root, ..] = self.mount(mount);
                    !self.under(target, root) && !self.has(Fault::MagicAnywhere)
                }
                2 => false,
                _ => true,
            }
    }

    pub fn target(&self, magic: u64) -> (u64, u64) {
        let cut = if self.has(Fault::CutMagic) { 0xFFFF } else { u64::MAX };
        (self.first(magic) & cut, self.count(magic) & cut)
    }

    /// The handle checks.
    pub fn bad_handle(&self, (mount, node): (u64, u64)) -> Option<u64> {
        if mount >= self.mounts || node >= self.nodes {
            return Some(EBADF);
        }
        let [root, ..] = self.mount(mount);
        let misplaced = (!self.under(node, root) && !self.has(Fault::HandleAnywhere))
            || (self.cover(mount, node).is_some() && !self.has(Fault::CoveredHandle));
        let no_directory = self.kind(node) != 1;
        if self.has(Fault::HandleKindLate) && misplaced {
            return Some(EBADF);
        }
        if no_directory {
            return Some(ENOTDIR);
        }
        misplaced.then_some(EBADF)
    }
}
