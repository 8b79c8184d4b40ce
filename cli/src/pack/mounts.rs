//! What is mounted where, by the system's own list.

use std::collections::{HashMap, HashSet};
use std::fs;
use std::os::unix::ffi::OsStrExt;
use std::path::Path;

/// A mount: by its number in the list, none if that has it not; without a list by its device.
pub type Mount = Option<u64>;

pub enum Mounts {
    /// By the mount that each is mounted in, and its point.
    Listed(HashMap<(Mount, Vec<u8>), u64>),
    /// Where there is no list, another device is another mount.
    Devices,
}

impl Mounts {
    pub fn of_system() -> Self {
        fs::read("/proc/self/mountinfo").map_or(Mounts::Devices, |list| Mounts::read(&list))
    }

    fn read(list: &[u8]) -> Self {
        let lines: Vec<Line> = list.split(|byte| *byte == b'\n').filter_map(Line::read).collect();
        let numbers: HashSet<u64> = lines.iter().map(|line| line.number).collect();
        let by_point = lines.into_iter().map(|line| {
            // The first of all is mounted in itself, or in one that is not seen from here.
            let is_seen = line.parent != line.number && numbers.contains(&line.parent);
            ((is_seen.then_some(line.parent), line.point), line.number)
        });
        Mounts::Listed(by_point.collect())
    }

    /// The mount that a directory is in, by its path without links and by its device.
    pub fn of_directory(&self, path: &Path, device: u64) -> Mount {
        let mut parts: Vec<&Path> = path.ancestors().collect();
        parts.reverse();
        let enter = |mount, part: &&Path| self.entered(mount, part, device).unwrap_or(mount);
        parts.iter().fold(None, enter)
    }

    /// The mount that is entered with a path, if one is, from the mount of its directory. Of
    /// several one upon the other it is the topmost; what a mount above hides is not met.
    pub fn entered(&self, from: Mount, path: &Path, device: u64) -> Option<Mount> {
        let Mounts::Listed(by_point) = self else {
            return (from != Some(device)).then_some(Some(device));
        };
        let mut key = (from, path.as_os_str().as_bytes().to_vec());
        let mut entered = None;
        while let Some(&number) = by_point.get(&key) {
            key.0 = Some(number);
            entered = Some(key.0);
        }
        entered
    }
}

struct Line {
    number: u64,
    parent: u64,
    point: Vec<u8>,
}

impl Line {
    /// `36 35 98:0 / /lab/pool rw ..`: its number, its parent's, its device, its root, its point.
    fn read(line: &[u8]) -> Option<Self> {
        let mut words = line.split(|byte| *byte == b' ');
        let number = |word: &[u8]| str::from_utf8(word).ok()?.parse().ok();
        let (own, parent) = (number(words.next()?)?, number(words.next()?)?);
        Some(Line { number: own, parent, point: unescaped(words.nth(2)?) })
    }
}

/// The bytes that a word of the list stands for: `\040` for a space.
fn unescaped(word: &[u8]) -> Vec<u8> {
    let mut parts = word.split(|byte| *byte == b'\\');
    let mut bytes = parts.next().unwrap_or_default().to_vec();
    for part in parts {
        match part {
            [a @ b'0'..=b'3', b @ b'0'..=b'7', c @ b'0'..=b'7', rest @ ..] => {
                bytes.push((a - b'0') << 6 | (b - b'0') << 3 | (c - b'0'));
                bytes.extend(rest);
            }
            _ => {
                bytes.push(b'\\');
                bytes.extend(part);
            }
        }
    }
    bytes
}

#[cfg(test)]
mod tests {
    use super::*;

    /// The pool is mounted on twice, and a mount upon /lab hides the one that was on /lab/old.
    const LIST: &str = "21 21 8:1 / / rw - ext4 /dev/sda1 rw\n\
        30 21 8:2 / /lab/old rw shared:1 - ext4 /dev/sdb rw\n\
        31 21 0:40 / /lab rw - tmpfs none rw\n\
        32 31 0:41 / /lab/a\\040b\\134\\043 rw - tmpfs none rw\n\
        33 31 0:42 / /lab/pool rw - tmpfs none rw\n\
        34 33 0:43 / /lab/pool rw - tmpfs none rw\n";

    #[test]
    fn the_topmost_mount_is_entered() {
        let mounts = Mounts::read(LIST.as_bytes());
        let lab = mounts.of_directory(Path::new("/lab"), 0);
        assert_eq!((mounts.of_directory(Path::new("/"), 0), lab), (Some(21), Some(31)));
        let entered = |path: &str| mounts.entered(lab, Path::new(path), 0);
        assert_eq!(entered("/lab/pool"), Some(Some(34)));
        assert_eq!(entered("/lab/a b\\#"), Some(Some(32)));
        assert_eq!((entered("/lab/old"), entered("/lab/a")), (None, None));
        assert_eq!(mounts.of_directory(Path::new("/lab/pool/x/y"), 0), Some(34));
    }

    /// As it is seen from a root that is no mount's: only what is mounted below.
    #[test]
    fn the_first_mount_need_not_be_listed() {
        let mounts = Mounts::read(b"51 50 0:40 / /pool rw - tmpfs none rw\nno line\n");
        assert_eq!(mounts.of_directory(Path::new("/lab"), 0), None);
        assert_eq!(mounts.entered(None, Path::new("/pool"), 0), Some(Some(51)));
    }

    #[test]
    fn without_a_list_devices_tell() {
        let mounts = Mounts::Devices;
        let lab = mounts.of_directory(Path::new("/lab"), 7);
        assert_eq!(mounts.entered(lab, Path::new("/lab/a"), 7), None);
        assert_eq!(mounts.entered(lab, Path::new("/lab/pool"), 8), Some(Some(8)));
    }

    #[test]
    fn escapes_are_read() {
        assert_eq!(unescaped(br"a\040\011\\x\1"), b"a \t\\\\x\\1");
        assert_eq!(unescaped(br"\377\400"), b"\xff\\400");
    }
}
