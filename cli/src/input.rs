//! Images, manifests, lists of paths or names, and scripts, from files or standard input.

use crate::escape;
use std::ffi::OsStr;
use std::fs::{File, OpenOptions};
use std::io::{self, BufRead, BufReader, ErrorKind, Read};
use std::os::unix::fs::{FileTypeExt, OpenOptionsExt};
use std::thread::sleep;
use std::time::{Duration, Instant};

/// How long an image may be.
const MAX_IMAGE: u64 = 65_536;

/// How long a manifest may be: more than that of any image, whose paths stand in it whole.
const MAX_MANIFEST: u64 = 1 << 28;

/// How long a path or name in a list or a line of a script may be: more than any path
/// that can be found, each byte of it escaped, so that long ones are refused by name,
/// and less than fills the memory.
const MAX_PART: usize = 65_536;

/// How long a FIFO is waited for that nobody writes to.
const PATIENCE: Duration = Duration::from_secs(1);

/// Whether a file is standard input.
pub fn is_stdin(file: &OsStr) -> bool {
    file == "-"
}

/// The bytes of an image. Of one that is too long, no more than shows that.
pub fn image(file: &OsStr) -> Result<Vec<u8>, String> {
    bytes(file, MAX_IMAGE + 1)
}

/// The bytes of a manifest.
pub fn manifest(file: &OsStr) -> Result<Vec<u8>, String> {
    match bytes(file, MAX_MANIFEST + 1)? {
        long if long.len() as u64 > MAX_MANIFEST => {
            Err(format!("cannot read {}: it has over 256 MiB", shown(file)))
        }
        bytes => Ok(bytes),
    }
}

/// All bytes, or the first ones of more than so many.
fn bytes(file: &OsStr, most: u64) -> Result<Vec<u8>, String> {
    let mut bytes = Vec::new();
    open(file)
        .and_then(|opened| opened.take(most).read_to_end(&mut bytes))
        .map_err(|error| unreadable(file, &error))?;
    Ok(bytes)
}

/// A file of which one part is read after the other: a list, a script.
pub struct Parted<'a> {
    file: &'a OsStr,
    from: BufReader<Box<dyn Read>>,
    /// What a part is.
    what: &'static str,
    /// The byte that ends one.
    end: u8,
    /// How many were read.
    number: u64,
}

impl<'a> Parted<'a> {
    pub fn open(file: &'a OsStr, what: &'static str, end: u8) -> Result<Self, String> {
        let opened = open(file).map_err(|error| unreadable(file, &error))?;
        Ok(Parted { file, from: BufReader::new(opened), what, end, number: 0 })
    }

    /// The next part, if there is one.
    pub fn next(&mut self) -> Result<Option<Vec<u8>>, String> {
        let mut part = Vec::new();
        // Room for the byte that ends it.
        let mut room = self.from.by_ref().take(MAX_PART as u64 + 1);
        let read = room.read_until(self.end, &mut part);
        if read.map_err(|error| unreadable(self.file, &error))? == 0 {
            return Ok(None);
        }
        self.number += 1;
        if part.last() == Some(&self.end) {
            part.pop();
        }
        match part.len() > MAX_PART {
            true => Err(format!("{} has over 65,536 bytes", self.last())),
            false => Ok(Some(part)),
        }
    }

    /// Which part was read last, to stand in a message.
    pub fn last(&self) -> String {
        format!("{} {} in {}", self.what, self.number, shown(self.file))
    }

    /// The number of that part; the first is 1.
    pub fn number(&self) -> u64 {
        self.number
    }

    /// Whether the next part may have to be waited for.
    pub fn waits(&self) -> bool {
        !self.from.buffer().contains(&self.end)
    }
}

/// A file's name, to stand in a message.
pub fn shown(file: &OsStr) -> String {
    match is_stdin(file) {
        true => "standard input".into(),
        false => escape::name(file),
    }
}

fn unreadable(file: &OsStr, error: &io::Error) -> String {
    format!("cannot read {}: {error}", shown(file))
}

fn open(file: &OsStr) -> io::Result<Box<dyn Read>> {
    Ok(match is_stdin(file) {
        true => Box::new(Patient { from: io::stdin(), until: None }),
        false => Box::new(Patient::open(file)?),
    })
}

/// Reads what comes in its own time: a pipe, a FIFO, a terminal. A FIFO is opened
/// without waiting for a writer, who may never come.
struct Patient<R> {
    from: R,
    /// Of a FIFO of which nothing came yet: how long it is waited for.
    until: Option<Instant>,
}

impl Patient<File> {
    fn open(file: &OsStr) -> io::Result<Self> {
        let from = OpenOptions::new().read(true).custom_flags(O_NONBLOCK).open(file)?;
        let is_fifo = from.metadata()?.file_type().is_fifo();
        Ok(Patient { from, until: is_fifo.then(|| Instant::now() + PATIENCE) })
    }
}

/// Not to wait for a FIFO's writer. Where the number is not known here, a FIFO is
/// waited for as `cat` does.
const O_NONBLOCK: i32 = if cfg!(any(target_vendor = "apple", target_os = "freebsd")) {
    4
} else if cfg!(any(target_arch = "mips", target_arch = "mips64", target_arch = "sparc64")) {
    0
} else if cfg!(target_os = "linux") {
    0o4000
} else {
    0
};

impl<R: Read> Read for Patient<R> {
    fn read(&mut self, buffer: &mut [u8]) -> io::Result<usize> {
        loop {
            match (self.from.read(buffer), self.until) {
                // A writer is there, and has nothing to say yet.
                (Err(error), _) if error.kind() == ErrorKind::WouldBlock => {}
                (Ok(0), Some(until)) if Instant::now() < until => {}
                (Ok(0), Some(_)) => return Err(io::Error::other("nobody writes to this FIFO")),
                (read, _) => {
                    self.until = None;
                    return read;
                }
            }
            sleep(Duration::from_millis(1));
        }
    }
}
