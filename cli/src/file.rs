//! Files written whole or not at all: beside their place first, then put there.

use std::ffi::OsStr;
use std::fs::{self, File};
use std::io::{self, ErrorKind, Write};
use std::path::{Path, PathBuf};

/// Of a file that is there already, on every Unix.
const EEXIST: i32 = 17;

/// Makes a new file. One that is there already, of any kind, is left alone.
pub fn create(file: &OsStr, bytes: &[u8]) -> io::Result<()> {
    // Asked first, so that nothing is written in vain.
    is_free(file)?;
    let temporary = Temporary::of(file, bytes)?;
    // Unlike a rename it does not replace what has come there meanwhile.
    fs::hard_link(&temporary.0, file)
}

/// Whether nothing is there yet.
pub fn is_free(file: &OsStr) -> io::Result<()> {
    match fs::symlink_metadata(file) {
        Ok(_) => Err(io::Error::from_raw_os_error(EEXIST)),
        Err(_) => Ok(()),
    }
}

/// Makes a file, or replaces one, which keeps its permissions. What is no regular file, a link or
/// a device, is left alone.
pub fn replace(file: &OsStr, bytes: &[u8]) -> io::Result<()> {
    let there = match fs::symlink_metadata(file) {
        Ok(there) if !there.is_file() => return Err(io::Error::other("it is no regular file")),
        Ok(there) => Some(there.permissions()),
        Err(error) if error.kind() == ErrorKind::NotFound => None,
        Err(error) => return Err(error),
    };
    let temporary = Temporary::of(file, bytes)?;
    if let Some(permissions) = there {
        fs::set_permissions(&temporary.0, permissions)?;
    }
    fs::rename(&temporary.0, file)
}

/// A whole file in the folder of another; its name is gone in the end.
struct Temporary(PathBuf);

impl Temporary {
    fn of(file: &OsStr, bytes: &[u8]) -> io::Result<Temporary> {
        let folder = Path::new(file).parent().unwrap_or(Path::new(""));
        let (temporary, mut opened) = Temporary::open(folder)?;
        opened.write_all(bytes)?;
        // So that not even a crash leaves a part of it under the file's name.
        opened.sync_all()?;
        Ok(temporary)
    }

    fn open(folder: &Path) -> io::Result<(Temporary, File)> {
        let mut number = 0;
        loop {
            let name = format!(".ventolaire-{}-{number}.tmp", std::process::id());
            let path = folder.join(name);
            match File::create_new(&path) {
                // A run that was stopped has left it.
                Err(error) if error.kind() == ErrorKind::AlreadyExists && number < 100 => {}
                opened => return opened.map(|opened| (Temporary(path), opened)),
            }
            number += 1;
        }
    }
}

impl Drop for Temporary {
    fn drop(&mut self) {
        // After a rename it is gone already.
        let _ = fs::remove_file(&self.0);
    }
}
