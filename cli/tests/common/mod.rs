//! What the tests share: the program run, and images for it.

// Each test program takes its part of these.
#![allow(dead_code)]

use std::ffi::OsStr;
use std::fs;
use std::io::Write;
use std::path::{Path, PathBuf};
use std::process::{Command, Output, Stdio};
use std::sync::atomic::{AtomicU32, Ordering};

pub fn program() -> Command {
    let mut program = Command::new(env!("CARGO_BIN_EXE_ventolaire"));
    program.stdin(Stdio::null());
    program
}

/// Status and output of a run that prints no error.
pub fn answer<A: AsRef<OsStr>>(arguments: impl IntoIterator<Item = A>) -> (i32, String) {
    answered(program().args(arguments).output().unwrap())
}

/// The same, with bytes on standard input.
pub fn answer_to<A: AsRef<OsStr>>(
    input: &[u8],
    arguments: impl IntoIterator<Item = A>,
) -> (i32, String) {
    answered(run(input, arguments))
}

/// A run with bytes on standard input.
pub fn run<A: AsRef<OsStr>>(input: &[u8], arguments: impl IntoIterator<Item = A>) -> Output {
    let mut program = program();
    let program = program.args(arguments).stdin(Stdio::piped());
    let mut child = program.stdout(Stdio::piped()).stderr(Stdio::piped()).spawn().unwrap();
    // Not all of it need be read.
    let _ = child.stdin.take().unwrap().write_all(input);
    child.wait_with_output().unwrap()
}

pub fn answered(output: Output) -> (i32, String) {
    assert_eq!(String::from_utf8_lossy(&output.stderr), "");
    (output.status.code().unwrap(), String::from_utf8(output.stdout).unwrap())
}

/// The one line of a run that cannot do its work, and prints nothing else.
pub fn error<A: AsRef<OsStr>>(arguments: impl IntoIterator<Item = A>) -> String {
    failed(program().args(arguments).output().unwrap())
}

pub fn failed(output: Output) -> String {
    assert_eq!(output.status.code(), Some(2));
    assert_eq!(String::from_utf8_lossy(&output.stdout), "");
    let line = String::from_utf8(output.stderr).unwrap();
    assert!(line.starts_with("ventolaire: ") && line.ends_with('\n'), "{line}");
    assert_eq!(line.lines().count(), 1, "{line}");
    line["ventolaire: ".len()..line.len() - 1].into()
}

/// A name in the tests' folder that nobody else has; what is made there is gone
/// at the end of the test.
pub struct Named(pub PathBuf);

impl Named {
    pub fn new() -> Self {
        static NEXT: AtomicU32 = AtomicU32::new(0);
        let number = NEXT.fetch_add(1, Ordering::Relaxed);
        let name = format!("{}-{number}.toc", std::process::id());
        let path = Path::new(env!("CARGO_TARGET_TMPDIR")).join(name);
        // A run that was stopped may have left it.
        let _ = fs::remove_file(&path);
        Named(path)
    }

    /// A file.
    pub fn file(bytes: &[u8]) -> Self {
        let named = Named::new();
        fs::write(&named.0, bytes).unwrap();
        named
    }

    pub fn path(&self) -> &str {
        self.0.to_str().unwrap()
    }

    pub fn resolve(&self, arguments: &[&str]) -> (i32, String) {
        answer(["resolve", self.path()].iter().chain(arguments))
    }

    pub fn lookup(&self, arguments: &[&str]) -> (i32, String) {
        answer(["lookup", self.path()].iter().chain(arguments))
    }
}

impl Drop for Named {
    fn drop(&mut self) {
        let _ = fs::remove_file(&self.0).or_else(|_| fs::remove_dir(&self.0));
    }
}

/// An image of a directory, node 0, in which all names are of a link, node 1. The
/// names ascend.
pub fn image(names: &[&[u8]], body: &[u8]) -> Vec<u8> {
    let text = [&names.concat(), body].concat();
    let short = |number: usize| (number as u16).to_le_bytes();
    let long = |number: usize| (number as u32).to_le_bytes();
    let total = 20 + 2 * 12 + 8 + 8 * names.len() + text.len();
    let mut image = b"TOC1".to_vec();
    image.extend([2, 1, names.len(), 0].map(short).concat());
    image.extend([text.len(), total].map(long).concat());
    let body_at = text.len() - body.len();
    for [kind, first, count] in [[1, 0, names.len()], [3, body_at, body.len()]] {
        image.extend([short(kind), short(0)].concat());
        image.extend([long(first), long(count)].concat());
    }
    image.extend([0; 8]);
    let mut at = 0;
    for name in names {
        image.extend(long(at));
        image.extend([short(name.len()), short(1)].concat());
        at += name.len();
    }
    image.extend(text);
    image
}

/// An image of 17 links that share a body of 4,095 bytes: one by one these take 69,615.
pub fn shared_image() -> Vec<u8> {
    let mut image = b"TOC1\x12\0\x01\0\0\0\0\0\xff\x0f\0\0".to_vec();
    image.extend((20 + 12 * 18 + 8 + 4_095_u32).to_le_bytes());
    image.extend([1, 0, 0, 0, 0, 0, 0, 0, 0, 0, 0, 0]);
    image.extend([3, 0, 0, 0, 0, 0, 0, 0, 0xff, 0x0f, 0, 0].repeat(17));
    image.extend([0; 8]);
    image.extend([b'b'; 4_095]);
    image
}
