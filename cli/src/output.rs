//! Standard output, and what ends a run early.

use std::fmt::Display;
use std::io::{self, BufWriter, ErrorKind, Stdout, Write};

pub struct Output {
    to: BufWriter<Stdout>,
    /// Whether something printed is a refusal.
    pub refused: bool,
}

pub enum Failure {
    /// Nobody reads what is printed any more.
    Closed,
    /// One line on what went wrong.
    Message(String),
}

impl From<String> for Failure {
    fn from(message: String) -> Self {
        Failure::Message(message)
    }
}

impl Output {
    pub fn new() -> Self {
        Output { to: BufWriter::new(io::stdout()), refused: false }
    }

    pub fn write(&mut self, bytes: impl AsRef<[u8]>) -> Result<(), Failure> {
        self.to.write_all(bytes.as_ref()).map_err(failure)
    }

    pub fn line(&mut self, text: impl Display) -> Result<(), Failure> {
        writeln!(self.to, "{text}").map_err(failure)
    }

    pub fn flush(&mut self) -> Result<(), Failure> {
        self.to.flush().map_err(failure)
    }

    /// An error, behind the answers that were given before it.
    pub fn then_fail<T>(&mut self, error: String) -> Result<T, Failure> {
        self.flush()?;
        Err(error.into())
    }
}

/// One line on standard error. Nobody is left to be told when this fails.
pub fn tell(message: impl Display) {
    let _ = writeln!(io::stderr(), "ventolaire: {message}");
}

fn failure(error: io::Error) -> Failure {
    match error.kind() {
        ErrorKind::BrokenPipe => Failure::Closed,
        _ => Failure::Message(format!("cannot print: {error}")),
    }
}
