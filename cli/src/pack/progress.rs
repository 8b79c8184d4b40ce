//! How far the reading is, for who waits at a terminal.

use crate::escape;
use std::io::{self, IsTerminal, Write};
use std::time::{Duration, Instant};

/// Nothing is shown of what is done sooner.
const PATIENCE: Duration = Duration::from_secs(1);
const PAUSE: Duration = Duration::from_millis(200);
const COLUMNS: usize = 70;

/// A line that is written again and again, and wiped in the end.
pub struct Progress {
    /// None if nobody watches.
    to: Option<Box<dyn Write>>,
    /// The time since the start.
    clock: Box<dyn Fn() -> Duration>,
    read: u64,
    /// When the next line is due.
    due: Duration,
}

impl Progress {
    /// On standard error, if that is a terminal.
    pub fn of_terminal() -> Self {
        let to = io::stderr();
        let to = to.is_terminal().then(|| Box::new(to) as Box<dyn Write>);
        let start = Instant::now();
        Progress::new(to, Box::new(move || start.elapsed()))
    }

    pub fn new(to: Option<Box<dyn Write>>, clock: Box<dyn Fn() -> Duration>) -> Self {
        Progress { to, clock, read: 0, due: PATIENCE }
    }

    /// One more is read, by this path.
    pub fn read(&mut self, path: &[u8]) {
        self.read += 1;
        let Some(to) = &mut self.to else { return };
        let now = (self.clock)();
        if now >= self.due {
            self.due = now + PAUSE;
            let line = line(self.read, path);
            // A terminal that is gone is no reason to stop, here and below.
            let _ = write!(to, "\r{line:COLUMNS$}").and_then(|()| to.flush());
        }
    }
}

impl Drop for Progress {
    fn drop(&mut self) {
        if let (Some(to), true) = (&mut self.to, self.due > PATIENCE) {
            let _ = write!(to, "\r{:COLUMNS$}\r", "").and_then(|()| to.flush());
        }
    }
}

/// In one row of a terminal, with what has room of the path.
fn line(read: u64, path: &[u8]) -> String {
    let line = format!("{} read, at {}", grouped(read), escape::text(path));
    match line.chars().nth(COLUMNS) {
        None => line,
        Some(_) => line.chars().take(COLUMNS - 2).chain("..".chars()).collect(),
    }
}

/// A number with its digits in threes: 12,000.
fn grouped(number: u64) -> String {
    let digits = number.to_string();
    let mut grouped = String::new();
    for (at, digit) in digits.chars().enumerate() {
        if at > 0 && (digits.len() - at).is_multiple_of(3) {
            grouped.push(',');
        }
        grouped.push(digit);
    }
    grouped
}

#[cfg(test)]
mod tests {
    use super::*;
    use std::cell::{Cell, RefCell};
    use std::rc::Rc;

    #[derive(Clone, Default)]
    struct Terminal(Rc<RefCell<Vec<u8>>>);

    impl Write for Terminal {
        fn write(&mut self, bytes: &[u8]) -> io::Result<usize> {
            self.0.borrow_mut().extend(bytes);
            Ok(bytes.len())
        }

        fn flush(&mut self) -> io::Result<()> {
            Ok(())
        }
    }

    impl Terminal {
        /// What came since it was last asked.
        fn new_text(&self) -> String {
            String::from_utf8(self.0.take()).unwrap()
        }
    }

    #[test]
    fn a_line_comes_after_a_second_and_is_wiped() {
        let (terminal, time) = (Terminal::default(), Rc::new(Cell::new(Duration::ZERO)));
        let clock = time.clone();
        let to = Box::new(terminal.clone());
        let mut progress = Progress::new(Some(to), Box::new(move || clock.get()));
        let mut at = |millis, path: &[u8]| {
            time.set(Duration::from_millis(millis));
            progress.read(path);
            terminal.new_text()
        };
        assert_eq!((at(0, b"/a"), at(999, b"/b")), (String::new(), String::new()));
        assert_eq!(at(1_000, b"/lab/\n"), format!("\r{:70}", r"3 read, at /lab/\n"));
        assert_eq!((at(1_001, b"/c"), at(1_199, b"/d")), (String::new(), String::new()));
        assert_eq!(at(1_200, b"/e"), format!("\r{:70}", "6 read, at /e"));
        let long = at(9_000, &[b'x'; 99]);
        assert_eq!(long, format!("\r7 read, at {}..", "x".repeat(70 - 13)));
        drop(progress);
        assert_eq!(terminal.new_text(), format!("\r{:70}\r", ""));
    }

    #[test]
    fn a_short_run_leaves_no_trace() {
        let terminal = Terminal::default();
        let to = Box::new(terminal.clone());
        let mut progress = Progress::new(Some(to), Box::new(|| Duration::ZERO));
        progress.read(b"/a");
        drop(progress);
        assert_eq!(terminal.new_text(), "");
    }

    #[test]
    fn digits_stand_in_threes() {
        assert_eq!([1, 999, 1_000, 12_000].map(grouped), ["1", "999", "1,000", "12,000"]);
        assert_eq!(grouped(1_234_567), "1,234,567");
    }
}
