//! The line that tells a clerk at a terminal how far a long check is.

use std::io::{self, IsTerminal, Write};
use std::time::{Duration, Instant};

/// A check that is done within this time shows no line.
const MOMENT: Duration = Duration::from_millis(400);
/// After that the line is renewed in this time.
const RENEWED: Duration = Duration::from_millis(100);

/// The line, on standard error where that is a terminal. It is gone when this is dropped.
pub struct Progress {
    count: usize,
    terminal: bool,
    due: Instant,
    shown: bool,
}

impl Progress {
    pub fn new(count: usize) -> Progress {
        Progress {
            count,
            terminal: io::stderr().is_terminal(),
            due: Instant::now() + MOMENT,
            shown: false,
        }
    }

    /// How long to wait before the line is shown next.
    pub fn pause(&self) -> Duration {
        self.due.saturating_duration_since(Instant::now())
    }

    /// Shows how many are done.
    pub fn show(&mut self, done: usize) {
        self.due = Instant::now() + RENEWED;
        if self.terminal {
            self.shown = true;
            let _ = write!(io::stderr(), "\r{done} of {} flows checked", self.count);
        }
    }
}

impl Drop for Progress {
    fn drop(&mut self) {
        if self.shown {
            // Back to the line's first column, and all after it cleared.
            let _ = write!(io::stderr(), "\r\u{1b}[K");
        }
    }
}
