//! A line of progress on standard error, shown only on a terminal and only for work of more than a second.

use std::io::{IsTerminal, Write, stderr, stdout};
use std::time::{Duration, Instant};

const FIRST: Duration = Duration::from_secs(1);
const NEXT: Duration = Duration::from_millis(200);

/// Work of a known size, or of an unknown one.
pub struct Progress {
    label: String,
    total: Option<usize>,
    due: Option<Instant>,
    shown: usize,
}

impl Progress {
    /// Work of `total` parts, not begun.
    pub fn new(label: &str, total: usize) -> Progress {
        let due = stderr().is_terminal().then(|| Instant::now() + FIRST);
        Progress { label: label.to_string(), total: Some(total), due, shown: 0 }
    }

    /// Work that is counted as it comes, not begun; where a terminal shows what is printed, that is progress enough.
    pub fn counting(label: &str) -> Progress {
        let mut progress = Progress::new(label, 0);
        progress.total = None;
        progress.due = progress.due.filter(|_| !stdout().is_terminal());
        progress
    }

    /// Says that `done` of the parts are done.
    pub fn at(&mut self, done: usize) {
        let Some(due) = self.due else { return };
        let now = Instant::now();
        if now >= due {
            let line = match self.total {
                Some(total) => format!("{}: {:3} %", self.label, done as u128 * 100 / total.max(1) as u128),
                None => format!("{}: {done}", self.label),
            };
            let _ = write!(stderr(), "\r{line}");
            self.due = Some(now + NEXT);
            self.shown = line.len();
        }
    }

    /// Clears the line, so that another can stand in its place.
    pub fn clear(&mut self) {
        if self.shown > 0 {
            let _ = write!(stderr(), "\r{:width$}\r", "", width = self.shown);
            self.shown = 0;
        }
    }
}

impl Drop for Progress {
    fn drop(&mut self) {
        self.clear();
    }
}
