//! A line that says how far the work is, on a terminal alone.

use std::io::{stderr, IsTerminal, Write};

use crate::disk::Place;

/// The line, taken away again when the work is done.
pub struct Progress {
    what: String,
    all: usize,
    done: usize,
    shown: bool,
}

impl Progress {
    /// A line for so many steps.
    pub fn new(what: &str, all: usize) -> Progress {
        Progress { what: what.to_string(), all, done: 0, shown: stderr().is_terminal() }
    }

    /// One step more, at a track and side.
    pub fn step(&mut self, place: Place) {
        self.done += 1;
        if self.shown {
            let percent = self.done * 100 / self.all.max(1);
            // a line that cannot be shown is no reason to stop
            let _ = write!(stderr(), "\r\x1b[K{}: {place} ({percent} %)", self.what);
            let _ = stderr().flush();
        }
    }
}

impl Drop for Progress {
    fn drop(&mut self) {
        if self.shown && self.done > 0 {
            let _ = write!(stderr(), "\r\x1b[K");
        }
    }
}
