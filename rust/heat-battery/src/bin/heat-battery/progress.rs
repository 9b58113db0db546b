//! How far a long list is.

use crate::output::note;
use std::io::{self, IsTerminal, Write};
use std::time::{Duration, Instant};

/// Says on standard error, about once a second, how many calls are made.
pub struct Progress {
    calls: usize,
    last: Instant,
    is_terminal: bool,
    is_shown: bool,
}

impl Progress {
    pub fn new(calls: usize) -> Progress {
        let is_terminal = io::stderr().is_terminal();
        Progress { calls, last: Instant::now(), is_terminal, is_shown: false }
    }

    pub fn show(&mut self, done: usize) {
        if self.last.elapsed() < Duration::from_secs(1) {
            return;
        }
        self.last = Instant::now();
        let words = format!("{done} of {} calls", self.calls);
        match self.is_terminal {
            true => {
                let _ = write!(io::stderr(), "\r{words}");
                self.is_shown = true;
            }
            false => note(&words),
        }
    }

    /// Leaves the line that shows the progress.
    pub fn end(&mut self) {
        if self.is_shown {
            note("");
            self.is_shown = false;
        }
    }
}
