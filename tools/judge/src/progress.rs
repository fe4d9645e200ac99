//! How far a long key has come, on a terminal.

use std::io::{self, IsTerminal, Write};
use std::time::{Duration, Instant};

/// What is done sooner needs no progress.
const SOON: Duration = Duration::from_millis(500);

pub struct Progress {
    total: usize,
    done: usize,
    start: Instant,
    is_shown: bool,
}

impl Progress {
    pub fn new(total: usize) -> Progress {
        Progress {
            total,
            done: 0,
            start: Instant::now(),
            is_shown: false,
        }
    }

    /// So many more pairs are judged.
    pub fn add(&mut self, count: usize) {
        self.done += count;
        let mut terminal = io::stderr();
        if terminal.is_terminal() && self.start.elapsed() > SOON {
            self.is_shown = true;
            let _ = write!(terminal, "\rjudge: {} of {} pairs", self.done, self.total);
            let _ = terminal.flush();
        }
    }
}

impl Drop for Progress {
    /// Takes the line away.
    fn drop(&mut self) {
        if self.is_shown {
            let _ = write!(io::stderr(), "\r\x1b[K");
        }
    }
}
