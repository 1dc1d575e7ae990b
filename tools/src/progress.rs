//! A line on a terminal that tells how far a long command is.
use std::io::{self, IsTerminal, Write};
use std::time::{Duration, Instant};

const PERIOD: Duration = Duration::from_secs(1);

/// Progress on standard error, each second, where that is a terminal; else nothing.
#[derive(Debug)]
pub struct Progress {
    on: bool,
    shown: bool,
    next: Instant,
}

impl Progress {
    /// Begins to count the seconds.
    pub fn start() -> Self {
        Progress { on: io::stderr().is_terminal(), shown: false, next: Instant::now() + PERIOD }
    }

    /// Shows the line if a second has passed since the last one.
    pub fn tick(&mut self, line: impl FnOnce() -> String) {
        if self.on && Instant::now() >= self.next {
            // A terminal that takes no more is no reason to stop.
            let _ = write!(io::stderr(), "\r\x1B[K{}", line());
            self.shown = true;
            self.next = Instant::now() + PERIOD;
        }
    }

    /// Takes the line away, before something else is written.
    pub fn clear(&mut self) {
        if self.shown {
            let _ = write!(io::stderr(), "\r\x1B[K");
            self.shown = false;
        }
    }
}
