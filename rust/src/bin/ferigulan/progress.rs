//! How far a long run is, on standard error: only where that is a terminal and the answers go elsewhere.
use crate::spelling::grouped;
use std::io::{self, IsTerminal, Write};
use std::time::{Duration, Instant};

const EVERY: Duration = Duration::from_millis(500);

pub struct Progress {
    wanted: bool,
    shown: bool,
    last: Instant,
}

impl Progress {
    pub fn new() -> Progress {
        let wanted = io::stderr().is_terminal() && !io::stdout().is_terminal();
        Progress { wanted, shown: false, last: Instant::now() }
    }

    /// A line is done.
    pub fn line(&mut self, script: &str, number: u64) {
        if self.wanted && self.last.elapsed() >= EVERY {
            self.last = Instant::now();
            self.shown = true;
            let _ = write!(io::stderr(), "\r{script}: {} lines done", grouped(number));
        }
    }

    /// Removes what is shown, before something else is.
    pub fn clear(&mut self) {
        if self.shown {
            self.shown = false;
            let _ = write!(io::stderr(), "\r\x1b[K");
        }
    }
}
