//! Says on standard error how far long work has come, if that is a terminal.

use std::io::{self, Write};
use std::time::{Duration, Instant};

use crate::sys;

/// Short work says nothing, and long work not all the time.
const PAUSE: Duration = Duration::from_millis(500);

pub struct Progress {
    /// When the next line is due; never, if nobody looks.
    due: Option<Instant>,
    said: bool,
}

impl Progress {
    pub fn new() -> Progress {
        let seen = sys::is_terminal(&io::stderr());
        Progress {
            due: seen.then(|| Instant::now() + PAUSE),
            said: false,
        }
    }

    /// Says how far the work is, unless it has just been said.
    pub fn at(&mut self, state: impl FnOnce() -> String) {
        let now = Instant::now();
        if self.due.map_or(false, |due| now >= due) {
            self.due = Some(now + PAUSE);
            self.say(&state());
        }
    }

    fn say(&mut self, line: &str) {
        // Progress that cannot be told is no reason to stop.
        let _ = write!(io::stderr(), "\r\x1b[K{}", line);
        self.said = true;
    }
}

/// The line goes, so that what comes next stands alone.
impl Drop for Progress {
    fn drop(&mut self) {
        if self.said {
            self.say("");
        }
    }
}
