//! A line of progress for long work: only where standard error is a terminal, and only after half a second.

use std::io::{IsTerminal, Write};
use std::time::{Duration, Instant};

const PATIENCE: Duration = Duration::from_millis(500);
const PAUSE: Duration = Duration::from_millis(100);

pub struct Progress {
    all: i64,
    done: i64,
    /// When the line is written next; none where nobody would see it.
    next: Option<Instant>,
    shown: bool,
}

impl Progress {
    pub fn new(all: i64) -> Progress {
        let next = std::io::stderr().is_terminal().then(|| Instant::now() + PATIENCE);
        Progress { all, done: 0, next, shown: false }
    }

    /// So much more is done of what `doing` says.
    pub fn step(&mut self, more: i64, doing: &str) {
        self.done += more;
        if self.next.is_none_or(|next| Instant::now() < next) {
            return;
        }
        self.shown = true;
        self.next = Some(Instant::now() + PAUSE);
        let percent = (self.done as f64 * 100.0 / self.all.max(1) as f64) as i64;
        let _ = write!(std::io::stderr(), "\r\x1b[K  {doing}, {percent}% ").and_then(|()| std::io::stderr().flush());
    }
}

impl Drop for Progress {
    fn drop(&mut self) {
        if self.shown {
            let _ = write!(std::io::stderr(), "\r\x1b[K");
        }
    }
}
