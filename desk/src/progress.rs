//! How far a long job is, on a terminal.

use crate::streams::Desk;
use std::time::{Duration, Instant};

/// How long a job takes before anything is shown, and how long a line stays.
const PAUSE: Duration = Duration::from_millis(300);

/// A line of progress, which is shown over itself.
pub(crate) struct Progress {
    last: Option<Instant>,
    shown: bool,
}

impl Progress {
    /// Nothing is shown but where the desk has a terminal for it.
    pub fn new(desk: &Desk<'_>) -> Self {
        Progress {
            last: desk.shows_progress().then(Instant::now),
            shown: false,
        }
    }

    /// Shows a line, unless the one before it was shown just now.
    pub fn show(&mut self, desk: &mut Desk<'_>, line: impl FnOnce() -> String) {
        if self.last.is_some_and(|last| last.elapsed() >= PAUSE) {
            desk.remark(&format!("\r\x1b[K{}", line()));
            self.last = Some(Instant::now());
            self.shown = true;
        }
    }

    /// Takes the line away, before anything else is told.
    pub fn clear(&mut self, desk: &mut Desk<'_>) {
        if std::mem::take(&mut self.shown) {
            desk.remark("\r\x1b[K");
        }
    }
}
