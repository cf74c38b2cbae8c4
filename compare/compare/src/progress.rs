//! What is told while a long comparison runs: one line now and then.

use std::time::{Duration, Instant};

use crate::driver::Report;

/// The least time between two lines.
pub const EVERY: Duration = Duration::from_secs(10);
/// A comparison that takes at least so long tells its progress.
pub const LONG: Duration = Duration::from_secs(60);

pub struct Progress {
    start: Instant,
    last: Instant,
}

impl Progress {
    pub fn new(start: Instant) -> Self {
        Self { start, last: start }
    }

    /// A line, where the last one is long enough ago.
    pub fn line(&mut self, report: &Report, now: Instant) -> Option<String> {
        if now.duration_since(self.last) < EVERY {
            return None;
        }
        self.last = now;
        let seconds = now.duration_since(self.start).as_secs();
        let (name, inputs, accepted) = (report.name, report.inputs(), report.accepted());
        Some(format!(
            "{seconds} s: {name}, {inputs} inputs, {accepted} accepted, no difference so far"
        ))
    }
}
