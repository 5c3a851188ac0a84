//! The vendor's untouched text beside ours: it may answer otherwise only where an inner pixel has a diagonal gradient, and how often it
//! does is told.

use std::sync::atomic::{AtomicU64, Ordering};

/// How many pictures the untouched text was run on, and for how many of them it gives another answer.
pub struct Untouched {
    run: AtomicU64,
    other: AtomicU64,
}

impl Untouched {
    pub const fn new() -> Untouched {
        Untouched { run: AtomicU64::new(0), other: AtomicU64::new(0) }
    }

    /// Counts a picture, and answers how many comparisons it was: one where there is no diagonal gradient, so that both must be the same.
    pub fn beside(&self, same: bool, diagonal: bool) -> Result<u64, String> {
        self.run.fetch_add(1, Ordering::Relaxed);
        self.other.fetch_add(u64::from(!same), Ordering::Relaxed);
        match (same, diagonal) {
            (_, true) => Ok(0),
            (true, false) => Ok(1),
            (false, false) => Err("no inner pixel has a diagonal gradient, and the untouched text gives another answer".into()),
        }
    }

    /// The line on it; `what` is what the stage gives.
    pub fn told(&self, what: &str) -> String {
        let (other, run) = (self.other.load(Ordering::Relaxed), self.run.load(Ordering::Relaxed));
        format!("the untouched text gives another {what} for {other} of {run} pictures")
    }
}
