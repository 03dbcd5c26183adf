//! The three counts of a run, under the names by which the reference calls
//! its own profiling. Cells instead of its hash map, so that counting costs
//! next to nothing when the run is timed.

use std::cell::Cell;

pub mod buckets {
    pub const WCS_OUTER: usize = 0;
    pub const WCS_INNER: usize = 1;
    pub const WCS_REASSOC_CALL: usize = 2;
    /// Counted by the reference, reported by nobody.
    pub const WCS_REASSOC_STARS: usize = 3;
}

thread_local! {
    static COUNTS: [Cell<u64>; 4] = const { [const { Cell::new(0) }; 4] };
}

pub fn count(bucket: usize, n: u64) {
    COUNTS.with(|counts| counts[bucket].set(counts[bucket].get() + n));
}

/// All counts back to zero, before a run.
pub fn reset() {
    COUNTS.with(|counts| counts.iter().for_each(|c| c.set(0)));
}

/// Rounds, fit passes and queries.
pub fn counts() -> [u64; 3] {
    COUNTS.with(|counts| [0, 1, 2].map(|i| counts[i].get()))
}
