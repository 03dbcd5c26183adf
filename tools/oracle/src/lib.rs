//! The reference built with document 01's functions, and what is needed to
//! call it by record, by lists or function by function.
//!
//! `solver/wcs_refine.rs`, `solver/matching.rs`, `solver/solve.rs`, `stats.rs`
//! and `starcatalog.rs` are put beside these files by `build`, and `stats.rs`
//! once more as `plain_stats.rs`, with the order of NaNs that it came with.

/// The reference's log lines: their text is noted, their values are not.
macro_rules! debug {
    ($text:literal $($values:tt)*) => {
        $crate::hooks::note($text)
    };
}

/// The reference's stopwatch around a piece of work.
macro_rules! timed {
    ($bucket:expr, $work:expr) => {
        $work
    };
}

pub mod angles;
pub mod answer;
pub mod call;
pub mod comparisons;
pub mod hooks;
pub mod order;
pub mod plain_stats;
pub mod record;
pub mod scan;
#[allow(dead_code)]
pub mod starcatalog;
pub mod stats;
pub mod vector;

#[allow(dead_code, unused_variables, unused_mut, unused_assignments, private_interfaces)]
pub mod solver {
    pub mod matching;
    #[path = "../profiling.rs"]
    pub mod profiling;
    pub mod solve;
    pub mod wcs_refine;
}

/// What `starcatalog.rs` takes from the rest of its crate.
#[derive(Debug, Clone)]
pub struct Star {
    pub ra_rad: f32,
    pub dec_rad: f32,
}

impl Star {
    pub fn uvec(&self) -> vector::Vector3<f32> {
        starcatalog::radec_to_uvec(self.ra_rad, self.dec_rad)
    }
}

#[derive(Debug)]
pub enum Error {
    InvalidInput(String),
}

pub type Result<T> = std::result::Result<T, Error>;
