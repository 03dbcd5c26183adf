//! `oracle bench`: nanoseconds per call of the run on records read, and of
//! the matcher and the median on generated input. The reference is without its
//! counters.

use std::hint::black_box;
use std::time::Instant;

use uncounted::answer::PROGRAM;
use uncounted::call::{check, Prepared};
use uncounted::record::read;
use uncounted::solver::matching::{greedy_unique_matches, MatchScratch};
use uncounted::stats::median_mad_sigma;

use crate::rng::Rng;

pub fn main(records: &[Vec<u8>]) {
    run(records);
    matcher(64, 256, 150.0);
    matcher(64, 256, 20.0);
    matcher(4_096, 8_192, 10.0);
    median(4_096);
}

/// The best mean of three stretches of at least a tenth of a second.
fn time(what: &str, calls: usize, mut work: impl FnMut()) {
    let mut best = f64::INFINITY;
    for _ in 0..3 {
        let begun = Instant::now();
        let mut done = 0;
        while done == 0 || begun.elapsed().as_millis() < 100 {
            work();
            done += calls;
        }
        best = best.min(begun.elapsed().as_nanos() as f64 / done as f64);
    }
    println!("{what}: {best:.0} ns per call");
}

/// Records that pass refusals 1 to 11, 14 and 17; the others have no run to time.
fn run(records: &[Vec<u8>]) {
    let prepared: Vec<Prepared> = records
        .iter()
        .filter_map(|bytes| read(bytes).ok())
        .filter(|e| check(e, &PROGRAM).is_ok())
        .map(|e| Prepared::new(&e, &PROGRAM))
        .collect();
    if prepared.is_empty() {
        return;
    }
    time(&format!("read, {} records", records.len()), records.len(), || {
        records.iter().for_each(|bytes| drop(black_box(read(bytes))));
    });
    time(&format!("run, {} records", prepared.len()), prepared.len(), || {
        prepared.iter().for_each(|p| drop(black_box(p.run(false))));
    });
}

fn matcher(spots: usize, predictions: usize, radius: f64) {
    let mut r = Rng::new(1, 0);
    let mut place = || (r.between(-500.0, 500.0), r.between(-500.0, 500.0));
    let spots: Vec<(f64, f64)> = (0..spots).map(|_| place()).collect();
    let predicted: Vec<_> = (0..predictions).map(|i| (i, place().0, place().1)).collect();
    let mut scratch = MatchScratch::default();
    let mut found = 0;
    let what = format!("matcher, {} spots x {predictions} predictions", spots.len());
    let pairs = count_pairs(&spots, &predicted, radius * radius);
    time(&format!("{what}, {pairs} pairs"), 1, || {
        let all = spots.len();
        found = greedy_unique_matches(
            black_box(&spots), all, black_box(&predicted), radius * radius, &mut scratch,
        )
        .len();
    });
    black_box(found);
}

fn count_pairs(spots: &[(f64, f64)], predicted: &[(usize, f64, f64)], radius_sq: f64) -> usize {
    let near = |s: &(f64, f64), p: &(usize, f64, f64)| {
        let (dx, dy) = (s.0 - p.1, s.1 - p.2);
        dx * dx + dy * dy <= radius_sq
    };
    spots.iter().map(|s| predicted.iter().filter(|p| near(s, p)).count()).sum()
}

/// The copy that each call works on is part of its time.
fn median(length: usize) {
    let mut r = Rng::new(2, 0);
    let values: Vec<f64> = (0..length).map(|_| r.between(0.0, 1.0)).collect();
    let mut copy = values.clone();
    time(&format!("median and deviation of {length}"), 1, || {
        copy.copy_from_slice(black_box(&values));
        black_box(median_mad_sigma(&mut copy));
    });
}
