//! Compares the median and both matchers with the reference Rust, value by value, and then times them beside it, in one run.
use std::hint::black_box;
use std::time::Instant;

use reference::comparisons;
use reference::solver::matching as counted;
use uncounted::solver::matching::{greedy_unique_matches, MatchScratch};
use uncounted::stats::median_mad_sigma;

extern "C" {
    fn raqembu_median_mad_sigma(vals: *mut f64, n: usize, out: *mut f64, m: usize);
    fn raqembu_greedy_unique_matches(
        points: *const f64, points_len: usize, max_points: usize, predicted: *const f64, predicted_len: usize, radius_sq: f64,
        distances: *mut f64, distances_len: usize, indices: *mut usize, indices_len: usize, work: *mut usize, work_len: usize,
        counts: *mut usize, counts_len: usize,
    ) -> usize;
    fn raqembu_greedy_unique_matches_by_scanning(
        points: *const f64, points_len: usize, max_points: usize, predicted: *const f64, predicted_len: usize, radius_sq: f64,
        work: *mut usize, work_len: usize, counts: *mut usize, counts_len: usize,
    ) -> usize;
}

// A slice passes as a pointer and a length; the library asks nothing else.
fn median_here(vals: &mut [f64]) -> (f64, f64) {
    let mut out = [0.0; 2];
    unsafe { raqembu_median_mad_sigma(vals.as_mut_ptr(), vals.len(), out.as_mut_ptr(), 2) };
    (out[0], out[1])
}

/// The lists that the matcher is lent.
struct Lent {
    distances: Vec<f64>,
    indices: Vec<usize>,
    work: Vec<usize>,
}

impl Lent {
    fn new(pairs: usize, spots: usize, predictions: usize) -> Self {
        Lent { distances: vec![0.0; 2 * pairs], indices: vec![0; 4 * pairs], work: vec![0; 3 * (spots + predictions)] }
    }
}

/// How many matches, and how many comparisons for them; none is refused, since the lists are long enough.
fn matches_here(points: &[f64], predicted: &[f64], radius_sq: f64, lent: &mut Lent) -> [usize; 2] {
    let mut counts = [0; 2];
    let refusal = unsafe {
        raqembu_greedy_unique_matches(
            points.as_ptr(), points.len(), usize::MAX, predicted.as_ptr(), predicted.len(), radius_sq,
            lent.distances.as_mut_ptr(), lent.distances.len(), lent.indices.as_mut_ptr(), lent.indices.len(),
            lent.work.as_mut_ptr(), lent.work.len(), counts.as_mut_ptr(), counts.len(),
        )
    };
    assert_eq!(refusal, 0);
    counts
}

/// The number answered by the matcher that scans, and its counts.
fn scanned_here(points: &[f64], limit: usize, predicted: &[f64], radius_sq: f64, work: &mut [usize]) -> (usize, [usize; 2]) {
    let mut counts = [7; 2];
    let number = unsafe {
        raqembu_greedy_unique_matches_by_scanning(
            points.as_ptr(), points.len(), limit, predicted.as_ptr(), predicted.len(), radius_sq,
            work.as_mut_ptr(), work.len(), counts.as_mut_ptr(), counts.len(),
        )
    };
    (number, counts)
}

/// The reference's matches, and the comparisons that are counted beside it.
fn matches_there(points: &[(f64, f64)], predicted: &[(usize, f64, f64)], radius_sq: f64) -> (Vec<(usize, usize)>, usize) {
    comparisons::begin();
    let matches = counted::greedy_unique_matches(points, usize::MAX, predicted, radius_sq, &mut counted::MatchScratch::default()).to_vec();
    (matches, comparisons::end()[0] as usize)
}

/// xorshift64, from a fixed seed.
struct Random(u64);

impl Random {
    fn next(&mut self) -> f64 {
        self.0 ^= self.0 << 13;
        self.0 ^= self.0 >> 7;
        self.0 ^= self.0 << 17;
        (self.0 >> 11) as f64 / (1u64 << 53) as f64
    }
    fn points(&mut self, n: usize, half: f64) -> Vec<f64> {
        (0..2 * n).map(|_| (self.next() * 2.0 - 1.0) * half).collect()
    }
}

/// Nanoseconds a call, the least of the runs; the two sides take turns.
fn both(runs: usize, mut here: impl FnMut(), mut there: impl FnMut()) -> (f64, f64) {
    let mut least = (f64::INFINITY, f64::INFINITY);
    for _ in 0..runs {
        let start = Instant::now();
        here();
        least.0 = least.0.min(start.elapsed().as_nanos() as f64);
        let start = Instant::now();
        there();
        least.1 = least.1.min(start.elapsed().as_nanos() as f64);
    }
    least
}

fn report(name: &str, (here, there): (f64, f64)) {
    println!("{name}: {:.1} us, Rust {:.1} us, ratio {:.2}", here / 1e3, there / 1e3, here / there);
}

fn medians(random: &mut Random) {
    let mut bad = 0;
    for n in (0..200).chain([4095, 4096]) {
        let values: Vec<f64> = (0..n).map(|_| if n % 3 == 0 { (random.next() * 5.0).floor() } else { random.next() }).collect();
        let (a, b) = median_here(&mut values.clone());
        let (c, d) = median_mad_sigma(&mut values.clone());
        bad += (a.to_bits() != c.to_bits() || b.to_bits() != d.to_bits()) as usize;
    }
    println!("medians: {bad} of 202 differ");
    let values: Vec<f64> = (0..4096).map(|_| (random.next() * random.next()).sqrt() * 1e-4).collect();
    let (mut a, mut b) = (values.clone(), values.clone());
    let times = both(
        400,
        || { a.copy_from_slice(&values); black_box(median_here(&mut a)); },
        || { b.copy_from_slice(&values); black_box(median_mad_sigma(&mut b)); },
    );
    report("median of 4,096", times);
}

/// Small frames for the matcher that scans: on a grid, so that distances tie, or anywhere, now and then with a coordinate that is no number or
/// infinite; with any limit and radius, and a work list that is long enough, one place longer, or one short. Its matches, its marks and what stands
/// behind them are held to the reference.
fn scans(random: &mut Random) {
    let (mut bad, mut short, mut matched) = (0, 0, 0);
    for frame in 0..60_000 {
        let mut below = |n: usize| (random.next() * n as f64) as usize;
        let [spots, predictions, limit, grid] = [below(9), below(9), below(11), below(3)];
        let [odd, room, radius] = [below(6), below(20), below(9)];
        let mut place = || if grid > 0 { (random.next() * 4.0).floor() } else { random.next() * 4.0 };
        let mut points: Vec<f64> = (0..2 * spots).map(|_| place()).collect();
        let predicted: Vec<f64> = (0..2 * predictions).map(|_| place()).collect();
        if odd == 0 && spots > 0 {
            points[frame % (2 * spots)] = [f64::NAN, f64::INFINITY, -0.0][frame % 3];
        }
        let radius_sq = [0.0, 1.0, 2.0, 4.0, 5.0, 0.5, 100.0, f64::INFINITY, f64::NAN][radius];
        let within = spots.min(limit);
        let needed = within + predictions + 2 * within.min(predictions);
        let places = if room == 0 { needed.saturating_sub(1) } else { needed + room % 2 };
        let was: Vec<usize> = (0..places).map(|i| i ^ 0x5A5A).collect();
        let mut work = was.clone();
        let (number, counts) = scanned_here(&points, limit, &predicted, radius_sq, &mut work);
        if places < needed {
            short += 1;
            bad += ((number, counts, &work) != (11, [0; 2], &was)) as usize;
            continue;
        }
        let tuples: Vec<(f64, f64)> = points.chunks(2).map(|p| (p[0], p[1])).collect();
        let named: Vec<(usize, f64, f64)> = predicted.chunks(2).enumerate().map(|(i, p)| (i, p[0], p[1])).collect();
        let there = counted::greedy_unique_matches(&tuples, limit, &named, radius_sq, &mut counted::MatchScratch::default()).to_vec();
        let mut due = vec![0; within + predictions];
        due.extend(there.iter().flat_map(|m| [m.0, m.1]));
        due.extend(&was[due.len()..]);
        matched += there.len();
        bad += ((number, counts, work) != (0, [there.len(), 0], due)) as usize;
    }
    println!("scans: {bad} of 60000 differ, {short} with too short a work list, {matched} matches");
}

fn matcher(random: &mut Random, spots: usize, predictions: usize, half: f64, radius: f64, runs: usize) {
    let points = random.points(spots, half);
    let predicted = random.points(predictions, half);
    let tuples: Vec<(f64, f64)> = points.chunks(2).map(|p| (p[0], p[1])).collect();
    let named: Vec<(usize, f64, f64)> = predicted.chunks(2).enumerate().map(|(i, p)| (i, p[0], p[1])).collect();
    let mut lent = Lent::new(1 << 20, spots, predictions);
    let mut scratch = MatchScratch::default();
    let [k, compared] = matches_here(&points, &predicted, radius * radius, &mut lent);
    let there = matches_there(&tuples, &named, radius * radius);
    let from = spots + predictions;
    let here: Vec<(usize, usize)> = (0..k).map(|i| (lent.work[from + 2 * i], lent.work[from + 2 * i + 1])).collect();
    let name = format!("matcher, {spots} spots with {predictions} predictions, {k} matches");
    println!("{name}: {}, {compared} comparisons", if (here, compared) == there { "the same" } else { "DIFFERENT" });
    let times = both(
        runs,
        || { black_box(matches_here(&points, &predicted, radius * radius, &mut lent)); },
        || { black_box(greedy_unique_matches(&tuples, usize::MAX, &named, radius * radius, &mut scratch).len()); },
    );
    report(&name, times);
    if spots <= 256 {
        let scan = || { black_box(scanned_here(&points, usize::MAX, &predicted, radius * radius, &mut lent.work)); };
        let times = both(
            runs.min(200),
            scan,
            || { black_box(greedy_unique_matches(&tuples, usize::MAX, &named, radius * radius, &mut scratch).len()); },
        );
        report(&format!("{name}, by scanning"), times);
    }
}

fn main() {
    let mut random = Random(0x9E37_79B9_7F4A_7C15);
    medians(&mut random);
    scans(&mut random);
    matcher(&mut random, 64, 256, 500.0, 20.0, 2000);
    matcher(&mut random, 64, 256, 500.0, 50.0, 2000);
    matcher(&mut random, 64, 256, 500.0, 200.0, 2000);
    matcher(&mut random, 128, 512, 500.0, 20.0, 200);
    matcher(&mut random, 128, 512, 500.0, 200.0, 200);
    matcher(&mut random, 256, 1024, 500.0, 20.0, 200);
    matcher(&mut random, 256, 1024, 500.0, 200.0, 20);
    matcher(&mut random, 4096, 8192, 2000.0, 10.0, 20);
}
