//! Times of the refinement call, this library and the reference Rust by turns: the sizes that have a goal, and how the cost grows.

use std::hint::black_box;
use std::time::Instant;

use exposures::{exposure::Exposure, field::Plan, rng::Rng};
use reference::call::{self, Lent};
use reference::record::{read_any, SPOT_NUMBERS};

use crate::linked::{refine, Lists};

/// What a call did, and the least time of each side in seconds.
struct Timed {
    matches: usize,
    counts: [u64; 3],
    here: f64,
    rust: f64,
}

/// The least time of each side over some runs, taking turns. The timed Rust is built without its counters; what a call did is asked of the
/// one with them.
fn time(bytes: &[u8], pairs: usize, runs: usize) -> Option<Timed> {
    let e = read_any(bytes).ok()?;
    let plain = uncounted::record::read_any(bytes).ok()?;
    let n = 16 * (e.spots.len() / SPOT_NUMBERS + e.matches.len() / 2 + e.directions.len() / 3);
    let mut l = Lists {
        numbers: vec![0; n],
        floats: vec![0.0; n],
        distances: vec![0.0; 2 * pairs],
        indices: vec![0; 4 * pairs],
        result: vec![0; 8192],
        counts: vec![0; 5],
        scanning: false,
    };
    let lent = Lent { wholes: n, floats: n, result: 8192, distances: 2 * pairs, indices: 4 * pairs, scanning: false, cells: None };
    let a = call::refine(&e, &lent, false).ok()?;
    let lent = uncounted::call::Lent { wholes: n, floats: n, result: 8192, distances: 2 * pairs, indices: 4 * pairs, scanning: false, cells: None };
    let prepared = uncounted::call::Prepared::new(&plain, &lent);
    let mut t = Timed { matches: a.result.matches.len(), counts: a.counts, here: f64::INFINITY, rust: f64::INFINITY };
    for _ in 0..runs {
        let start = Instant::now();
        black_box(refine(&e, &mut l));
        t.here = t.here.min(start.elapsed().as_secs_f64());
        let start = Instant::now();
        black_box(uncounted::call::check(&plain, &lent).and_then(|_| prepared.run(false)).is_ok());
        t.rust = t.rust.min(start.elapsed().as_secs_f64());
    }
    Some(t)
}

/// A field 2,000 pixels wide: `sizes` are directions with a spot, spots without one, directions of the field without a spot, and
/// directions anywhere.
fn plan(r: &mut Rng, sizes: [usize; 4], rounds: u32) -> Plan {
    let mut p = Plan::ordinary(r);
    [p.pairs, p.strays, p.dark, p.elsewhere] = sizes;
    (p.scale, p.half, p.radius, p.noise) = (1.0 / 16384.0, 1000.0, 6.0, 0.5);
    (p.matches, p.wrong, p.outliers, p.far_off) = (p.pairs / 2, p.pairs / 20, p.pairs / 20, 4.0);
    (p.limit, p.rounds) = (u32::MAX, rounds);
    p
}

/// The record of an exposure with weights of 1: a run then takes the steps that it took before there were weights, so that rows can be compared from
/// version to version. A product takes as long with any other weight.
fn weighed(e: Exposure) -> Vec<u8> {
    Exposure { weights: vec![1.0; e.spots.len()], ..e }.bytes()
}

fn exposure(item: u64, sizes: [usize; 4], rounds: u32) -> Vec<u8> {
    let mut r = Rng::new(77, item);
    let p = plan(&mut r, sizes, rounds);
    weighed(p.take(&mut r))
}

fn say(name: &str, item: u64, sizes: [usize; 2], t: &Timed) {
    println!(
        "{name} {item}: {} spots, {} directions, {} matches, {} rounds, {} passes, {} queries: {:.1} us, Rust {:.1} us, ratio {:.3}",
        sizes[0], sizes[1], t.matches, t.counts[0], t.counts[1], t.counts[2], t.here * 1e6, t.rust * 1e6, t.here / t.rust
    );
}

fn times(name: &str, sizes: [usize; 4], pairs: usize, exposures: u64, runs: usize) {
    for item in 0..exposures {
        if let Some(t) = time(&exposure(item, sizes, 64), pairs, runs) {
            say(name, item, [sizes[0] + sizes[1], sizes[0] + sizes[2] + sizes[3]], &t);
        }
    }
}

/// Small calls of two and three rounds over a wide field, so many degrees across: its edges are seen aslant, and the start is further off.
fn wide(degrees: f64, sizes: [usize; 4], wanted: usize) {
    let mut found = [0; 2];
    for item in 0..400 {
        let mut r = Rng::new(78, item);
        let mut p = plan(&mut r, sizes, 64);
        p.scale = (degrees / 2.0).to_radians().tan() / p.half;
        (p.tilt, p.roll) = (p.scale * p.radius, p.radius / p.half);
        let bytes = weighed(p.take(&mut r));
        let Some(look) = time(&bytes, 2048, 1) else { continue };
        if !(2..=3).contains(&look.counts[0]) || found[look.counts[0] as usize - 2] == wanted {
            continue;
        }
        found[look.counts[0] as usize - 2] += 1;
        if let Some(t) = time(&bytes, 2048, 20_000) {
            let seen = sizes[0] + sizes[2];
            say(&format!("64 / 256, field of {degrees} degrees with {seen} directions"), item, [64, 256], &t);
        }
    }
}

/// Layouts for which strips along x do not help, and beside them the same field as it usually lies.
fn layouts(spots: usize, directions: usize, runs: usize) {
    let pairs = (3 * spots / 4).min(3 * directions / 4);
    let sizes = [pairs, spots - pairs, directions - pairs, 0];
    for name in ["spread over the field", "all spots on one x", "spots and directions on one x", "one stray spot at 2^20"] {
        let mut r = Rng::new(79, 0);
        let mut p = plan(&mut r, sizes, 8);
        if name.ends_with("on one x") {
            (p.breadth, p.noise, p.outliers) = ([0.0, 1.0], 0.0, 0);
        }
        if name.starts_with("spots and directions") {
            p.breadth[1] = 0.0;
        }
        let mut taken = p.take(&mut r);
        if name == "one stray spot at 2^20" {
            // No starting match names it, so the fit does not meet it.
            let free = (0..spots).find(|i| taken.matches.iter().all(|m| m[0] as usize != *i)).unwrap();
            taken.spots[free] = [1_048_576.0, 0.0];
        }
        if let Some(t) = time(&weighed(taken), 2048 + spots * directions / 64, runs) {
            say(name, 0, [spots, directions], &t);
        }
    }
}

/// The sizes that have a goal, wide fields, and layouts for which strips do not help.
pub fn sizes() {
    times("64 / 256", [48, 16, 100, 108], 2048, 12, 20_000);
    for degrees in [30.0, 60.0] {
        wide(degrees, [48, 16, 100, 108], 3);
        wide(degrees, [48, 16, 0, 208], 3);
        wide(degrees, [12, 52, 0, 244], 3);
    }
    layouts(64, 256, 20_000);
    layouts(1024, 4096, 20);
    layouts(4096, 65_536, 1);
    times("4,096 / 65,536, whole sphere", [3000, 1096, 2000, 60_536], 1 << 20, 3, 5);
    times("4,096 / 65,536, one field", [3000, 1096, 62_536, 0], 1 << 20, 1, 1);
}

/// All directions in one field, eight rounds at the most. A line for each size: spots, directions, rounds, microseconds here and in Rust.
pub fn growth() {
    println!("spots,directions,rounds,here,rust");
    for spots in [64, 256, 1024, 4096] {
        for directions in [256, 4096, 65_536] {
            let pairs = (3 * spots / 4).min(3 * directions / 4);
            let e = exposure(3, [pairs, spots - pairs, directions - pairs, 0], 8);
            let runs = 3 + (100_000_000 / (spots * directions)).min(300);
            let Some(t) = time(&e, 2048 + spots * directions / 1024, runs) else { continue };
            println!("{spots},{directions},{},{:.1},{:.1}", t.counts[0], t.here * 1e6, t.rust * 1e6);
        }
    }
}

/// One round with either matcher, all directions in one field: as spots usually lie, and with a radius that puts many pairs within it.
pub fn scanning() {
    println!("spots,directions,radius,matches,listing,scanning,rust");
    for (spots, directions) in [(16, 64), (32, 128), (64, 256), (128, 512), (256, 1024), (512, 2048), (1024, 4096)] {
        for radius in [6.0, 60.0] {
            let pairs = (3 * spots / 4).min(3 * directions / 4);
            let mut r = Rng::new(80, 0);
            let mut p = plan(&mut r, [pairs, spots - pairs, directions - pairs, 0], 1);
            p.radius = radius;
            let bytes = weighed(p.take(&mut r));
            let runs = 3 + (40_000_000 / (spots * spots * directions)).min(2000);
            let room = 2048 + spots * directions / 32;
            let Some(t) = time(&bytes, room, runs) else { continue };
            let scan = scanned(&bytes, runs);
            println!("{spots},{directions},{radius},{},{:.1},{:.1},{:.1}", t.matches, t.here * 1e6, scan * 1e6, t.rust * 1e6);
        }
    }
}

/// The least time in seconds of the same call with the matcher that scans, without a place for candidates.
fn scanned(bytes: &[u8], runs: usize) -> f64 {
    let e = read_any(bytes).expect("a record");
    let n = 16 * (e.spots.len() / SPOT_NUMBERS + e.matches.len() / 2 + e.directions.len() / 3);
    let mut l = Lists {
        numbers: vec![0; n],
        floats: vec![0.0; n],
        distances: Vec::new(),
        indices: Vec::new(),
        result: vec![0; 8192],
        counts: vec![0; 5],
        scanning: true,
    };
    let mut least = f64::INFINITY;
    for _ in 0..runs {
        let start = Instant::now();
        assert_eq!(black_box(refine(&e, &mut l)).refusal, 0);
        least = least.min(start.elapsed().as_secs_f64());
    }
    least
}
