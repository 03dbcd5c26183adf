//! The refinement call: refusals 5 to 11, 14 and 17, then the reference's run
//! with refusals 12 and 13.

use std::f32::consts::TAU;
use std::panic::{catch_unwind, resume_unwind, AssertUnwindSafe};

use crate::comparisons;
use crate::hooks::{self, Refused};
use crate::record::{Exposure, SPOT_NUMBERS};
use crate::scan;
use crate::solver::profiling;
use crate::solver::solve::StarVectors;
use crate::solver::wcs_refine::{wcs_refine, WcsRefineResult};
use crate::starcatalog::StarCatalog;
use crate::vector::Matrix3;
use crate::Star;

const MOST_SPOTS: usize = 4_096;
const MOST_MATCHES: usize = 4_096;
const MOST_DIRECTIONS: usize = 65_536;
const MOST_ROUNDS: u64 = 64;
/// 2^-30, the least pixel scale and match radius.
const LEAST: f64 = 1.0 / 1_073_741_824.0;
/// The plane cut, which the reference has as a constant, the least.
pub const LEAST_CUT: f64 = 1e-12;
const GREATEST_CUT: f64 = 0.5;
const GREATEST_COORDINATE: f64 = 1_048_576.0;
/// 2^-10 and 2^10.
const LEAST_WEIGHT: f64 = 1.0 / 1_024.0;
const GREATEST_WEIGHT: f64 = 1_024.0;
const GREATEST_COMPONENT: f32 = 2.0;
/// Working places for each spot, match and direction.
const PLACES: usize = 16;

/// Lengths of the lists lent for work and for the result, which matcher is
/// chosen, and how directions are queried.
#[derive(Clone, Copy, Debug)]
pub struct Lent {
    pub wholes: usize,
    pub floats: usize,
    pub result: usize,
    pub distances: usize,
    pub indices: usize,
    /// The matcher of request 7 of document 02, which lists no pairs: the
    /// reference's own with room for every pair, and no comparisons.
    pub scanning: bool,
    /// The resolution of the reference's own cells, instead of the scan.
    pub cells: Option<u32>,
}

impl Lent {
    /// The pairs that the matcher may find.
    pub fn pairs(&self) -> usize {
        if self.scanning {
            usize::MAX
        } else {
            (self.distances / 2).min(self.indices / 4)
        }
    }
}

/// The reference's result beside its counts of rounds, passes and queries, and
/// the comparisons of each round.
pub struct Answer {
    pub result: WcsRefineResult,
    pub counts: [u64; 3],
    pub compared: Vec<u64>,
}

impl Answer {
    /// The largest number of comparisons of any round, 0 where no round ran.
    pub fn comparisons(&self) -> u64 {
        self.compared.iter().copied().max().unwrap_or(0)
    }
}

/// Refusals 5 to 11 in their order, with 14 after 8 and 17 after 9.
pub fn check(e: &Exposure, lent: &Lent) -> Result<(), u8> {
    let counts = [e.spots.len() / SPOT_NUMBERS, e.matches.len() / 2, e.directions.len() / 3];
    if e.spots.len() % SPOT_NUMBERS != 0 || e.matches.len() % 2 != 0 || e.directions.len() % 3 != 0
    {
        return Err(5);
    }
    numbers(e, counts)?;
    indices(e, counts, lent)
}

/// Refusals 6 to 9, 14 and 17.
fn numbers(e: &Exposure, [spots, matches, directions]: [usize; 3]) -> Result<(), u8> {
    if spots > MOST_SPOTS
        || matches > MOST_MATCHES
        || directions > MOST_DIRECTIONS
        || e.rounds > MOST_ROUNDS
    {
        return Err(6);
    }
    if !(LEAST..=1.0).contains(&e.scale) {
        return Err(7);
    }
    if !(LEAST..=1.0).contains(&(e.radius as f64)) {
        return Err(8);
    }
    if !(LEAST_CUT..=GREATEST_CUT).contains(&e.cut) {
        return Err(14);
    }
    let far = |x: f64| !(x.abs() <= GREATEST_COORDINATE);
    let long = |x: &f32| !(x.abs() <= GREATEST_COMPONENT);
    if spots_of(e).any(|([x, y], _)| far(x) || far(y))
        || e.directions.iter().chain(&e.rotation).any(long)
    {
        return Err(9);
    }
    // Only when every coordinate, direction and rotation entry is lawful.
    if spots_of(e).any(|(_, weight)| !(LEAST_WEIGHT..=GREATEST_WEIGHT).contains(&weight)) {
        return Err(17);
    }
    Ok(())
}

/// The place and the weight of each spot.
fn spots_of(e: &Exposure) -> impl Iterator<Item = ([f64; 2], f64)> + '_ {
    e.spots.chunks_exact(SPOT_NUMBERS).map(|s| ([s[0], s[1]], s[2]))
}

/// Refusals 10 and 11.
fn indices(e: &Exposure, counts: [usize; 3], lent: &Lent) -> Result<(), u8> {
    let [spots, matches, directions] = counts;
    if e.matches.chunks_exact(2).any(|m| m[0] >= spots || m[1] >= directions) {
        return Err(10);
    }
    let places = PLACES * (spots + matches + directions);
    if lent.wholes.min(lent.floats) < places || lent.result < 2 * matches.max(spots.min(e.limit)) {
        return Err(11);
    }
    Ok(())
}

/// A checked exposure in the shapes that the reference takes.
pub struct Prepared {
    rotation: Matrix3<f32>,
    matches: Vec<(usize, usize)>,
    spots: Vec<(f64, f64)>,
    weights: Vec<f64>,
    directions: Vec<[f32; 3]>,
    catalog: StarCatalog,
    by_cells: bool,
    scale: f64,
    mirror: bool,
    radius: f32,
    cut: f64,
    limit: usize,
    rounds: u32,
    pairs: usize,
}

impl Prepared {
    pub fn new(e: &Exposure, lent: &Lent) -> Self {
        let r = &e.rotation;
        let directions: Vec<_> = e.directions.chunks_exact(3).map(|d| [d[0], d[1], d[2]]).collect();
        // The scan reads the directions alone; only cells need a catalogue.
        let stars = match lent.cells {
            Some(_) => directions.iter().map(star_at).collect(),
            None => Vec::new(),
        };
        Prepared {
            rotation: Matrix3::new([[r[0], r[1], r[2]], [r[3], r[4], r[5]], [r[6], r[7], r[8]]]),
            matches: e.matches.chunks_exact(2).map(|m| (m[0], m[1])).collect(),
            spots: spots_of(e).map(|([x, y], _)| (x, y)).collect(),
            weights: spots_of(e).map(|(_, weight)| weight).collect(),
            directions,
            catalog: StarCatalog::new(lent.cells.unwrap_or(1), stars),
            by_cells: lent.cells.is_some(),
            scale: e.scale,
            mirror: e.mirror,
            radius: e.radius,
            cut: e.cut,
            limit: e.limit,
            rounds: e.rounds as u32,
            pairs: lent.pairs(),
        }
    }

    /// The reference's run, or refusal 12 or 13.
    pub fn run(&self, traced: bool) -> Result<Answer, u8> {
        hooks::begin(self.pairs, traced);
        self.ended().map_err(|thrown| match thrown.downcast::<Refused>() {
            Ok(refused) => refused.0,
            Err(fault) => resume_unwind(fault),
        })
    }

    /// The reference's run to its own end, or its panic: no refusal leaves it.
    pub fn run_unrefused(&self) -> std::thread::Result<Answer> {
        hooks::begin_unrefused();
        self.ended()
    }

    /// A run that has been begun, to its end or to what it throws.
    fn ended(&self) -> std::thread::Result<Answer> {
        profiling::reset();
        comparisons::begin();
        scan::use_cells(self.by_cells);
        let run = || {
            wcs_refine(
                &self.rotation,
                &self.matches,
                &self.spots,
                &self.weights,
                StarVectors::with_observer_velocity(&self.directions, None),
                &self.catalog,
                self.scale,
                self.mirror,
                self.radius,
                self.cut,
                self.limit,
                self.rounds,
            )
        };
        let ended = catch_unwind(AssertUnwindSafe(run));
        hooks::end();
        let compared = comparisons::end();
        ended.map(|result| Answer { result, counts: profiling::counts(), compared })
    }
}

/// The catalogue's entry for a direction, by the host's f32 functions.
fn star_at(d: &[f32; 3]) -> Star {
    Star { ra_rad: d[1].atan2(d[0]).rem_euclid(TAU), dec_rad: d[2].clamp(-1.0, 1.0).asin() }
}

/// One refinement call.
pub fn refine(e: &Exposure, lent: &Lent, traced: bool) -> Result<Answer, u8> {
    check(e, lent)?;
    let mut answer = Prepared::new(e, lent).run(traced)?;
    if lent.scanning {
        answer.compared.clear();
    }
    Ok(answer)
}
