//! The weights of a record's spots. They are drawn from numbers of their own,
//! so that the rest of a record does not depend on them.

use crate::exposure::Exposure;
use crate::rng::{beside64, Rng};

/// The ends of their range, by refusal 17.
pub const LEAST: f64 = 1.0 / 1024.0;
pub const GREATEST: f64 = 1024.0;

/// Any weight of the range, each power of two as often as another.
pub fn any(w: &mut Rng) -> f64 {
    w.size(-10, 10)
}

/// As faint as may be, or nearly.
pub fn faint(w: &mut Rng) -> f64 {
    if w.once_in(3) { LEAST } else { w.size(-10, -8) }
}

/// An end of the range, or the float beside it within.
fn end(w: &mut Rng) -> f64 {
    w.pick(&[LEAST, beside64(LEAST, 1), GREATEST, beside64(GREATEST, -1)])
}

/// A power of two from end to end.
fn power(w: &mut Rng) -> f64 {
    LEAST * (1u64 << w.below(21)) as f64
}

/// Lawful weights for so many spots: all equal, one or some that stand out, at
/// the ends, or spread over the range.
pub fn drawn(w: &mut Rng, spots: usize) -> Vec<f64> {
    match w.below(10) {
        0 | 1 => vec![1.0; spots],
        2 => vec![power(w); spots],
        3 => vec![w.pick(&[3.0, 3.0, 0.1]); spots],
        4 => each(w, spots, end),
        5 => each(w, spots, |w| if w.once_in(4) { faint(w) } else { 1.0 }),
        6 => heavy(w, spots),
        7 => each(w, spots, power),
        _ => each(w, spots, any),
    }
}

/// A weight drawn anew for each of so many spots.
pub fn each(w: &mut Rng, spots: usize, one: fn(&mut Rng) -> f64) -> Vec<f64> {
    (0..spots).map(|_| one(w)).collect()
}

/// One spot that outweighs the others.
fn heavy(w: &mut Rng, spots: usize) -> Vec<f64> {
    let mut weights = vec![w.pick(&[1.0, LEAST]); spots];
    let at = w.below(spots as u64) as usize;
    if let Some(one) = weights.get_mut(at) {
        *one = w.pick(&[GREATEST, 100.0]);
    }
    weights
}

/// An exposure whose kind is not about its weights: any within their range.
pub fn weighed(e: Exposure, w: &mut Rng) -> Exposure {
    Exposure { weights: drawn(w, e.spots.len()), ..e }
}
