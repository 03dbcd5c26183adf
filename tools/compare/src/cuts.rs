//! The plane cut of a record. It is drawn from numbers of its own, so that the
//! rest of a record does not depend on it.

use crate::rng::{beside32, beside64, Rng};

/// The ends of its range, by refusal 14.
pub const LEAST: f64 = 1e-12;
pub const GREATEST: f64 = 0.5;

/// A cut within its range: often the least, an end or a step from it.
pub fn drawn(c: &mut Rng) -> f64 {
    match c.below(8) {
        0..=2 => LEAST,
        3 => c.pick(&[beside64(LEAST, 1), GREATEST, beside64(GREATEST, -1)]),
        4 => c.pick(&[1e-9, 1e-3, 0.01, 0.1, 0.25, 0.3]),
        5 => c.between(0.05, GREATEST),
        _ => c.size(-39, -1),
    }
}

/// One so large that directions of a wide field lie below it.
pub fn large(c: &mut Rng) -> f64 {
    match c.below(4) {
        0 => c.pick(&[GREATEST, beside64(GREATEST, -1), 0.25, 0.1, 0.05]),
        1 => narrow(c.between(0.05, GREATEST)),
        _ => c.between(0.05, GREATEST),
    }
}

/// A cut that a denominator can equal, or a step beside it: directions have
/// the f32's few digits.
pub fn meeting(c: &mut Rng) -> f64 {
    let cut = drawn(c);
    let steps = c.pick(&[-1, 0, 0, 0, 1]);
    let near = if c.once_in(4) { cut } else { beside64(narrow(cut), steps) };
    near.clamp(LEAST, GREATEST)
}

fn narrow(cut: f64) -> f64 {
    cut as f32 as f64
}

/// A denominator at the cut, beside it by some steps or by a small part, or of
/// another size about it.
pub fn about(c: &mut Rng, cut: f64) -> f64 {
    let part = c.pick(&[1e-6, 1e-4, 1e-2, 0.1]) * c.between(-1.0, 1.0);
    let step = c.below(7) as i32 - 3;
    match c.below(6) {
        0..=2 => narrow(cut),
        3 => beside32(cut as f32, step) as f64,
        4 => cut * (1.0 + part),
        _ => (cut * c.size(-4, 4)).min(1.0),
    }
}
