//! Kinds that stand on both sides of a bound, or break the record itself.

use crate::cuts;
use crate::exposure::{encoded, push, Exposure};
use crate::field::{Plan, DIRECTIONS, MATCHES, SPOTS};
use crate::rng::{beside32, beside64, Rng};
use crate::runs::{field, wild};
use crate::weights::{self, weighed};

/// A small exposure that no check refuses.
fn lawful(r: &mut Rng) -> Exposure {
    let mut p = Plan::ordinary(r);
    p.pairs = r.whole(4, 10);
    p.strays = 2;
    p.dark = 2;
    p.elsewhere = 2;
    p.matches = p.pairs;
    p.rounds = 3;
    p.take(r)
}

/// A bound, a step inside it, a step outside it, or a value far away.
fn about64(r: &mut Rng, bound: f64) -> f64 {
    match r.below(8) {
        0 => r.pick(&[f64::NAN, -f64::NAN, f64::INFINITY, f64::NEG_INFINITY]),
        1 => r.pick(&[0.0, -0.0, 5e-324, f64::MAX, -bound]),
        n => beside64(bound, n as i64 % 3 - 1),
    }
}

fn about32(r: &mut Rng, bound: f32) -> f32 {
    match r.below(8) {
        0 => r.pick(&[f32::NAN, -f32::NAN, f32::INFINITY, f32::NEG_INFINITY]),
        1 => r.pick(&[0.0, -0.0, 1e-45, f32::MAX, -bound]),
        n => beside32(bound, n as i32 % 3 - 1),
    }
}

/// Moves one value of the exposure, not its cut nor a weight, to a bound of
/// refusals 6 to 10.
fn to_bound(r: &mut Rng, e: &mut Exposure) {
    let least = 1.0 / (1u64 << 30) as f64;
    match r.below(7) {
        0 => e.rounds = r.pick(&[0, 63, 64, 65, 66, u32::MAX]),
        1 => e.scale = if r.once_in(2) { about64(r, least) } else { about64(r, 1.0) },
        2 => e.radius = if r.once_in(2) { about32(r, least as f32) } else { about32(r, 1.0) },
        3 => {
            let (spot, axis) = (r.below(e.spots.len() as u64), r.below(2));
            let sign = r.pick(&[1.0, -1.0]);
            e.spots[spot as usize][axis as usize] = sign * about64(r, (1u64 << 20) as f64);
        }
        4 => {
            let (direction, axis) = (r.below(e.directions.len() as u64), r.below(3));
            let sign = r.pick(&[1.0, -1.0]);
            e.directions[direction as usize][axis as usize] = sign * about32(r, 2.0);
        }
        5 => {
            let entry = r.below(9) as usize;
            e.rotation[entry] = r.pick(&[1.0, -1.0]) * about32(r, 2.0);
        }
        _ => {
            let m = r.below(e.matches.len() as u64) as usize;
            let axis = r.below(2) as usize;
            let count = [e.spots.len(), e.directions.len()][axis] as u32;
            e.matches[m][axis] = r.pick(&[0, count - 1, count, count + 1, u32::MAX]);
        }
    }
}

/// A cut on either side of a bound of refusal 14.
fn cut_at_bound(c: &mut Rng) -> f64 {
    let bound = c.pick(&[cuts::LEAST, cuts::GREATEST]);
    about64(c, bound)
}

/// One weight on either side of a bound of refusal 17.
fn weight_at_bound(w: &mut Rng, e: &mut Exposure) {
    let spot = w.below(e.spots.len() as u64);
    let bound = w.pick(&[weights::LEAST, weights::GREATEST]);
    e.weights[spot as usize] = about64(w, bound);
}

/// One value at a bound.
pub fn bounds(r: &mut Rng, c: &mut Rng, w: &mut Rng) -> Exposure {
    let mut e = weighed(Exposure { cut: cuts::drawn(c), ..lawful(r) }, w);
    if w.once_in(6) {
        weight_at_bound(w, &mut e);
    } else if c.once_in(6) {
        e.cut = cut_at_bound(c);
    } else {
        to_bound(r, &mut e);
    }
    e
}

/// Several values at bounds: the first refusal counts.
pub fn several(r: &mut Rng, c: &mut Rng, w: &mut Rng) -> Exposure {
    let mut e = weighed(lawful(r), w);
    if w.once_in(2) {
        weight_at_bound(w, &mut e);
    }
    e.cut = if c.once_in(2) { cut_at_bound(c) } else { cuts::drawn(c) };
    for _ in 0..r.whole(2, 6) {
        to_bound(r, &mut e);
    }
    e
}

/// As many spots, matches or directions as the program holds, or more.
pub fn holding(r: &mut Rng, w: &mut Rng) -> Exposure {
    let mut e = lawful(r);
    let more = |r: &mut Rng, held: usize| held + r.pick(&[0, 0, 1, 2]);
    if r.once_in(2) {
        let spot = e.spots[0];
        e.spots.resize(more(r, SPOTS), spot);
    }
    if r.once_in(2) {
        let m = e.matches[0];
        e.matches.resize(more(r, MATCHES), m);
    }
    if r.once_in(2) {
        let direction = e.directions[0];
        e.directions.resize(more(r, DIRECTIONS), direction);
    }
    if r.once_in(4) {
        // Past refusal 6 as well; the record's count is refused first.
        e.spots = vec![[0.0, 0.0]; r.pick(&[4_096, 4_097, 5_000])];
    }
    if r.once_in(4) {
        to_bound(r, &mut e);
    }
    let mut e = weighed(e, w);
    if w.once_in(8) {
        weight_at_bound(w, &mut e);
    }
    e
}

/// A record whose bytes are spoiled.
pub fn damaged(r: &mut Rng, c: &mut Rng, w: &mut Rng) -> Vec<u8> {
    let taken = if r.once_in(2) { lawful(r) } else { field(r) };
    let e = weighed(Exposure { cut: cuts::drawn(c), ..taken }, w);
    let mut bytes = e.bytes();
    match r.below(8) {
        0 => bytes.truncate(r.below(bytes.len() as u64) as usize),
        1 => bytes.extend((0..r.whole(1, 4)).map(|_| r.next() as u8)),
        2 => bytes = respelled(r, &e.numbers()),
        3 => bytes = enlarged(r, e.numbers()),
        4 => {
            let at = r.below(bytes.len() as u64) as usize;
            bytes[at] ^= 1 << r.below(8);
        }
        5 => bytes = (0..r.whole(0, 60)).map(|_| r.next() as u8).collect(),
        6 => bytes = long(r, bytes),
        _ => {
            // A count that the record does not hold.
            let mut numbers = e.numbers();
            numbers[r.below(3) as usize] = r.pick(&[0, 1, 65, 300, 4_097, u32::MAX as u64]);
            bytes = encoded(&numbers);
        }
    }
    bytes
}

/// One number with a zero group too many, whole or broken off.
fn respelled(r: &mut Rng, numbers: &[u64]) -> Vec<u8> {
    let at = r.below(numbers.len() as u64) as usize;
    let mut bytes = encoded(&numbers[..at]);
    let begin = bytes.len();
    push(&mut bytes, numbers[at]);
    let room = 11 - (bytes.len() - begin).min(10);
    for _ in 0..if r.once_in(2) { 1 } else { r.whole(1, room) } {
        *bytes.last_mut().unwrap() |= 0x80;
        bytes.push(0);
    }
    if r.once_in(4) {
        bytes.pop();
        return bytes;
    }
    bytes.extend(encoded(&numbers[at + 1..]));
    bytes
}

/// One number at or above what its field holds.
fn enlarged(r: &mut Rng, mut numbers: Vec<u64>) -> Vec<u8> {
    let at = r.below(numbers.len() as u64) as usize;
    numbers[at] = r.pick(&[1, 2, 0x7F, 0x80, 0xFFFF_FFFF, 1 << 32, 1 << 35, 1 << 63, u64::MAX]);
    let mut bytes = encoded(&numbers);
    if r.once_in(8) {
        // A tenth byte above 1.
        let mut head = encoded(&numbers[..at]);
        head.extend([0xFF; 9]);
        head.push(r.pick(&[0x00, 0x02, 0x7F, 0x80]));
        bytes = head;
    }
    bytes
}

/// About as long as a record may be; what follows the last number is 4, and
/// past the longest it is 1.
fn long(r: &mut Rng, mut bytes: Vec<u8>) -> Vec<u8> {
    bytes.resize(r.pick(&[65_535, 65_536, 65_537, 70_000]), 0);
    bytes
}

/// Exposures up to the limits of refusal 6; records longer than refusal 1
/// allows, for callers that take lists.
pub fn full_size(r: &mut Rng) -> Exposure {
    if r.once_in(6) {
        return wild(r);
    }
    let mut p = Plan::ordinary(r);
    p.pairs = r.whole(100, 3_000);
    p.strays = r.pick(&[0, 500, 4_096 - p.pairs, 4_097 - p.pairs]);
    p.dark = r.whole(0, 2_000);
    p.elsewhere = r.pick(&[0, 10_000, 65_536 - p.pairs - p.dark, 65_537 - p.pairs - p.dark]);
    p.matches = r.whole(10, p.pairs);
    p.outliers = r.whole(0, p.pairs / 10);
    p.limit = if r.once_in(2) { u32::MAX } else { r.whole(0, 4_096) as u32 };
    p.take(r)
}
