//! Kinds that meet refusal 12 or 13 in the run, early and late, or only just
//! do not.

use crate::cuts;
use crate::exposure::Exposure;
use crate::field::{attitude, direction, narrowed, Plan, Rows, DIRECTIONS, SPOTS};
use crate::rng::Rng;

/// As many pairs as the candidate list holds, or one or two more: a cluster
/// of 2,048 pairs, and single pairs far from it.
pub fn brimful(r: &mut Rng) -> Exposure {
    let attitude = attitude(r);
    let scale = r.size(-16, -11);
    let single = r.whole(0, 2);
    let mut e = start(r, attitude, scale, single, 1000.0);
    let (spots, directions) = r.pick(&[(32, 64), (16, 128), (62, 33)]);
    for _ in 0..spots {
        e.spots.push([r.between(-5.0, 5.0), r.between(-5.0, 5.0)]);
    }
    for _ in 0..directions {
        let (x, y) = (r.between(-5.0, 5.0), r.between(-5.0, 5.0));
        e.directions.push(direction(&attitude, scale * x, scale * y));
    }
    e.limit = u32::MAX;
    e.radius = (scale * 40.0) as f32;
    e.matches.clear();
    e
}

/// All spots nearly in one place: theta is as good as free, and 12 is met in
/// the first pass, or in the closing where there are no rounds.
pub fn pointlike(r: &mut Rng) -> Exposure {
    let mut p = Plan::ordinary(r);
    p.pairs = r.whole(6, 30);
    p.strays = r.whole(0, 20);
    p.matches = p.pairs;
    p.noise = 0.5;
    let mut e = p.take(r);
    // The smallest make a system that cannot be solved.
    let small = if r.once_in(3) { r.size(-110, -70) } else { r.size(-45, -8) };
    e.spots.iter_mut().flatten().for_each(|x| *x *= small);
    e.rounds = r.pick(&[0, 0, 1, 5]);
    if e.rounds == 0 {
        // One match far off, so that the closing clips and fits again.
        let m = r.pick(&e.matches);
        e.directions[m[1] as usize] = direction(&p.attitude, r.between(-0.8, 0.8), 0.5);
    }
    e
}

/// The first fit is sound. What the first association then finds, within the
/// matching limit, lies nearly in one place: 12 is met in a later round.
pub fn late_12(r: &mut Rng) -> Exposure {
    let attitude = attitude(r);
    let scale = r.size(-16, -10);
    let sound = r.whole(4, 5);
    let mut e = start(r, attitude, scale, sound, 400.0);
    let near = r.whole(4, 9);
    let small = r.size(-40, -26);
    for i in 0..near {
        let (x, y) = (r.between(-2.0, 2.0), r.between(-2.0, 2.0));
        e.directions.push(direction(&attitude, scale * x, scale * y));
        e.spots.insert(i, [small * r.normal(), small * r.normal()]);
    }
    e.matches.iter_mut().for_each(|m| m[0] += near as u32);
    e.limit = near as u32;
    e.radius = (scale * 6.0) as f32;
    e
}

/// Six or more sound matches make the first radius small; the four or five
/// within the limit that remain make the next one wide: 13 in a later round.
pub fn late_13(r: &mut Rng) -> Exposure {
    let attitude = attitude(r);
    let scale = r.size(-16, -11);
    let sound = r.whole(6, 12);
    let mut e = start(r, attitude, scale, sound, 60.0);
    let kept = r.whole(4, 5);
    let crowd = r.whole(20, SPOTS - sound);
    for _ in 0..crowd {
        e.spots.insert(kept, [r.between(-8.0, 8.0), r.between(-8.0, 8.0)]);
    }
    for m in e.matches.iter_mut().filter(|m| m[0] >= kept as u32) {
        m[0] += crowd as u32;
    }
    for _ in 0..DIRECTIONS - sound - r.whole(0, 120) {
        let (x, y) = (r.between(12.0, 40.0), r.between(12.0, 40.0));
        e.directions.push(direction(&attitude, scale * x, scale * y));
    }
    e.limit = (kept + crowd) as u32;
    e.radius = (scale * r.between(30.0, 80.0)) as f32;
    e
}

/// A start with `n` sound matches, spots far from the middle.
fn start(r: &mut Rng, attitude: Rows, scale: f64, n: usize, far: f64) -> Exposure {
    let mut e = Exposure {
        mirror: r.once_in(2),
        scale,
        radius: 0.5,
        cut: cuts::LEAST,
        limit: 0,
        rounds: r.whole(2, 20) as u32,
        rotation: narrowed(&attitude),
        spots: Vec::new(),
        weights: Vec::new(),
        matches: (0..n as u32).map(|i| [i, i]).collect(),
        directions: Vec::new(),
    };
    for _ in 0..n {
        let side = r.pick(&[1.0, -1.0]);
        let (x, y) = (side * r.between(far, 2.0 * far), r.between(-far, far));
        e.spots.push([x + 0.01 * r.normal(), y + 0.01 * r.normal()]);
        e.directions.push(direction(&attitude, scale * x, scale * y));
    }
    e
}
