//! Kinds of exposures that reach the run and take it along different ways.

use crate::cuts;
use crate::exposure::Exposure;
use crate::field::{attitude, looking, narrowed, squarely, turned, Plan, SPOTS};
use crate::rng::Rng;
use crate::tilted::shorten;

/// An ordinary field.
pub fn field(r: &mut Rng) -> Exposure {
    Plan::ordinary(r).take(r)
}

/// So few spots or matches that steps stop short.
pub fn poor(r: &mut Rng) -> Exposure {
    let mut p = Plan::ordinary(r);
    p.pairs = r.whole(0, 7);
    p.strays = r.whole(0, 3);
    p.dark = r.whole(0, 3);
    p.elsewhere = r.whole(0, 3);
    p.matches = p.pairs;
    p.outliers = 0;
    p.wrong = 0;
    p.take(r)
}

/// Many matches with some far off: clips in rounds and, with few or no
/// rounds, in the closing.
pub fn clipped(r: &mut Rng) -> Exposure {
    let mut p = Plan::ordinary(r);
    p.pairs = r.whole(12, 60);
    p.strays = 0;
    p.matches = p.pairs;
    p.outliers = r.whole(1, p.pairs / 3);
    p.noise = r.pick(&[0.01, 0.2, 1.0]);
    p.far_off = r.between(2.0, 60.0);
    p.wrong = r.whole(0, 5);
    p.rounds = r.pick(&[0, 0, 1, 2, 6, 20]);
    p.take(r)
}

/// A field not much wider than the match radius, often far from the middle:
/// associations move the pose past the query's margins, and the directions
/// are queried again.
pub fn drifting(r: &mut Rng) -> Exposure {
    let mut p = Plan::ordinary(r);
    p.half = r.between(1.0, 40.0);
    if r.once_in(2) {
        p.middle = [p.half * r.between(0.0, 8.0), p.half * r.between(-4.0, 4.0)];
    }
    p.radius = p.half * r.between(0.1, 2.0);
    p.scale = r.size(-14, -5);
    p.tilt = p.scale * p.half * r.between(0.0, 2.0);
    p.roll = r.between(-3.0, 3.0);
    p.pairs = r.whole(4, 20);
    p.strays = r.whole(0, 8);
    p.dark = r.whole(0, 20);
    p.matches = r.whole(3, p.pairs.max(3));
    p.wrong = r.whole(0, p.matches);
    p.rounds = many_rounds(r);
    let mut e = p.take(r);
    if r.once_in(2) {
        // The farthest spot lies beyond the limit and counts nevertheless.
        e.limit = e.spots.len() as u32;
        let far = p.half * r.between(2.0, 40.0);
        e.spots.push([far, far * r.between(-1.0, 1.0)]);
    }
    e
}

/// A field so narrow that the f32 cosine of the query's radius is near 1, and
/// the rounding of each dot product decides what is listed.
pub fn narrow(r: &mut Rng) -> Exposure {
    let mut p = Plan::ordinary(r);
    p.scale = r.size(-29, -20);
    p.half = r.between(30.0, 600.0);
    p.radius = r.between(2.0, 60.0);
    p.pairs = r.whole(6, 40);
    p.strays = r.whole(0, 20);
    p.matches = r.whole(0, p.pairs);
    p.tilt = p.scale * p.radius * r.between(0.0, 1.0);
    p.take(r)
}

/// Near a pole theta and RA trade places from pass to pass.
pub fn polar(r: &mut Rng) -> Exposure {
    let mut p = Plan::ordinary(r);
    let side = r.pick(&[1.0, -1.0]);
    let off = p.scale * p.half * r.pick(&[0.0, 0.01, 0.5, 2.0]);
    let boresight = [off * r.normal(), off * r.normal(), side];
    p.attitude = looking(r, boresight);
    p.noise = r.pick(&[0.0, 0.3, 2.0]);
    p.wrong = r.whole(0, 4);
    p.rounds = r.whole(1, 30) as u32;
    p.take(r)
}

/// A start that faces exactly backwards, or along another axis, with exact
/// quarter or half turns and zeros of both signs in the rotation's rows.
pub fn backwards(r: &mut Rng) -> Exposure {
    let mut p = Plan::ordinary(r);
    let start = squarely(r);
    let off = if r.once_in(3) { 0.0 } else { 1.0 };
    let [about_x, about_y] = [0, 1].map(|_| off * p.tilt * r.normal());
    p.attitude = turned(&start, about_x, about_y, off * p.roll);
    let mut e = p.take(r);
    e.rotation = narrowed(&start).map(|c| if c == 0.0 { r.pick(&[0.0, -0.0]) } else { c });
    e
}

/// Spots and directions that occur twice, and spots on a grid: distances tie.
pub fn tied(r: &mut Rng) -> Exposure {
    let mut p = Plan::ordinary(r);
    p.pairs = r.whole(4, 24);
    p.strays = r.whole(0, 8);
    p.noise = 0.0;
    let mut e = p.take(r);
    for _ in 0..r.whole(1, 20) {
        let (spot, direction) = (r.pick(&e.spots), r.pick(&e.directions));
        e.spots.push(spot);
        e.directions.push(direction);
    }
    if r.once_in(3) {
        e.spots.iter_mut().flatten().for_each(|x| *x = x.round());
    }
    e
}

/// So many pairs within the radius that the candidate list is nearly or more
/// than full.
pub fn crowded(r: &mut Rng) -> Exposure {
    let mut p = Plan::ordinary(r);
    p.pairs = r.whole(20, 64);
    p.strays = SPOTS - p.pairs;
    p.dark = r.whole(60, 256 - p.pairs);
    p.elsewhere = 0;
    p.matches = r.whole(0, p.pairs.min(8));
    p.half = r.between(20.0, 300.0);
    p.radius = p.half * r.between(0.2, 0.8);
    p.limit = u32::MAX;
    p.take(r)
}

/// Numbers of any size within their ranges; nothing fits anything.
pub fn wild(r: &mut Rng) -> Exposure {
    let (spots, directions) = (r.whole(1, 24), r.whole(1, 40));
    let low = -(r.whole(1, 26) as i64);
    let wide = -(r.whole(1, 29) as i64);
    let size = r.whole(1, 40) as i64 - 20;
    let flat = r.once_in(6);
    let signed = |r: &mut Rng, low, high| r.size(low, high) * r.pick(&[1.0, -1.0]);
    let entry = |r: &mut Rng| signed(r, -6, 1) as f32;
    Exposure {
        mirror: r.once_in(2),
        scale: r.size(low, 0),
        radius: r.size(wide, 0) as f32,
        cut: cuts::LEAST,
        limit: r.whole(0, 30) as u32,
        rounds: many_rounds(r),
        rotation: [0; 9].map(|_| if flat { r.pick(&[0.0, -0.0, 1.0]) } else { entry(r) }),
        spots: (0..spots).map(|_| [signed(r, size - 8, size), signed(r, size - 8, size)]).collect(),
        weights: Vec::new(),
        matches: (0..r.whole(0, 20))
            .map(|_| [r.below(spots as u64) as u32, r.below(directions as u64) as u32])
            .collect(),
        directions: (0..directions).map(|_| [0; 3].map(|_| signed(r, -5, 1) as f32)).collect(),
    }
}

fn many_rounds(r: &mut Rng) -> u32 {
    if r.once_in(3) { 64 } else { r.whole(1, 64) as u32 }
}

/// Spots and predictions on whole pixels, exactly: many distances are equal,
/// and some equal the radius. The pose stays where it is until four match.
pub fn gridded(r: &mut Rng) -> Exposure {
    let scale = 1.0 / (1u64 << r.whole(8, 14)) as f64;
    let half = r.whole(2, 12) as f64;
    let place = |r: &mut Rng| [0, 1].map(|_| r.between(-half, half).round());
    let mut spots: Vec<[f64; 2]> = (0..r.whole(1, 40)).map(|_| place(r)).collect();
    let seen = |[x, y]: [f64; 2]| [1.0, (x * scale) as f32, (y * scale) as f32];
    let mut directions: Vec<[f32; 3]> = (0..r.whole(1, 60)).map(|_| seen(place(r))).collect();
    let counts = [spots.len() as u64, directions.len() as u64];
    let any = |r: &mut Rng| counts.map(|n| r.below(n) as u32);
    let radius = r.pick(&[0.5, 1.0, 2.0, 5.0]);
    if r.once_in(2) {
        // The farthest spot, and a prediction exactly one radius beyond it.
        spots.push([2.0 * half, 0.0]);
        directions.push(seen([2.0 * half + radius, 0.0]));
    }
    Exposure {
        mirror: r.once_in(2),
        scale,
        radius: (scale * radius) as f32,
        cut: cuts::LEAST,
        limit: r.whole(0, 45) as u32,
        rounds: r.whole(1, 8) as u32,
        rotation: [0.0, 1.0, 0.0, 0.0, 0.0, 1.0, 1.0, 0.0, 0.0],
        matches: (0..r.whole(0, 2)).map(|_| any(r)).collect(),
        spots,
        weights: Vec::new(),
        directions,
    }
}

/// Directions whose denominator is about the plane cut: nearly in the plane,
/// or so short that they lie within the field all the same. The start looks
/// exactly along the first axis, so that the first component is the
/// denominator.
pub fn grazing(r: &mut Rng, c: &mut Rng) -> Exposure {
    let cut = cuts::meeting(c);
    let scale = 1.0 / (1u64 << r.whole(2, 8)) as f64;
    let spots: Vec<[f64; 2]> =
        (0..r.whole(4, 20)).map(|_| [0, 1].map(|_| r.between(-6.0, 6.0).round())).collect();
    let mut directions = Vec::new();
    // Where each spot lies exactly at its direction, the pose stays as it is.
    let off = c.pick(&[0.0, 0.2]);
    for s in &spots {
        let at = cut * r.pick(&[0.99, 1.0, 1.01]);
        let size = if r.once_in(3) { at } else { r.size(-44, -18).max(cuts::about(c, cut)) };
        let [xi, eta] = s.map(|x| (x + off * r.normal()) * scale);
        directions.push(match r.below(4) {
            0 => [size, xi + 1.0, eta],
            1 | 2 => [size, size * xi, size * eta],
            _ => [1.0, xi, eta],
        });
    }
    let n = spots.len();
    Exposure {
        mirror: r.once_in(2),
        scale,
        // From about 0.4 on the query lists what lies at a right angle too.
        radius: r.pick(&[0.1, 0.4, 0.5, 1.0]),
        cut,
        limit: r.whole(0, 25) as u32,
        rounds: r.pick(&[0, 0, 1, 2, 10]),
        rotation: [0.0, 1.0, 0.0, 0.0, 0.0, 1.0, 1.0, 0.0, 0.0],
        matches: (0..r.whole(0, n)).map(|i| [i as u32, i as u32]).collect(),
        spots,
        weights: Vec::new(),
        directions: directions.into_iter().map(|d| d.map(|c: f64| c as f32)).collect(),
    }
}

/// Some or all matched directions lie behind the plane or in it, and some
/// directions are so short that their denominator is about the cut.
pub fn behind(r: &mut Rng, c: &mut Rng) -> Exposure {
    let mut p = Plan::ordinary(r);
    p.pairs = r.whole(6, 40);
    p.strays = r.whole(0, 20);
    p.matches = p.pairs;
    let mut e = p.take(r);
    let turn = r.whole(1, e.matches.len());
    for m in e.matches.iter().take(turn) {
        let d = &mut e.directions[m[1] as usize];
        *d = match r.below(3) {
            0 => d.map(|c| -c),
            1 => [0.0, -0.0, 0.0],
            _ => attitude(r)[2].map(|c| c as f32),
        };
    }
    e.cut = cuts::meeting(c);
    let seldom = c.pick(&[1, 3, 8]);
    shorten(c, &mut e, seldom);
    e
}

/// Lists without entries, and no rounds.
pub fn empty(r: &mut Rng) -> Exposure {
    let mut e = field(r);
    if r.once_in(2) {
        e.spots.clear();
        e.matches.clear();
    }
    if r.once_in(2) {
        e.directions.clear();
        e.matches.clear();
    }
    if r.once_in(2) {
        e.matches.clear();
    }
    if r.once_in(2) {
        e.rounds = 0;
    }
    e
}
