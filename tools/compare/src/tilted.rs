//! Fields of tilted mounts: so wide that directions near the projection plane
//! fall on spots far from the middle, and a cut that drops some of them.

use crate::cuts;
use crate::exposure::Exposure;
use crate::field::{attitude, direction, narrowed, turned, Rows};
use crate::rng::Rng;

/// A cut that takes part in every step: starting matches, listed directions
/// and predictions lie on both sides of it, and change sides with the pose.
pub fn tilted(r: &mut Rng, c: &mut Rng) -> Exposure {
    let attitude = attitude(r);
    let mut e = empty(r, c, &attitude);
    let (pairs, aside) = (r.whole(4, 40), r.pick(&[0.0, 0.01, 0.1]));
    let seldom = r.pick(&[2, 4, 8]);
    for _ in 0..pairs {
        let [xi, eta] = place(r, c, e.cut, seldom);
        e.spots.push([xi, eta].map(|at| at / e.scale + aside * r.normal()));
        e.directions.push(direction(&attitude, xi, eta));
    }
    // Spots without a direction, and directions without a spot.
    for _ in 0..r.whole(0, 8) {
        e.spots.push(place(r, c, e.cut, seldom).map(|at| at / e.scale));
        let [xi, eta] = place(r, c, e.cut, seldom);
        e.directions.push(direction(&attitude, xi, eta));
    }
    let matched = r.pick(&[0, 3, 6, pairs, pairs]).min(pairs) as u32;
    e.matches = (0..matched).map(|i| [i, i]).collect();
    if r.once_in(3) {
        let seldom = r.pick(&[2, 5]);
        shorten(c, &mut e, seldom);
    }
    e
}

/// The numbers of an exposure, with a start a little off, and no lists yet.
fn empty(r: &mut Rng, c: &mut Rng, attitude: &Rows) -> Exposure {
    let tilt = r.pick(&[0.0, 1e-4, 1e-3, 1e-2, 3e-2]);
    let start = turned(attitude, tilt * r.normal(), tilt * r.normal(), tilt * r.normal());
    Exposure {
        mirror: r.once_in(2),
        scale: r.size(-6, -2),
        radius: r.pick(&[0.05, 0.1, 0.3, 0.6, 1.0]),
        cut: cuts::large(c),
        limit: if r.once_in(4) { r.whole(0, 50) as u32 } else { 64 },
        rounds: r.pick(&[0, 1, 2, 3, 4, 12]),
        rotation: narrowed(&start),
        spots: Vec::new(),
        weights: Vec::new(),
        matches: Vec::new(),
        directions: Vec::new(),
    }
}

/// A place in the tangent plane: in the middle, or, once in so many, where the
/// denominator of a unit direction is about the cut.
fn place(r: &mut Rng, c: &mut Rng, cut: f64, seldom: u64) -> [f64; 2] {
    let middle = [0, 1].map(|_| r.between(-0.8, 0.8));
    if !r.once_in(seldom) {
        return middle;
    }
    let denominator = cuts::about(c, cut).min(0.999);
    let far = (1.0 / (denominator * denominator) - 1.0).sqrt();
    let length = (middle[0] * middle[0] + middle[1] * middle[1]).sqrt().max(1e-3);
    middle.map(|at| far * at / length)
}

/// Makes the denominators of some directions, once in so many, about the cut
/// at the start: they are shorter, and fall where they fell.
pub fn shorten(c: &mut Rng, e: &mut Exposure, seldom: u64) {
    let ahead = [6, 7, 8].map(|i| e.rotation[i] as f64);
    for d in e.directions.iter_mut() {
        let [x, y, z] = d.map(|x| x as f64);
        let denominator = ahead[0] * x + ahead[1] * y + ahead[2] * z;
        if c.once_in(seldom) && denominator > 0.1 {
            // Never so long that refusal 9 is met.
            let by = (cuts::about(c, e.cut) / denominator).min(1.9);
            *d = [x, y, z].map(|x| (by * x) as f32);
        }
    }
}
