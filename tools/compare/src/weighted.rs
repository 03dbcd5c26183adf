//! Fields whose weights decide.

use crate::exposure::Exposure;
use crate::field::{Plan, SPOTS};
use crate::rng::Rng;
use crate::weights::{any, each, faint, GREATEST};

/// A field with outliers among its matches and weights over their whole range.
/// In most of them what does not stand at its direction is faint, as a careful
/// panel would have it; what is left may be of any weight, of one, or heavy.
pub fn weighted(r: &mut Rng, w: &mut Rng) -> Exposure {
    let mut p = Plan::ordinary(r);
    p.pairs = r.whole(6, 48);
    p.strays = r.whole(0, SPOTS - p.pairs);
    p.matches = r.whole(4, p.pairs);
    p.outliers = r.whole(1, p.pairs / 3);
    p.noise = r.pick(&[0.05, 0.3, 1.0]);
    let (mut e, astray) = p.taken(r);
    let others: [fn(&mut Rng) -> f64; 4] = [any, any, |_| 1.0, |_| GREATEST];
    let other = w.pick(&others);
    e.weights = each(w, e.spots.len(), other);
    let spread = w.once_in(4);
    for i in astray {
        e.weights[i] = if spread { any(w) } else { faint(w) };
    }
    e
}
