//! Seeded exposure records of many kinds.

pub mod cuts;
pub mod exposure;
pub mod faults;
pub mod field;
pub mod late;
pub mod rng;
pub mod runs;
pub mod tilted;
pub mod weighted;
pub mod weights;

use exposure::Exposure;
use rng::Rng;
use weights::weighed;

/// Set the cut's numbers, and the weights', apart from the others of the same
/// seed.
const CUTS: u64 = 0x9C07_C07C;
const WEIGHTS: u64 = 0x3E16_4875;

/// A kind: its name, its share among all, and how a record of it is made of
/// three sources of numbers, the second for the cut, the third for the weights.
pub struct Kind {
    pub name: &'static str,
    pub share: u64,
    make: fn(&mut Rng, &mut Rng, &mut Rng) -> Vec<u8>,
}

/// An exposure whose kind is not about the cut: any within its range.
fn cut(e: Exposure, c: &mut Rng) -> Exposure {
    Exposure { cut: cuts::drawn(c), ..e }
}

/// A record whose kind is about neither the cut nor the weights.
fn usual(e: Exposure, c: &mut Rng, w: &mut Rng) -> Vec<u8> {
    weighed(cut(e, c), w).bytes()
}

macro_rules! kinds {
    ($($name:literal $share:literal $make:expr;)*) => {
        pub const KINDS: &[Kind] = &[$(Kind { name: $name, share: $share, make: $make }),*];
    };
}

kinds! {
    "field" 20 |r, c, w| usual(runs::field(r), c, w);
    "poor" 6 |r, c, w| usual(runs::poor(r), c, w);
    "clipped" 8 |r, c, w| usual(runs::clipped(r), c, w);
    "drifting" 8 |r, c, w| usual(runs::drifting(r), c, w);
    "polar" 6 |r, c, w| usual(runs::polar(r), c, w);
    "backwards" 6 |r, c, w| usual(runs::backwards(r), c, w);
    "tied" 6 |r, c, w| usual(runs::tied(r), c, w);
    "gridded" 6 |r, c, w| usual(runs::gridded(r), c, w);
    "brimful" 2 |r, c, w| usual(late::brimful(r), c, w);
    "grazing" 4 |r, c, w| weighed(runs::grazing(r, c), w).bytes();
    "tilted" 8 |r, c, w| weighed(tilted::tilted(r, c), w).bytes();
    "weighted" 10 |r, c, w| cut(weighted::weighted(r, w), c).bytes();
    "narrow" 5 |r, c, w| usual(runs::narrow(r), c, w);
    "crowded" 4 |r, c, w| usual(runs::crowded(r), c, w);
    "wild" 8 |r, c, w| usual(runs::wild(r), c, w);
    "behind" 4 |r, c, w| weighed(runs::behind(r, c), w).bytes();
    "empty" 2 |r, c, w| usual(runs::empty(r), c, w);
    "pointlike" 3 |r, c, w| usual(late::pointlike(r), c, w);
    "late-12" 2 |r, c, w| usual(late::late_12(r), c, w);
    "late-13" 2 |r, c, w| usual(late::late_13(r), c, w);
    "bounds" 7 |r, c, w| faults::bounds(r, c, w).bytes();
    "several" 2 |r, c, w| faults::several(r, c, w).bytes();
    "holding" 3 |r, c, w| cut(faults::holding(r, w), c).bytes();
    "damaged" 9 |r, c, w| faults::damaged(r, c, w);
    // Longer than a record may be: only by name, for calls at full limits.
    "full-size" 0 |r, c, w| usual(faults::full_size(r), c, w);
}

/// Record number `item` of a seed, of any kind or of the one named, with its
/// kind's name.
pub fn record(seed: u64, item: u64, kind: Option<&str>) -> Option<(&'static str, Vec<u8>)> {
    let [mut r, mut c, mut w] = [0, CUTS, WEIGHTS].map(|apart| Rng::new(seed ^ apart, item));
    let all: u64 = KINDS.iter().map(|k| k.share).sum();
    let mut ticket = r.below(all);
    let chosen = match kind {
        Some(name) => KINDS.iter().find(|k| k.name == name)?,
        None => KINDS.iter().find(|k| {
            let won = ticket < k.share;
            ticket = ticket.wrapping_sub(k.share);
            won
        })?,
    };
    Some((chosen.name, (chosen.make)(&mut r, &mut c, &mut w)))
}
