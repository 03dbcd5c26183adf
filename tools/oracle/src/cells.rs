//! `oracle cells`: the catalogue's cells, as the reference has them, beside
//! document 01's scan. Both use 01's f32 cosine for the threshold; the cells'
//! layout uses the host's f32 functions, so a difference is the cells' alone.

use std::f32::consts::FRAC_PI_2;

use reference::scan::scan;
use reference::starcatalog::StarCatalog;
use reference::vector::Vector3;
use reference::Star;

use crate::rng::Rng;
use crate::usage;

/// A query of a catalogue.
struct Query {
    nside: u32,
    stars: Vec<Star>,
    boresight: [f32; 3],
    radius: f32,
}

/// How many directions the scan lists, the cells lose and the cells add.
#[derive(Default)]
struct Tally {
    listed: usize,
    lost: usize,
    added: usize,
}

pub fn main(words: &[&str]) {
    if let ["one", bits @ ..] = words {
        compare(&given(bits), &mut Tally::default());
        return;
    }
    let (mut seed, mut trials) = (1, 2_000);
    for option in words.chunks(2) {
        let [name, value] = option else { usage() };
        let value = value.parse().unwrap_or_else(|_| usage());
        match *name {
            "--seed" => seed = value,
            "--trials" => trials = value,
            _ => usage(),
        }
    }
    search("ordinary", seed, trials, ordinary);
    search("narrow across a latitude edge", seed, trials, |r| narrow(r, Place::LatitudeEdge));
    search("narrow across a longitude edge", seed, trials, |r| narrow(r, Place::LongitudeEdge));
    search("narrow at a pole", seed, trials, |r| narrow(r, Place::Pole));
}

/// NSIDE in decimal; RA, Dec, three boresight components and radius by bits.
fn given(words: &[&str]) -> Query {
    let [nside, rest @ ..] = words else { usage() };
    let bits = |w: &&str| u32::from_str_radix(w, 16).unwrap_or_else(|_| usage());
    let floats: Vec<f32> = rest.iter().map(|w| f32::from_bits(bits(w))).collect();
    let [ra_rad, dec_rad, x, y, z, radius] = floats[..] else { usage() };
    let nside = nside.parse().unwrap_or_else(|_| usage());
    Query { nside, stars: vec![Star { ra_rad, dec_rad }], boresight: [x, y, z], radius }
}

fn search(name: &str, seed: u64, trials: u64, make: impl Fn(&mut Rng) -> Query) {
    let mut tally = Tally::default();
    for trial in 0..trials {
        compare(&make(&mut Rng::new(seed, trial)), &mut tally);
    }
    let Tally { listed, lost, added } = tally;
    println!("{name}: {trials} catalogues, {listed} listed, {lost} lost, {added} added by the cells");
}

/// Prints each direction that only one of the two lists.
fn compare(q: &Query, tally: &mut Tally) {
    let unit = |s: &Star| [0, 1, 2].map(|i| s.uvec()[i]);
    let directions: Vec<[f32; 3]> = q.stars.iter().map(unit).collect();
    let boresight = Vector3::from_array(q.boresight);
    let catalog = StarCatalog::new(q.nside, q.stars.clone());
    let scanned = scan(boresight, q.radius, &directions);
    let celled = catalog.query_cells(boresight, q.radius, Some(&directions));
    tally.listed += scanned.len();
    let missing = |from: &[usize], i: &usize| from.binary_search(i).is_err();
    for &i in scanned.iter().filter(|i| missing(&celled, i)) {
        tally.lost += 1;
        show("lost", q, i, &directions[i]);
    }
    for &i in celled.iter().filter(|i| missing(&scanned, i)) {
        tally.added += 1;
        show("added", q, i, &directions[i]);
    }
}

fn show(what: &str, q: &Query, i: usize, direction: &[f32; 3]) {
    let hex = |floats: &[f32]| {
        let words: Vec<String> = floats.iter().map(|f| format!("{:08X}", f.to_bits())).collect();
        words.join(" ")
    };
    println!(
        "{what}: nside {}, star {}, boresight {}, radius {}, direction {}",
        q.nside,
        hex(&[q.stars[i].ra_rad, q.stars[i].dec_rad]),
        hex(&q.boresight),
        hex(&[q.radius]),
        hex(direction),
    );
}

/// Stars all over the sky and a field of some degrees.
fn ordinary(r: &mut Rng) -> Query {
    let stars = (0..300).map(|_| star_at(r.between(-1.0, 1.0), r.between(0.0, 1.0))).collect();
    let boresight = star_at(r.between(-1.0, 1.0), r.between(0.0, 1.0)).uvec();
    Query {
        nside: 1 << r.below(6),
        stars,
        boresight: [0, 1, 2].map(|i| boresight[i]),
        radius: r.between(0.02, 0.6) as f32,
    }
}

/// A star at z = sin(dec) and a part of the full turn.
fn star_at(z: f64, turn: f64) -> Star {
    Star { ra_rad: (turn * std::f64::consts::TAU) as f32, dec_rad: z.asin() as f32 }
}

enum Place {
    LatitudeEdge,
    LongitudeEdge,
    Pole,
}

/// A field so narrow that the f32 cosine of its radius is near 1.
fn narrow(r: &mut Rng, place: Place) -> Query {
    let nside = 1 << r.below(6);
    let radius = 2f64.powf(r.between(-15.0, -7.0));
    let (dec, ra) = match place {
        Place::LatitudeEdge => {
            let edge = 1 + r.below(3 * nside as u64 - 1);
            let z = -1.0 + 2.0 * edge as f64 / (3 * nside) as f64;
            (z.asin(), r.between(0.0, 6.28))
        }
        Place::LongitudeEdge => {
            let edge = r.below(4 * nside as u64);
            (r.between(-1.4, 1.4), std::f64::consts::TAU * edge as f64 / (4 * nside) as f64)
        }
        Place::Pole => {
            let side = if r.below(2) == 0 { 1.0 } else { -1.0 };
            (side * (FRAC_PI_2 as f64 - radius * r.between(0.0, 2.0)), r.between(0.0, 6.28))
        }
    };
    let near = |r: &mut Rng, size: f64| Star {
        // No declination lies beyond a pole.
        dec_rad: ((dec + size * r.between(-1.0, 1.0)) as f32).clamp(-FRAC_PI_2, FRAC_PI_2),
        ra_rad: (ra + size * r.between(-1.0, 1.0) / dec.cos().max(size)) as f32,
    };
    let boresight = near(r, 1.2 * radius).uvec();
    let stars = (0..40).map(|_| near(r, 2.2 * radius)).collect();
    Query { nside, stars, boresight: [0, 1, 2].map(|i| boresight[i]), radius: radius as f32 }
}
