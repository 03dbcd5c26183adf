//! Holds the static library's refinement call to the reference Rust: the answer bit for bit, the counts, and every list written to.

mod linked;
mod ordering;
mod timing;

use std::collections::BTreeMap;

use exposures::{record, rng::Rng};
use linked::{refine, Lists, Said};
use reference::answer::bits;
use reference::call::{self, Answer, Lent};
use reference::record::{read_any, Exposure, SPOT_NUMBERS};

const USAGE: &str = "library [--count N] [--kind NAME] [--full N] [--seed N] [--scanning | --listing] [--time] [--growth] [--scan-times]";

/// Sets the choice of the matcher, and what candidate lists it is lent, apart from the other numbers of the same seed.
const CHOICES: u64 = 0x5CA1_1157;

/// The choice of a call, unless it is settled for all: one in three scans. Half of these are lent candidate lists without a place.
fn chosen(r: &mut Rng, l: &mut Lists, scanning: Option<bool>) {
    l.scanning = r.once_in(3);
    if let Some(settled) = scanning {
        l.scanning = settled;
    }
    if l.scanning && r.once_in(2) {
        l.distances.clear();
        l.indices.clear();
    }
}

/// Lists filled with what must not matter, of lengths that vary about the needed ones.
fn lent(r: &mut Rng, e: &Exposure, pairs: usize) -> Lists {
    let (spots, matches) = (e.spots.len() / SPOT_NUMBERS, e.matches.len() / 2);
    let n = 16 * (spots + matches + e.directions.len() / 3);
    let most = 2 * matches.max(spots.min(e.limit));
    let mut about = |n: usize| match r.below(40) {
        0 => n.saturating_sub(1),
        1..=9 => n,
        _ => n + r.below(9) as usize,
    };
    let (numbers, floats, result) = (about(n), about(n), about(most));
    let (distances, indices) = match r.below(8) {
        0 => (r.below(40) as usize, r.below(80) as usize),
        1 => (2 * pairs + 1, 4 * pairs + 3),
        _ => (2 * pairs, 4 * pairs),
    };
    let whole = |n: usize| (0..n).map(|i| i.wrapping_mul(0x9E37_79B9) ^ 5).collect::<Vec<_>>();
    let float = |n: usize| (0..n).map(|i| if i % 7 == 3 { f64::NAN } else { i as f64 - 0.5 }).collect::<Vec<_>>();
    Lists {
        numbers: whole(numbers),
        floats: float(floats),
        distances: float(distances),
        indices: whole(indices),
        result: whole(result),
        counts: whole(5),
        scanning: false,
    }
}

/// Now and then a list is spoiled as no record can spoil it.
fn spoil(r: &mut Rng, e: &mut Exposure) {
    if !r.once_in(25) {
        return;
    }
    match r.below(7) {
        0 => e.spots.truncate(e.spots.len().saturating_sub(r.whole(1, SPOT_NUMBERS - 1))),
        1 => drop(e.matches.pop()),
        2 => drop(e.directions.pop()),
        3 => e.limit = usize::MAX,
        4 => e.rounds = u64::MAX,
        5 => e.spots.chunks_exact_mut(SPOT_NUMBERS).for_each(|spot| spot[2] = -spot[2]),
        _ => e.matches.iter_mut().for_each(|m| *m = m.wrapping_sub(1)),
    }
}

fn same(a: f64, b: f64) -> bool {
    bits(a) == bits(b)
}

fn same_floats(a: &[f64], b: &[f64]) -> bool {
    a.len() == b.len() && a.iter().zip(b).all(|(a, b)| same(*a, *b))
}

/// The eighteen values of an answer, in the library's order.
fn values(a: &Answer) -> Vec<f64> {
    let w = &a.result;
    let mut v = vec![w.theta_rad, w.crval_rad[0], w.crval_rad[1], w.pixel_scale];
    v.extend(w.cd_matrix.iter().flatten());
    v.push(w.rmse_rad);
    v.extend(w.covariance.iter().flatten());
    v
}

/// Matches, rounds, passes, queries and comparisons, as many as the list has places for; nothing is written after them.
fn counted(was: &[usize], counts: [u64; 5]) -> Vec<usize> {
    let mut list = was.to_vec();
    list.iter_mut().zip(counts).for_each(|(place, n)| *place = n as usize);
    list
}

/// What differs between the library's answer and lists and those that are due.
fn difference(was: &Lists, now: &Lists, said: &Said, due: &Result<Answer, u8>) -> Option<String> {
    let zero = |l: &Lists| {
        l.numbers.iter().all(|x| *x == 0)
            && l.indices.iter().all(|x| *x == 0)
            && l.floats.iter().chain(&l.distances).all(|x| x.to_bits() == 0)
    };
    let untouched = now.numbers == was.numbers
        && now.indices == was.indices
        && same_floats(&now.floats, &was.floats)
        && same_floats(&now.distances, &was.distances);
    match due {
        Err(n) => {
            // Only 12 and 13 are met in the run.
            let lists = now.result == was.result && if matches!(n, 12 | 13) { zero(now) } else { untouched };
            let nothing = now.counts == counted(&was.counts, [0; 5]) && said.values.iter().all(|v| v.to_bits() == 0);
            (said.refusal != *n as usize || !lists || !nothing)
                .then(|| format!("refused {n}, here {}; lists {lists}, values zero {nothing}", said.refusal))
        }
        Ok(a) => {
            let flat: Vec<usize> = a.result.matches.iter().flat_map(|m| [m.0, m.1]).collect();
            let [rounds, passes, queries] = a.counts;
            let counts = counted(&was.counts, [a.result.matches.len() as u64, rounds, passes, queries, a.comparisons()]);
            let mut result = was.result.clone();
            result[..flat.len()].copy_from_slice(&flat);
            let lists = now.result == result && zero(now);
            let answer = now.counts == counts && same_floats(&said.values, &values(a));
            (said.refusal != 0 || !lists || !answer)
                .then(|| format!("accepted, here {}; lists {lists}, answer {answer}: {:?} for {counts:?}", said.refusal, now.counts))
        }
    }
}

/// The same call with another number of places for counts: four, as firmware lends that was built before there was a fifth, or any up to seven.
fn fewer_counts(r: &mut Rng, e: &Exposure, was: &Lists, due: &Result<Answer, u8>) -> Option<String> {
    let places = if r.once_in(2) { 4 } else { r.below(8) as usize };
    let was = Lists { counts: vec![5; places], ..was.clone() };
    let mut now = was.clone();
    let said = refine(e, &mut now);
    difference(&was, &now, &said, due).map(|d| format!("with {places} places for counts: {d}"))
}

fn due(e: &Exposure, l: &Lists) -> Result<Answer, u8> {
    let lent = Lent {
        wholes: l.numbers.len(),
        floats: l.floats.len(),
        result: l.result.len(),
        distances: l.distances.len(),
        indices: l.indices.len(),
        scanning: l.scanning,
        cells: None,
    };
    call::refine(e, &lent, false)
}

/// Calls of seeded records: of all kinds, or of one; of either matcher, or of one.
fn compare(seed: u64, count: u64, kind: Option<&str>, pairs: usize, scanning: Option<bool>) {
    let (mut calls, mut different, mut item) = (0, 0, 0);
    let mut answers: BTreeMap<String, u64> = BTreeMap::new();
    while calls < count {
        let (name, bytes) = record(seed, item, kind).expect(USAGE);
        item += 1;
        let Ok(mut e) = read_any(&bytes) else { continue };
        calls += 1;
        let mut r = Rng::new(seed ^ 0x5EED, item);
        spoil(&mut r, &mut e);
        let mut was = lent(&mut r, &e, pairs);
        chosen(&mut Rng::new(seed ^ CHOICES, item), &mut was, scanning);
        let mut now = was.clone();
        let said = refine(&e, &mut now);
        let due = due(&e, &was);
        let matcher = if was.scanning { "scanning" } else { "listing" };
        let key = match &due {
            Ok(a) => format!("{matcher}: accepted, {} rounds, {} queries", a.counts[0].min(3), a.counts[2].min(3)),
            Err(n) => format!("{matcher}: refused {n:2}"),
        };
        *answers.entry(key).or_default() += 1;
        due.iter().flat_map(ordering::told).for_each(|name| *answers.entry(name.into()).or_default() += 1);
        let again = r.once_in(20).then(|| fewer_counts(&mut r, &e, &was, &due)).flatten();
        if let Some(d) = difference(&was, &now, &said, &due).or(again) {
            different += 1;
            if different < 10 {
                println!("item {} of seed {seed}, {name}: {d}", item - 1);
            }
        }
    }
    println!("{}: {calls} calls, {different} different", kind.unwrap_or("all kinds"));
    for (key, n) in answers {
        println!("    {key}: {n}");
    }
}

fn main() {
    let (mut seed, mut count, mut full) = (1, 0, 0);
    let (mut timed, mut growth, mut scans, mut kind, mut scanning) = (false, false, false, None, None);
    let mut words = std::env::args().skip(1);
    while let Some(word) = words.next() {
        let mut value = || words.next().expect(USAGE);
        let number = |value: String| value.parse().expect(USAGE);
        match word.as_str() {
            "--time" => timed = true,
            "--growth" => growth = true,
            "--scan-times" => scans = true,
            "--scanning" => scanning = Some(true),
            "--listing" => scanning = Some(false),
            "--kind" => kind = Some(value()),
            "--seed" => seed = number(value()),
            "--count" => count = number(value()),
            "--full" => full = number(value()),
            _ => panic!("{USAGE}"),
        }
    }
    if count > 0 {
        compare(seed, count, kind.as_deref(), 2048, scanning);
    }
    if full > 0 {
        // At full size a scan takes too long.
        compare(seed, full, Some("full-size"), 1 << 20, Some(false));
    }
    if timed {
        timing::sizes();
    }
    if growth {
        timing::growth();
    }
    if scans {
        timing::scanning();
    }
}
