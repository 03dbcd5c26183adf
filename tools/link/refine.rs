//! Reads an exposure record on standard input, refines its pose with the linked library and prints the answer.

// The comparisons are not printed.
#[allow(dead_code)]
mod raqembu;

use std::io::{self, Read, Write};

use raqembu::{read_record, Answer, Lists, Matcher, Refusal, SPOT_NUMBERS};

const SPOTS: usize = 64;
const MATCHES: usize = 64;
const DIRECTIONS: usize = 256;
const WORKING: usize = 16 * (SPOTS + MATCHES + DIRECTIONS);

/// Floats as their bits; every NaN is printed as the same one.
fn bits(list: &[f64]) -> String {
    let bits_of = |x: &f64| if x.is_nan() { 0x7FF8_0000_0000_0000 } else { x.to_bits() };
    list.iter().map(|x| format!(" {:016X}", bits_of(x))).collect()
}

/// The answer to a record by a matcher, and its matches. The one that scans is lent no place for a pair.
fn refined(record: &[u8], matcher: Matcher) -> Result<(Answer, Vec<usize>), Refusal> {
    let (mut spots, mut matches, mut directions) = ([0.0; SPOT_NUMBERS * SPOTS], [0; 2 * MATCHES], [0.0; 3 * DIRECTIONS]);
    let mut h = read_record(record, &mut spots, &mut matches, &mut directions)?;
    h.setting.matcher = matcher;
    let pairs = if matcher == Matcher::Scanning { 0 } else { 2048 };
    let mut lists = Lists {
        numbers: &mut [0; WORKING],
        floats: &mut [0.0; WORKING],
        distances: &mut [0.0; 4096][..2 * pairs],
        indices: &mut [0; 8192][..4 * pairs],
        result: &mut [0; 2 * MATCHES],
    };
    let (spots, matches, directions) = (&spots[..SPOT_NUMBERS * h.spots], &matches[..2 * h.matches], &directions[..3 * h.directions]);
    let answer = lists.refine(spots, matches, directions, &h.setting)?;
    Ok((answer, lists.result[..2 * answer.matches].to_vec()))
}

fn main() -> io::Result<()> {
    // One byte more than a record may have, so that a longer one is seen as such.
    let mut record = Vec::new();
    io::stdin().lock().take(65_537).read_to_end(&mut record)?;
    let mut out = io::stdout().lock();
    let matcher = if std::env::args().nth(1).as_deref() == Some("scanning") { Matcher::Scanning } else { Matcher::Listing };
    match refined(&record, matcher) {
        Err(refusal) => writeln!(out, "{refusal}"),
        Ok((a, matches)) => {
            writeln!(out, "ok {} {} {} {}", a.matches, a.rounds, a.passes, a.queries)?;
            writeln!(out, "pose{}\ncd{}\nrms{}\ncov{}", bits(&a.pose), bits(&a.cd), bits(&[a.rms]), bits(&a.cov))?;
            matches.chunks(2).try_for_each(|m| writeln!(out, "m {} {}", m[0], m[1]))
        }
    }
}
