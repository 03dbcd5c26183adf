//! `oracle differences`: what the reference itself does on the inputs of the
//! first table of docs/DIFFERENCES.md. No refusal is given here: 5 to 11, 14 and
//! 17 are not looked for, and 12 and 13 are switched off within the run.

use std::any::Any;
use std::hint::black_box;
use std::panic::{catch_unwind, resume_unwind, set_hook, AssertUnwindSafe};

use reference::answer::bits;
use reference::call::{Answer, Lent, Prepared, LEAST_CUT};
use reference::plain_stats;
use reference::record::{read_any, Exposure, SPOT_NUMBERS};
use reference::solver::matching::{greedy_unique_matches, MatchScratch};
use reference::solver::wcs_refine::covariance_from_normal;

use crate::exposure::encoded;

/// The calls of crates/calls/specs/SecondQuery.antt and FarTurn.antt with every
/// weight 1, and one whose matches change in every round, as records.
const SECOND_QUERY: &str = "\
    0500040080808080808080A83FEFA48CD40391D4B78998F3E5B83D05038080808008808080FC030000808080800880\
    8080FC03808080FC0300008080808080809C9240808080808080A0F2BF0180808080808080F83F808080808080EC8F\
    C00180808080808098894080808080808080F83F8080808080808083408080808080808E934080808080808080F83F\
    808080808080E886C0018080808080808492C00180808080808080F83F80808080808080A7400080808080808080F8\
    3F808080FC038AAE8FE10300808080FC03EFA48CE00BEFA48CDC03808080FC03EFA48CD803D8F2D0E103808080FC03\
    A6B792DA0B8AAE8FE10B";
const FAR_TURN: &str = "\
    0303030080808080808080A83F8AAE8FE10391D4B78998F3E5B83D03028080808008808080FC030000808080800880\
    8080FC03808080FC030000000080808080808080F83F80808080808080D83E0080808080808080F83F008080808080\
    8080D83E80808080808080F83F000001010202808080FC038AAE8FE10300808080FC03EFA48CE00BEFA48CDC038080\
    80FC03EFA48CD803D8F2D0E103";
const EVER_OTHER: &str = "\
    0501050180808080808080C83F808080F80391D4B78998F3E5B83D044000808080FC03000000808080FC03808080FC\
    030000808080808080808A408080808080808080C00180808080808080F83F80808080808080804080808080808080\
    F8BF0180808080808080F83F80808080808080884080808080808080F83F80808080808080F83F80808080808080F8\
    3F8080808080808080C00180808080808080F83F8080808080808080C00180808080808080804080808080808080F8\
    3F0000808080FC0396EFE5EC03C3DFD6E80B808080FC038097A4E80389C1AFE40BCEB2B1CC028DF79FFC03BDFDB0E2\
    03EDF3A1A0039BF09C8703FCD0B88C0BA6E4A99103A582DFFC0AE4DB94FD02";

/// A spot in the middle, of weight 1.
const MIDDLE: [f64; SPOT_NUMBERS] = [0.0, 0.0, 1.0];

/// Lists of any length.
const ANY: Lent = Lent {
    wholes: usize::MAX,
    floats: usize::MAX,
    result: usize::MAX,
    distances: usize::MAX,
    indices: usize::MAX,
    scanning: false,
    cells: None,
};

pub fn main() {
    // A panic is an answer here, not a fault.
    set_hook(Box::new(|_| {}));
    statistics();
    float_methods();
    matches_that_name_nothing();
    call("many-pairs", "", &many_pairs());
    call("far-turn", "", &recorded(FAR_TURN));
    not_finite();
    cuts_outside();
    weights_outside();
    more_than_refusal_6_has();
    numbers_of_directions();
    covariance_of_many();
}

/// Two lines: the row's name with its input, and what comes of it.
fn row(name: &str, input: &str, work: impl FnOnce() -> String) {
    let said = catch_unwind(AssertUnwindSafe(work));
    let said = said.unwrap_or_else(|fault| format!("panics: {}", message(&*fault)));
    println!("{name}: {input}\n  {said}");
}

fn message(fault: &(dyn Any + Send)) -> &str {
    let formatted = fault.downcast_ref::<String>().map(String::as_str);
    formatted.or(fault.downcast_ref::<&str>().copied()).unwrap_or("no text")
}

/// Floats by the bits that the processor holds, NaNs as well.
fn raw(values: &[f64]) -> String {
    let words: Vec<String> = values.iter().map(|x| format!("{:016X}", x.to_bits())).collect();
    words.join(" ")
}

fn statistics() {
    let signed = [1.0, f64::from_bits(0xFFF8_0000_0000_0000)];
    row("nan-order", &format!("median_mad_sigma {}", raw(&signed)), || {
        let (median, sigma) = plain_stats::median_mad_sigma(&mut signed.clone());
        raw(&[median, sigma])
    });
    left_by_the_median(&[1.0, 4.0]);
    left_by_the_median(&[3.0, 1.0, 2.0, 6.0, 5.0, 4.0]);
}

fn left_by_the_median(values: &[f64]) {
    row("list-left", &format!("median_mad_sigma {}", raw(values)), || {
        let mut list = values.to_vec();
        plain_stats::median_mad_sigma(&mut list);
        format!("list {}", raw(&list))
    });
}

fn float_methods() {
    let negative = black_box(-1.0f64);
    row("nan-bits", &format!("sqrt {}", raw(&[negative])), || raw(&[negative.sqrt()]));
    let [x, low, high] = black_box([2.0f64, 3.0, 1.0]);
    row("crossed-clamp", &format!("clamp {}", raw(&[x, low, high])), || raw(&[x.clamp(low, high)]));
}

/// One spot and one direction: a match past the spots whose direction is in
/// front, the same with its direction behind, and one past the directions.
fn matches_that_name_nothing() {
    let nothing = |z: f32, matches: [usize; 2]| Exposure {
        spots: MIDDLE.to_vec(),
        directions: vec![0.0, 0.0, z],
        matches: matches.to_vec(),
        ..ahead()
    };
    call("match-of-nothing", "match (1, 0), direction in front, ", &nothing(1.0, [1, 0]));
    call("match-of-nothing", "match (1, 0), direction behind, ", &nothing(-1.0, [1, 0]));
    call("match-of-nothing", "match (0, 1), ", &nothing(1.0, [0, 1]));
}

/// Looking along the third axis, with lawful numbers and empty lists.
fn ahead() -> Exposure {
    Exposure {
        scale: 1.0 / 1024.0,
        radius: 1.0 / 128.0,
        cut: LEAST_CUT,
        limit: 4_097,
        rounds: 1,
        rotation: [1.0, 0.0, 0.0, 0.0, 1.0, 0.0, 0.0, 0.0, 1.0],
        ..Exposure::default()
    }
}

fn recorded(hex: &str) -> Exposure {
    let byte = |at: usize| u8::from_str_radix(&hex[at..at + 2], 16).expect("hexadecimal");
    let bytes: Vec<u8> = (0..hex.len()).step_by(2).map(byte).collect();
    read_any(&bytes).unwrap_or_else(|refusal| panic!("refusal {refusal}"))
}

/// The call of crates/calls/specs/ManyPairs.antt, whose lists have room for 4.
fn many_pairs() -> Exposure {
    Exposure { radius: 0.03, rounds: 2, ..recorded(SECOND_QUERY) }
}

/// A call by its record.
fn call(name: &str, about: &str, e: &Exposure) {
    let bytes: String = encoded(&numbers(e)).iter().map(|b| format!("{b:02X}")).collect();
    row(name, &format!("{about}record {bytes}"), || ran(e));
}

/// The numbers of a call's record, in their order.
fn numbers(e: &Exposure) -> Vec<u64> {
    let counts = [e.spots.len() / SPOT_NUMBERS, e.matches.len() / 2, e.directions.len() / 3];
    let mut all: Vec<u64> = counts.iter().map(|&n| n as u64).collect();
    all.push(e.mirror as u64);
    all.extend([e.scale.to_bits(), e.radius.to_bits() as u64, e.cut.to_bits()]);
    all.extend([e.limit as u64, e.rounds]);
    all.extend(e.rotation.iter().map(|x| x.to_bits() as u64));
    all.extend(e.spots.iter().map(|x| x.to_bits()));
    all.extend(e.matches.iter().map(|&i| i as u64));
    all.extend(e.directions.iter().map(|x| x.to_bits() as u64));
    all
}

/// The counts, the pose and the last match of the reference's own run.
fn ran(e: &Exposure) -> String {
    let Answer { result, counts: [rounds, passes, queries], .. } =
        Prepared::new(e, &ANY).run_unrefused().unwrap_or_else(|fault| resume_unwind(fault));
    let [ra, dec] = result.crval_rad;
    let pose = [result.theta_rad, ra, dec, result.pixel_scale].map(|x| format!("{:016X}", bits(x)));
    let last = |(s, d): &(usize, usize)| format!(", last match {s} {d}");
    let last = result.matches.last().map_or(String::new(), last);
    let count = result.matches.len();
    format!("ok {count} {rounds} {passes} {queries}, pose {}{last}", pose.join(" "))
}

/// A NaN and an infinity in each place of the second query's call.
fn not_finite() {
    let call_with = |place: &str, change: &dyn Fn(&mut Exposure, f64)| {
        for (what, x) in [("NaN", f64::NAN), ("infinite", f64::INFINITY)] {
            let mut e = recorded(SECOND_QUERY);
            change(&mut e, x);
            call("not-finite", &format!("{place} {what}, "), &e);
        }
    };
    call("not-finite", "all finite, ", &recorded(SECOND_QUERY));
    call_with("spot", &|e, x| e.spots[0] = x);
    call_with("direction", &|e, x| e.directions[1] = x as f32);
    call_with("rotation", &|e, x| e.rotation[6] = x as f32);
    call_with("scale", &|e, x| e.scale = x);
    call_with("radius", &|e, x| e.radius = x as f32);
}

/// The second query's call with a cut below the least, one that drops every
/// direction, and one that drops none.
fn cuts_outside() {
    for (what, cut) in [("0", 0.0), ("1", 1.0), ("NaN", f64::NAN)] {
        let e = Exposure { cut, ..recorded(SECOND_QUERY) };
        call("cut-outside", &format!("cut {what}, "), &e);
    }
}

/// The second query's call with a weight outside its range: the first spot's.
fn weights_outside() {
    let not_finite = [("NaN", f64::NAN), ("infinite", f64::INFINITY)];
    for (what, weight) in [("0", 0.0), ("-1", -1.0), ("2048", 2048.0)].into_iter().chain(not_finite) {
        let mut e = recorded(SECOND_QUERY);
        e.spots[2] = weight;
        call("weight-outside", &format!("weight {what}, "), &e);
    }
}

/// One more of each than refusal 6 lets pass, the last of each in use. What is
/// not named is as in the first of the matches that name nothing.
fn more_than_refusal_6_has() {
    call("too-many", "65 rounds, ", &Exposure { rounds: 65, ..recorded(EVER_OTHER) });
    let one = Exposure { spots: MIDDLE.to_vec(), directions: vec![0.0, 0.0, 1.0], ..ahead() };
    let spots = Exposure { spots: MIDDLE.repeat(4_097), matches: vec![4_096, 0], ..one.clone() };
    let input = format!("4097 spots {}, match (4096, 0)", raw(&MIDDLE));
    row("too-many", &input, || ran(&spots));
    let matches = Exposure { matches: vec![0; 2 * 4_097], ..one.clone() };
    row("too-many", "4097 matches (0, 0)", || ran(&matches));
    let directions =
        Exposure { directions: [0.0, 0.0, 1.0].repeat(65_537), matches: vec![0, 65_536], ..one };
    let input = "65537 directions 00000000 00000000 3F800000, match (0, 65536)";
    row("too-many", input, || ran(&directions));
}

fn numbers_of_directions() {
    let [origin, one] = [raw(&[0.0; 2]), raw(&[1.0])];
    let points = format!("spot {origin}, prediction of direction 7 {origin}, squared radius {one}");
    row("direction-number", &format!("greedy_unique_matches, {points}"), || {
        let mut scratch = MatchScratch::default();
        let matches = greedy_unique_matches(&[(0.0, 0.0)], 1, &[(7, 0.0, 0.0)], 1.0, &mut scratch);
        format!("matches {matches:?}")
    });
}

fn covariance_of_many() {
    let identity = [[1.0, 0.0, 0.0], [0.0, 1.0, 0.0], [0.0, 0.0, 1.0]];
    let n = black_box(1usize << 62);
    let input = format!("covariance_from_normal of the identity, sum {}, n {n:X}", raw(&[1.0]));
    row("large-count", &input, || raw(&covariance_from_normal(&identity, 1.0, n).concat()));
    let with_checks = checked::solver::wcs_refine::covariance_from_normal;
    row("large-count", &format!("{input}, built with overflow checks"), || {
        raw(&with_checks(&identity, 1.0, n).concat())
    });
}
