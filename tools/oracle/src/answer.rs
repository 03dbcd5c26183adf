//! The program `refine`: from a record to the lines it prints.

use std::fmt::Write;
use std::hint::black_box;

use crate::call::{refine, Answer, Lent};
use crate::record::{self, Exposure, SPOT_NUMBERS};

/// What the program holds.
pub const SPOTS: usize = 64;
pub const MATCHES: usize = 64;
pub const DIRECTIONS: usize = 256;
pub const PROGRAM: Lent = Lent {
    wholes: 16 * (SPOTS + MATCHES + DIRECTIONS),
    floats: 16 * (SPOTS + MATCHES + DIRECTIONS),
    result: 2 * SPOTS,
    distances: 4_096,
    indices: 8_192,
    scanning: false,
    cells: None,
};

/// All NaNs print as one. The bits are hidden from the optimiser, which may
/// else take one NaN for another and leave the choice out.
pub fn bits(x: f64) -> u64 {
    let bits = black_box(x.to_bits());
    if bits << 1 > 0x7FF0_0000_0000_0000 << 1 { 0x7FF8_0000_0000_0000 } else { bits }
}

pub fn bits32(x: f32) -> u32 {
    let bits = black_box(x.to_bits());
    if bits << 1 > 0x7F80_0000 << 1 { 0x7FC0_0000 } else { bits }
}

/// The answer of `refine` to a record.
pub fn of_record(bytes: &[u8], traced: bool) -> Result<Answer, u8> {
    let exposure = record::read(bytes)?;
    if counts_more(&exposure) {
        return Err(11);
    }
    refine(&exposure, &PROGRAM, traced)
}

/// More than the program holds: refused without a call.
fn counts_more(e: &Exposure) -> bool {
    e.spots.len() > SPOT_NUMBERS * SPOTS
        || e.matches.len() > 2 * MATCHES
        || e.directions.len() > 3 * DIRECTIONS
}

/// The lines printed for an answer.
pub fn lines(answer: &Result<Answer, u8>) -> String {
    let answer = match answer {
        Ok(answer) => answer,
        Err(number) => return format!("no {number}\n"),
    };
    let r = &answer.result;
    let [rounds, passes, queries] = answer.counts;
    let mut out = format!("ok {} {rounds} {passes} {queries}\n", r.matches.len());
    let [ra, dec] = r.crval_rad;
    floats(&mut out, "pose", [r.theta_rad, ra, dec, r.pixel_scale]);
    floats(&mut out, "cd", r.cd_matrix.into_iter().flatten());
    floats(&mut out, "rms", [r.rmse_rad]);
    floats(&mut out, "cov", r.covariance.into_iter().flatten());
    for (spot, direction) in &r.matches {
        writeln!(out, "m {spot} {direction}").unwrap();
    }
    out
}

fn floats(out: &mut String, name: &str, values: impl IntoIterator<Item = f64>) {
    out.push_str(name);
    for v in values {
        write!(out, " {:016X}", bits(v)).unwrap();
    }
    out.push('\n');
}
