//! What the substitutions call from inside the run: refusals 12 and 13, and
//! notes of the steps taken, for the coverage.
//!
//! A refusal leaves the run by unwinding, so that no signature of the
//! reference has to change for it; `call.rs` catches it.

use std::cell::Cell;
use std::panic::resume_unwind;

/// The greatest absolute value of theta, RA and Dec.
const GREATEST_ANGLE: f64 = 1024.0;

/// Carried out of the run by a refusal.
pub struct Refused(pub u8);

/// Steps of a run that its answer does not show.
#[derive(Clone, Copy, Default, Debug)]
pub struct Trace {
    pub clips_in_rounds: u32,
    pub clips_in_closing: u32,
    pub reassociated: u32,
    pub fits_failed: u32,
    pub converged: bool,
    /// Refused by 12: which of theta, RA, Dec was at fault (0 to 2).
    pub angle: Option<u8>,
    /// Refused by 12 with a value that is not finite.
    pub not_finite: bool,
}

thread_local! {
    static PAIRS: Cell<usize> = const { Cell::new(usize::MAX) };
    static BOUNDED: Cell<bool> = const { Cell::new(true) };
    static TRACE: Cell<Option<Trace>> = const { Cell::new(None) };
}

/// Before a run: the pairs that its matcher may hold, and whether to note steps.
pub fn begin(pairs: usize, traced: bool) {
    PAIRS.set(pairs);
    TRACE.set(traced.then(Trace::default));
}

/// Before a run that no refusal may leave: any number of pairs, any angle.
pub fn begin_unrefused() {
    begin(usize::MAX, false);
    BOUNDED.set(false);
}

/// After a run: the matcher by itself may hold any number of pairs.
pub fn end() {
    PAIRS.set(usize::MAX);
    BOUNDED.set(true);
}

/// The notes of the last run that was begun with them.
pub fn trace() -> Trace {
    TRACE.get().unwrap_or_default()
}

/// Refusal 12, after an update.
pub fn moved(theta: f64, ra: f64, dec: f64) {
    if !BOUNDED.get() {
        return;
    }
    let out = |angle: &f64| !(angle.abs() <= GREATEST_ANGLE);
    if let Some(at) = [theta, ra, dec].iter().position(out) {
        note_with(|t| {
            t.angle = Some(at as u8);
            t.not_finite = ![theta, ra, dec].iter().all(|a| a.is_finite());
        });
        resume_unwind(Box::new(Refused(12)));
    }
}

/// Refusal 13, after a pair has been added to `held` − 1 others.
pub fn collected(held: usize) {
    if held > PAIRS.get() {
        resume_unwind(Box::new(Refused(13)));
    }
}

/// One of the reference's log lines is reached; `text` is its format.
pub fn note(text: &str) {
    note_with(|t| {
        if text.contains("MAD clip") {
            t.clips_in_rounds += 1;
        } else if text.contains("final clip") {
            t.clips_in_closing += 1;
        } else if text.contains("re-associate") {
            t.reassociated += 1;
        } else if text.contains("LS fit failed") {
            t.fits_failed += 1;
        } else if text.contains("converged") {
            t.converged = true;
        }
    });
}

fn note_with(change: impl FnOnce(&mut Trace)) {
    if let Some(mut trace) = TRACE.get() {
        change(&mut trace);
        TRACE.set(Some(trace));
    }
}
