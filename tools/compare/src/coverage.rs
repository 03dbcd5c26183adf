//! What a set of records reached: answers by number and by kind, and for the
//! runs their rounds, passes, queries, matches, comparisons and clips.

use std::collections::BTreeMap;
use std::fmt::{self, Display};

use reference::call::Answer;
use reference::hooks::Trace;

use crate::ordering;

/// Values up to the first bound, up to the second, and so on, then the rest.
struct Histogram {
    bounds: &'static [u64],
    counts: Vec<u64>,
}

impl Histogram {
    fn new(bounds: &'static [u64]) -> Histogram {
        Histogram { bounds, counts: vec![0; bounds.len() + 1] }
    }

    fn add(&mut self, value: u64) {
        let place = self.bounds.iter().position(|&b| value <= b).unwrap_or(self.bounds.len());
        self.counts[place] += 1;
    }
}

impl Display for Histogram {
    fn fmt(&self, f: &mut fmt::Formatter) -> fmt::Result {
        let mut least = 0;
        for (i, count) in self.counts.iter().enumerate() {
            match self.bounds.get(i) {
                Some(&b) if b == least => write!(f, " {b}: {count}")?,
                Some(&b) => write!(f, " {least}-{b}: {count}")?,
                None => write!(f, " {least}+: {count}")?,
            }
            least = self.bounds.get(i).map_or(0, |b| b + 1);
        }
        Ok(())
    }
}

pub struct Coverage {
    answers: BTreeMap<u8, u64>,
    kinds: BTreeMap<&'static str, BTreeMap<u8, u64>>,
    rounds: Histogram,
    passes: Histogram,
    queries: Histogram,
    matches: Histogram,
    comparisons: Histogram,
    steps: BTreeMap<&'static str, u64>,
    /// By kind: the runs whose cut is not the least, and those of them that
    /// the least would answer otherwise.
    cuts: Told,
    /// By kind: the runs whose weights are not all 1, and those of them that
    /// weights of 1 would answer otherwise.
    weights: Told,
}

type Told = BTreeMap<&'static str, [u64; 2]>;

impl Coverage {
    pub fn new() -> Coverage {
        Coverage {
            answers: BTreeMap::new(),
            kinds: BTreeMap::new(),
            rounds: Histogram::new(&[0, 1, 2, 3, 4, 8, 16, 32, 63]),
            passes: Histogram::new(&[0, 1, 2, 3, 5, 10, 20, 50, 100, 300]),
            queries: Histogram::new(&[0, 1, 2, 3, 4, 8, 16]),
            matches: Histogram::new(&[0, 2, 3, 5, 8, 16, 32, 63]),
            comparisons: Histogram::new(&[0, 1, 3, 10, 30, 100, 300, 1_000, 3_000, 10_000]),
            steps: BTreeMap::new(),
            cuts: Told::new(),
            weights: Told::new(),
        }
    }

    /// A run with a larger cut than the least, and whether that tells.
    pub fn cut(&mut self, kind: &'static str, tells: bool) {
        count(&mut self.cuts, kind, tells);
    }

    /// A run with weights that are not all 1, and whether they tell.
    pub fn weights(&mut self, kind: &'static str, tells: bool) {
        count(&mut self.weights, kind, tells);
    }

    /// Accepted answers count under 0. `rounds` are those begun, also by a
    /// run that was refused.
    pub fn add(&mut self, kind: &'static str, answer: &Result<Answer, u8>, rounds: u64, t: &Trace) {
        let number = answer.as_ref().err().copied().unwrap_or(0);
        *self.answers.entry(number).or_default() += 1;
        *self.kinds.entry(kind).or_default().entry(number).or_default() += 1;
        match answer {
            Ok(answer) => self.accepted(answer, t),
            Err(12) => self.refused_12(rounds, t),
            Err(13) if rounds == 1 => self.step("13 in round 1"),
            Err(13) => self.step("13 in a later round"),
            Err(_) => (),
        }
    }

    fn step(&mut self, name: &'static str) {
        *self.steps.entry(name).or_default() += 1;
    }

    fn accepted(&mut self, answer: &Answer, t: &Trace) {
        let [rounds, passes, queries] = answer.counts;
        self.rounds.add(rounds);
        self.passes.add(passes);
        self.queries.add(queries);
        self.matches.add(answer.result.matches.len() as u64);
        self.comparisons.add(answer.comparisons());
        let clips = match (t.clips_in_rounds > 0, t.clips_in_closing > 0) {
            (false, false) => "ok, no clip",
            (true, false) => "ok, clips in rounds",
            (false, true) => "ok, clips in closing",
            (true, true) => "ok, clips in rounds and in closing",
        };
        self.step(clips);
        for (name, reached) in [
            ("ok, three clips in closing", t.clips_in_closing == 3),
            ("ok, matches associated anew", t.reassociated > 0),
            ("ok, a fit failed", t.fits_failed > 0),
            ("ok, converged", t.converged),
        ] {
            if reached {
                self.step(name);
            }
        }
        ordering::told(answer).for_each(|name| self.step(name));
    }

    fn refused_12(&mut self, rounds: u64, t: &Trace) {
        self.step(match (t.clips_in_closing > 0, rounds) {
            (true, _) => "12 in closing",
            (false, 1) => "12 in round 1",
            _ => "12 in a later round",
        });
        self.step(match t.angle {
            Some(0) => "12 by theta",
            Some(1) => "12 by RA",
            _ => "12 by Dec",
        });
        if t.not_finite {
            self.step("12 by a value that is not finite");
        }
    }
}

fn count(told: &mut Told, kind: &'static str, tells: bool) {
    let [runs, telling] = told.entry(kind).or_default();
    *runs += 1;
    *telling += tells as u64;
}

fn name(number: u8) -> String {
    if number == 0 { "ok".into() } else { format!("no {number}") }
}

fn numbers(f: &mut fmt::Formatter, counts: &BTreeMap<u8, u64>) -> fmt::Result {
    for (number, count) in counts {
        write!(f, " {}: {count} ", name(*number))?;
    }
    writeln!(f)
}

impl Display for Coverage {
    fn fmt(&self, f: &mut fmt::Formatter) -> fmt::Result {
        write!(f, "answers  ")?;
        numbers(f, &self.answers)?;
        for (kind, counts) in &self.kinds {
            write!(f, "  {kind:<10}")?;
            numbers(f, counts)?;
        }
        writeln!(f, "accepted runs by")?;
        writeln!(f, "  rounds  {}", self.rounds)?;
        writeln!(f, "  passes  {}", self.passes)?;
        writeln!(f, "  queries {}", self.queries)?;
        writeln!(f, "  matches {}", self.matches)?;
        writeln!(f, "  comparisons {}", self.comparisons)?;
        writeln!(f, "steps")?;
        for (step, count) in &self.steps {
            writeln!(f, "  {step}: {count}")?;
        }
        for (runs, other, told) in [
            ("a larger cut than 1e-12", "1e-12", &self.cuts),
            ("weights that are not all 1", "1", &self.weights),
        ] {
            writeln!(f, "runs with {runs}, and those that {other} would answer otherwise")?;
            for (kind, [runs, telling]) in told {
                writeln!(f, "  {kind:<10} {runs}  {telling}")?;
            }
        }
        Ok(())
    }
}
