//! Runs a program on seeded records against the oracle, reports the first
//! difference and tells what the records reached.

mod coverage;
mod ordering;

use std::io::{Read, Write};
use std::process::{exit, Child, Command, Stdio};

use coverage::Coverage;
use exposures::record;
use reference::answer::{lines, of_record, PROGRAM};
use reference::call::{refine, Answer, Lent, LEAST_CUT};
use reference::hooks;
use reference::record::{read_any, Exposure, SPOT_NUMBERS};
use reference::solver::profiling;

const USAGE: &str = "\
compare [options] [-- COMMAND ARGUMENT ..]
    --seed N --from N --count N --kind NAME    which records, as in generate
    --many N         the command takes records in the `many` form, N at a time;
                     without it a process is started for each record
    --pairs N        calls at full limits and records of any length, with
                     candidate lists for N pairs
    --go-on yes      count all differences instead of stopping at the first
Without a command, only the coverage is told.";

#[derive(Clone)]
struct Options {
    seed: u64,
    from: u64,
    count: u64,
    kind: Option<String>,
    many: Option<u64>,
    pairs: Option<usize>,
    go_on: bool,
    command: Vec<String>,
}

/// A record, where it comes from and what the oracle answers.
struct Case {
    item: u64,
    kind: &'static str,
    bytes: Vec<u8>,
    expected: String,
}

fn usage() -> ! {
    eprintln!("{USAGE}");
    exit(2)
}

fn options() -> Options {
    let (seed, from, count) = (1, 0, 1_000);
    let (kind, many, pairs, go_on, command) = (None, None, None, false, Vec::new());
    let mut o = Options { seed, from, count, kind, many, pairs, go_on, command };
    let mut words = std::env::args().skip(1);
    while let Some(name) = words.next() {
        if name == "--" {
            o.command = words.collect();
            break;
        }
        let value = words.next().unwrap_or_else(|| usage());
        let number = || value.parse().unwrap_or_else(|_| usage());
        match name.as_str() {
            "--seed" => o.seed = number(),
            "--from" => o.from = number(),
            "--count" => o.count = number(),
            "--many" => o.many = Some(number().max(1)),
            "--pairs" => o.pairs = Some(number() as usize),
            "--kind" => o.kind = Some(value),
            "--go-on" => o.go_on = value == "yes",
            _ => usage(),
        }
    }
    o
}

/// Answers that differ, those of them whose first line does, and a report on
/// the first.
#[derive(Default)]
struct Differences {
    answers: u64,
    first_lines: u64,
    report: String,
}

fn main() {
    let o = options();
    let mut coverage = Coverage::new();
    let mut differences = Differences::default();
    let mut done = 0;
    // Without a command nothing is gained by holding many cases.
    let batch = if o.command.is_empty() { 1 } else { o.many.unwrap_or(1) };
    while done < o.count && (o.go_on || differences.answers == 0) {
        let size = batch.min(o.count - done);
        let items = o.from + done..o.from + done + size;
        let cases: Vec<Case> = items.map(|item| case(&o, item, &mut coverage)).collect();
        if !o.command.is_empty() {
            compare(&o, &cases, &mut differences);
        }
        done += size;
    }
    println!("seed {}, {done} records from number {}", o.seed, o.from);
    print!("{coverage}{}", differences.report);
    let Differences { answers, first_lines, .. } = differences;
    match (o.command.is_empty(), answers) {
        (true, _) => println!("no command to compare with"),
        (false, 0) => println!("no difference"),
        _ => {
            println!("{answers} answers differ, {first_lines} of them in the first line");
            exit(1)
        }
    }
}

fn case(o: &Options, item: u64, coverage: &mut Coverage) -> Case {
    let (kind, bytes) = record(o.seed, item, o.kind.as_deref()).unwrap_or_else(|| usage());
    // Records refused before a run leave no counts behind.
    profiling::reset();
    let answer = oracle(o, &bytes);
    coverage.add(kind, &answer, profiling::counts()[0], &hooks::trace());
    let expected = lines(&answer);
    if let Some(e) = read_any(&bytes).ok().filter(|_| matches!(answer, Ok(_) | Err(12 | 13))) {
        let tells = |other: Exposure| lines(&refine(&other, &lent(o), false)) != expected;
        if let Some(other) = with_least_cut(&e) {
            coverage.cut(kind, tells(other));
        }
        if let Some(other) = with_weights_of_one(&e) {
            coverage.weights(kind, tells(other));
        }
    }
    Case { item, kind, bytes, expected }
}

/// The same with the least cut, where it has another.
fn with_least_cut(e: &Exposure) -> Option<Exposure> {
    (e.cut != LEAST_CUT).then(|| Exposure { cut: LEAST_CUT, ..e.clone() })
}

/// The same with all weights 1, where it has others.
fn with_weights_of_one(e: &Exposure) -> Option<Exposure> {
    let mut other = e.clone();
    other.spots.chunks_exact_mut(SPOT_NUMBERS).for_each(|spot| spot[2] = 1.0);
    (other.spots != e.spots).then_some(other)
}

fn oracle(o: &Options, bytes: &[u8]) -> Result<Answer, u8> {
    match o.pairs {
        None => of_record(bytes, true),
        Some(_) => refine(&read_any(bytes)?, &lent(o), true),
    }
}

/// The program's lists, or those of calls at full limits.
fn lent(o: &Options) -> Lent {
    let Some(pairs) = o.pairs else { return PROGRAM };
    let all = usize::MAX;
    let (distances, indices) = (2 * pairs, 4 * pairs);
    Lent { wholes: all, floats: all, result: all, distances, indices, scanning: false, cells: None }
}

fn compare(o: &Options, cases: &[Case], differences: &mut Differences) {
    let answers = if o.many.is_some() {
        let text = output(o, cases.iter().flat_map(|c| prefixed(&c.bytes)).collect());
        text.split_inclusive("\n\n").map(|a| a.strip_suffix('\n').unwrap_or(a).into()).collect()
    } else {
        cases.iter().map(|c| output(o, c.bytes.clone())).collect::<Vec<String>>()
    };
    for (i, case) in cases.iter().enumerate() {
        let said = answers.get(i).map_or("", String::as_str);
        if said == case.expected {
            continue;
        }
        if differences.answers == 0 {
            differences.report = report(o, case, said);
        }
        differences.answers += 1;
        differences.first_lines += (said.lines().next() != case.expected.lines().next()) as u64;
    }
}

fn report(o: &Options, case: &Case, said: &str) -> String {
    let Case { item, kind, bytes, expected } = case;
    let hex: String = bytes.iter().map(|b| format!("{b:02X}")).collect();
    let seed = o.seed;
    format!(
        "first difference at seed {seed}, number {item}, kind {kind}\nrecord {hex}\n\
         oracle:\n{expected}command:\n{said}"
    )
}

fn prefixed(bytes: &[u8]) -> Vec<u8> {
    [&(bytes.len() as u32).to_le_bytes(), bytes].concat()
}

/// What the command prints on this input.
fn output(o: &Options, input: Vec<u8>) -> String {
    let mut child: Child = Command::new(&o.command[0])
        .args(&o.command[1..])
        .stdin(Stdio::piped())
        .stdout(Stdio::piped())
        .spawn()
        .unwrap_or_else(|e| panic!("{}: {e}", o.command[0]));
    let mut to = child.stdin.take().unwrap();
    // A program may stop reading as soon as it knows its answer.
    let writer = std::thread::spawn(move || drop(to.write_all(&input)));
    let mut text = Vec::new();
    child.stdout.take().unwrap().read_to_end(&mut text).expect("the command's output");
    writer.join().unwrap();
    child.wait().expect("the command's end");
    String::from_utf8_lossy(&text).into_owned()
}
