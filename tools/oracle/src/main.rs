//! The oracle: what the reference answers, by record or function by function.

mod bench;
mod cells;
mod differences;
mod eval;
mod evaluated;
#[allow(dead_code)]
#[path = "compare/exposure.rs"]
mod exposure;
#[allow(dead_code)]
#[path = "compare/rng.rs"]
mod rng;

use std::io::{self, BufWriter, Read, Write};
use std::process::exit;

use reference::answer::{lines, of_record};
use reference::call::{refine, Answer, Lent};
use reference::record::read_any;

const USAGE: &str = "\
oracle                     one record on standard input, the answer of `refine`
oracle many                records after their lengths (four bytes, low byte first)
oracle full [many] [..]    the call at its full limits, records of any length:
    --distances N --indices N           lengths of the candidate lists
    --wholes N --floats N --result N    lengths of the working and result lists
    --cut-spots N --cut-matches N --cut-directions N
                                        places left off the end of a flat list
    --comparisons yes                   a line more, the comparisons
    --scanning yes                      the matcher without candidate lists
    --cells NSIDE                       the reference's own cells, not the scan
oracle eval                single functions, by bits
oracle cells [..]          directions that the reference's cells lose
oracle differences         what the reference does on the rows of docs/DIFFERENCES.md
oracle bench               times of the run, the matcher and the median";

/// The call without the program's small lists.
struct Full {
    lent: Lent,
    /// Places left off the flat lists.
    less: [usize; 3],
    /// Whether an answer's comparisons are printed.
    comparisons: bool,
}

fn main() {
    let words: Vec<String> = std::env::args().skip(1).collect();
    let words: Vec<&str> = words.iter().map(String::as_str).collect();
    match words.as_slice() {
        [] => one(&|record| lines(&of_record(record, false))),
        ["many"] => many(&|record| lines(&of_record(record, false))),
        ["full", "many", options @ ..] => {
            let full = Full::new(options);
            many(&|record| full.answered(record))
        }
        ["full", options @ ..] => {
            let full = Full::new(options);
            one(&|record| full.answered(record))
        }
        ["eval"] => eval::lines_of(io::stdin().lock(), &mut BufWriter::new(io::stdout().lock())),
        ["cells", options @ ..] => cells::main(options),
        ["differences"] => differences::main(),
        ["bench"] => bench::main(&all_records()),
        _ => usage(),
    }
}

pub fn usage() -> ! {
    eprintln!("{USAGE}");
    exit(2)
}

impl Full {
    fn new(options: &[&str]) -> Full {
        // A million pairs, unless told otherwise.
        let pairs = 1 << 20;
        let all = usize::MAX;
        let mut lent = Lent {
            wholes: all,
            floats: all,
            result: all,
            distances: 2 * pairs,
            indices: 4 * pairs,
            scanning: false,
            cells: None,
        };
        let (mut less, mut comparisons) = ([0; 3], false);
        for option in options.chunks(2) {
            let [name, value] = option else { usage() };
            if *name == "--comparisons" {
                comparisons = *value == "yes";
                continue;
            }
            if *name == "--scanning" {
                lent.scanning = *value == "yes";
                continue;
            }
            let value: usize = value.parse().unwrap_or_else(|_| usage());
            match *name {
                "--distances" => lent.distances = value,
                "--indices" => lent.indices = value,
                "--wholes" => lent.wholes = value,
                "--floats" => lent.floats = value,
                "--result" => lent.result = value,
                "--cut-spots" => less[0] = value,
                "--cut-matches" => less[1] = value,
                "--cut-directions" => less[2] = value,
                "--cells" => lent.cells = Some(value as u32),
                _ => usage(),
            }
        }
        Full { lent, less, comparisons }
    }

    /// The lines of `refine`, and the comparisons where they are asked for.
    fn answered(&self, record: &[u8]) -> String {
        let answer = self.answer(record);
        let mut text = lines(&answer);
        if let Some(a) = answer.ok().filter(|_| self.comparisons) {
            text += &format!("comparisons {}\n", a.comparisons());
        }
        text
    }

    fn answer(&self, record: &[u8]) -> Result<Answer, u8> {
        let mut e = read_any(record)?;
        e.spots.truncate(e.spots.len().saturating_sub(self.less[0]));
        e.matches.truncate(e.matches.len().saturating_sub(self.less[1]));
        e.directions.truncate(e.directions.len().saturating_sub(self.less[2]));
        refine(&e, &self.lent, false)
    }
}

fn one(answered: &dyn Fn(&[u8]) -> String) {
    let mut record = Vec::new();
    io::stdin().lock().read_to_end(&mut record).expect("standard input");
    print!("{}", answered(&record));
}

fn many(answered: &dyn Fn(&[u8]) -> String) {
    let mut input = io::stdin().lock();
    let mut output = BufWriter::new(io::stdout().lock());
    while let Some(record) = next_record(&mut input) {
        writeln!(output, "{}", answered(&record)).expect("standard output");
    }
}

/// The next record after its length, or `None` at the input's end.
fn next_record(input: &mut impl Read) -> Option<Vec<u8>> {
    let mut length = [0; 4];
    if input.read(&mut length[..1]).expect("standard input") == 0 {
        return None;
    }
    input.read_exact(&mut length[1..]).expect("a length of four bytes");
    let mut record = vec![0; u32::from_le_bytes(length) as usize];
    input.read_exact(&mut record).expect("a whole record");
    Some(record)
}

fn all_records() -> Vec<Vec<u8>> {
    let mut input = io::stdin().lock();
    std::iter::from_fn(|| next_record(&mut input)).collect()
}
