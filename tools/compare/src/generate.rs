//! Writes seeded exposure records to standard output.

use std::io::{self, BufWriter, Write};
use std::process::exit;

use exposures::{record, KINDS};

const USAGE: &str = "\
generate [--seed N] [--from N] [--count N] [--kind NAME] [--form many|hex|one]
    many   each record after its length in four bytes, low byte first (usual)
    hex    a line for each: number, kind, bytes in hexadecimal
    one    the bytes of a single record (with --from its number)
kinds:";

fn usage() -> ! {
    eprint!("{USAGE}");
    KINDS.iter().for_each(|k| eprint!(" {}", k.name));
    eprintln!();
    exit(2)
}

fn main() {
    let words: Vec<String> = std::env::args().skip(1).collect();
    let (mut seed, mut from, mut count) = (1, 0, 1);
    let (mut kind, mut form) = (None, "many");
    for option in words.chunks(2) {
        let [name, value] = option else { usage() };
        let number = || value.parse::<u64>().unwrap_or_else(|_| usage());
        match name.as_str() {
            "--seed" => seed = number(),
            "--from" => from = number(),
            "--count" => count = number(),
            "--kind" => kind = Some(value.as_str()),
            "--form" => form = value,
            _ => usage(),
        }
    }
    let mut out = BufWriter::new(io::stdout().lock());
    for item in from..from + count {
        let (name, bytes) = record(seed, item, kind).unwrap_or_else(|| usage());
        let written = match form {
            "many" => out
                .write_all(&(bytes.len() as u32).to_le_bytes())
                .and_then(|()| out.write_all(&bytes)),
            "hex" => {
                let hex: String = bytes.iter().map(|b| format!("{b:02X}")).collect();
                writeln!(out, "{item} {name} {hex}")
            }
            "one" => out.write_all(&bytes),
            _ => usage(),
        };
        written.expect("standard output");
    }
}
