//! `oracle eval`: lines of a function's name and its arguments by bits, each
//! answered by the same line, ` = ` and the results by bits.

use std::fmt::Write as _;
use std::io::{BufRead, Write};
use std::panic::{catch_unwind, set_hook};
use std::str::SplitWhitespace;

use reference::answer::{bits, bits32};

use crate::evaluated;

pub fn lines_of(input: impl BufRead, output: &mut impl Write) {
    // A panic is an answer here (an index outside its list), not a fault.
    set_hook(Box::new(|_| {}));
    for line in input.lines() {
        let line = line.expect("lines on standard input");
        let said = catch_unwind(|| answer(&line));
        let said = said.unwrap_or_else(|_| Some(" panics".into()));
        let said = said.unwrap_or_else(|| " error".into());
        writeln!(output, "{} ={said}", line.trim()).expect("standard output");
    }
}

/// The results, or `None` where the line is no call of a known function.
fn answer(line: &str) -> Option<String> {
    let mut words = Words(line.split_whitespace());
    let name = words.0.next()?;
    let out = evaluated::call(name, &mut words)?;
    words.0.next().is_none().then_some(out.0)
}

/// The arguments yet to be read.
pub struct Words<'a>(SplitWhitespace<'a>);

impl Words<'_> {
    pub fn number(&mut self) -> Option<usize> {
        usize::from_str_radix(self.0.next()?, 16).ok()
    }

    pub fn f64(&mut self) -> Option<f64> {
        let word = self.0.next().filter(|w| w.len() == 16)?;
        Some(f64::from_bits(u64::from_str_radix(word, 16).ok()?))
    }

    pub fn f32(&mut self) -> Option<f32> {
        let word = self.0.next().filter(|w| w.len() == 8)?;
        Some(f32::from_bits(u32::from_str_radix(word, 16).ok()?))
    }

    pub fn three(&mut self) -> Option<[f64; 3]> {
        Some([self.f64()?, self.f64()?, self.f64()?])
    }

    pub fn three32(&mut self) -> Option<[f32; 3]> {
        Some([self.f32()?, self.f32()?, self.f32()?])
    }

    pub fn matrix(&mut self) -> Option<[[f64; 3]; 3]> {
        Some([self.three()?, self.three()?, self.three()?])
    }

    /// A list after its count.
    pub fn list<T>(&mut self, mut one: impl FnMut(&mut Self) -> Option<T>) -> Option<Vec<T>> {
        (0..self.number()?).map(|_| one(self)).collect()
    }

    /// Points after their count.
    pub fn points(&mut self) -> Option<Vec<(f64, f64)>> {
        self.list(|w| Some((w.f64()?, w.f64()?)))
    }

    /// Spots after their count: the place of each, and the weight of each.
    pub fn spots(&mut self) -> Option<(Vec<(f64, f64)>, Vec<f64>)> {
        let spots = self.list(|w| Some(((w.f64()?, w.f64()?), w.f64()?)))?;
        Some(spots.into_iter().unzip())
    }

    pub fn pairs(&mut self) -> Option<Vec<(usize, usize)>> {
        self.list(|w| Some((w.number()?, w.number()?)))
    }

    pub fn directions(&mut self) -> Option<Vec<[f32; 3]>> {
        self.list(Words::three32)
    }

    pub fn residuals(&mut self) -> Option<Vec<(usize, f64)>> {
        self.list(|w| Some((w.number()?, w.f64()?)))
    }
}

/// The results so far, each after a space.
#[derive(Default)]
pub struct Out(String);

impl Out {
    pub fn new() -> Out {
        Out::default()
    }

    pub fn none() -> Out {
        Out(" none".into())
    }

    pub fn number(mut self, n: usize) -> Out {
        write!(self.0, " {n:X}").unwrap();
        self
    }

    pub fn floats(mut self, values: impl IntoIterator<Item = f64>) -> Out {
        for v in values {
            write!(self.0, " {:016X}", bits(v)).unwrap();
        }
        self
    }

    pub fn floats32(mut self, values: impl IntoIterator<Item = f32>) -> Out {
        for v in values {
            write!(self.0, " {:08X}", bits32(v)).unwrap();
        }
        self
    }

    pub fn matrix(self, rows: [[f64; 3]; 3]) -> Out {
        self.floats(rows.into_iter().flatten())
    }

    pub fn numbers(self, values: impl IntoIterator<Item = usize>) -> Out {
        values.into_iter().fold(self, Out::number)
    }
}
