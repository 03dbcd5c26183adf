//! Compares root, narrowing and widening with the hardware, value by value, and then times them beside it, in one run.
use std::hint::black_box;
use std::time::Instant;

extern "C" {
    fn raqembu_sqrt64(x: f64) -> f64;
    fn raqembu_sqrt32(x: f32) -> f32;
    fn raqembu_narrow(x: f64) -> f32;
    fn raqembu_widen(x: f32) -> f64;
}

// Numbers pass as themselves, and no function asks anything of its caller.
fn sqrt64(x: f64) -> f64 {
    unsafe { raqembu_sqrt64(x) }
}
fn sqrt32(x: f32) -> f32 {
    unsafe { raqembu_sqrt32(x) }
}
fn narrow(x: f64) -> f32 {
    unsafe { raqembu_narrow(x) }
}
fn widen(x: f32) -> f64 {
    unsafe { raqembu_widen(x) }
}

/// xorshift64, from a fixed seed.
struct Random(u64);

impl Random {
    fn next(&mut self) -> u64 {
        self.0 ^= self.0 << 13;
        self.0 ^= self.0 >> 7;
        self.0 ^= self.0 << 17;
        self.0
    }
}

const EDGES: [u64; 26] = [
    0, 1, 2, 3, 0x000F_FFFF_FFFF_FFFF, 0x0010_0000_0000_0000, 0x0010_0000_0000_0001,
    0x7FEF_FFFF_FFFF_FFFF, 0x7FF0_0000_0000_0000, 0x7FF8_0000_0000_0000, 0x7FF0_0000_0000_0001,
    0x3FEF_FFFF_FFFF_FFFF, 0x3FF0_0000_0000_0000, 0x3FF0_0000_0000_0001, 0x4000_0000_0000_0000,
    0x3FF0_0000_1000_0000, 0x3FF0_0000_3000_0000, 0x3690_0000_0000_0000, 0x3690_0000_0000_0001,
    0x36A0_0000_0000_0000, 0x47EF_FFFF_E000_0000, 0x47EF_FFFF_EFFF_FFFF, 0x47EF_FFFF_F000_0000,
    0x380F_FFFF_FFFF_FFFF, 0x3810_0000_0000_0000, 0x0000_0000_8000_0000,
];

/// A value of one of four kinds: any pattern, about the range of f32, subnormal, or beside a tie of the narrowing.
fn value(random: &mut Random, kind: usize) -> f64 {
    let b = random.next();
    match kind {
        0 => f64::from_bits(b),
        1 => f64::from_bits((b & 0x800F_FFFF_FFFF_FFFF) | (((b >> 52) % 600 + 700) << 52)),
        2 => f64::from_bits(b & 0x800F_FFFF_FFFF_FFFF),
        _ => {
            let near = f32::from_bits(b as u32) as f64;
            f64::from_bits(near.to_bits().wrapping_add(((b >> 32) % 3) * 0x0800_0000))
        }
    }
}

fn same64(a: f64, b: f64) -> bool {
    a.to_bits() == b.to_bits() || (a.is_nan() && b.is_nan())
}

fn same32(a: f32, b: f32) -> bool {
    a.to_bits() == b.to_bits() || (a.is_nan() && b.is_nan())
}

/// How many values differ from the hardware's, of each function.
fn differences(values: &[f64]) -> [usize; 4] {
    let mut bad = [0; 4];
    for &x in values {
        let y = f32::from_bits(x.to_bits() as u32 ^ (x.to_bits() >> 32) as u32);
        bad[0] += !same64(sqrt64(x), x.sqrt()) as usize;
        bad[1] += !same32(sqrt32(y), y.sqrt()) as usize;
        bad[2] += !same32(narrow(x), x as f32) as usize;
        bad[3] += !same64(widen(y), y as f64) as usize;
    }
    bad
}

/// Nanoseconds a call, the least of seven runs. `chained` calls wait for the one before them, the others overlap.
fn timed(values: &[f64], chained: bool, call: impl Fn(f64) -> f64) -> f64 {
    let wait = if black_box(chained) { 0.0 } else { f64::NAN };
    let mut least = f64::INFINITY;
    for _ in 0..7 {
        let start = Instant::now();
        let mut sum = 0.0;
        if chained {
            for &x in values {
                sum = call(x + sum * wait);
            }
        } else {
            for &x in values {
                sum += call(x);
            }
        }
        black_box(sum);
        least = least.min(start.elapsed().as_nanos() as f64 / values.len() as f64);
    }
    least
}

/// One function beside the hardware's, both ways.
fn report(name: &str, values: &[f64], here: impl Fn(f64) -> f64, hardware: impl Fn(f64) -> f64) {
    for (way, chained) in [("overlapping", false), ("one after another", true)] {
        let a = timed(values, chained, &here);
        let b = timed(values, chained, &hardware);
        println!("{name}, {way}: {a:.1} ns, hardware {b:.1} ns, ratio {:.1}", a / b);
    }
}

fn main() {
    let mut random = Random(0x9E37_79B9_7F4A_7C15);
    let mut values: Vec<f64> = EDGES.iter().flat_map(|&b| [f64::from_bits(b), f64::from_bits(b | 1 << 63)]).collect();
    values.extend((0..1_000_000).map(|i| value(&mut random, i % 4)));
    let bad = differences(&values);
    println!("{} values; differences: sqrt64 {}, sqrt32 {}, narrow {}, widen {}", values.len(), bad[0], bad[1], bad[2], bad[3]);
    let ordinary: Vec<f64> = (0..1_000_000).map(|_| 1e-3 + (random.next() >> 11) as f64 * 1e-12).collect();
    report("sqrt64", &ordinary, sqrt64, |x| black_box(x).sqrt());
    report("sqrt32", &ordinary, |x| sqrt32(x as f32) as f64, |x| black_box(x as f32).sqrt() as f64);
    report("narrow", &ordinary, |x| narrow(x) as f64, |x| black_box(x) as f32 as f64);
}
