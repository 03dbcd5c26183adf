//! Document 01's angle functions, atan2 with request 6 of document 02. Built
//! with `--cfg host_angles`, the same names are the host's own, to note where
//! they differ.

/// 2/pi, 0.6366197723675814.
const TWO_OVER_PI: f64 = f64::from_bits(0x3FE4_5F30_6DC9_C883);
/// 1.5 × 2^52: adding and taking it away rounds to a whole number.
const TO_WHOLE: f64 = f64::from_bits(0x4338_0000_0000_0000);
/// The quarter turn in two parts.
const P1: f64 = f64::from_bits(0x3FF9_21FB_5440_0000);
const P2: f64 = f64::from_bits(0x3DD0_B461_1A62_6331);
/// 1.5707963267948966 and 3.141592653589793.
const QUARTER: f64 = f64::from_bits(0x3FF9_21FB_5444_2D18);
const HALF: f64 = f64::from_bits(0x4009_21FB_5444_2D18);
/// The greatest angle that has a sine.
const GREATEST: f64 = 1024.0;

/// Divisors from the outermost bracket to the innermost.
const SIN_DIVISORS: [f64; 7] = [6.0, 20.0, 42.0, 72.0, 110.0, 156.0, 210.0];
const COS_DIVISORS: [f64; 8] = [2.0, 12.0, 30.0, 56.0, 90.0, 132.0, 182.0, 240.0];
/// 1/3, 1/5 .. 1/15.
const ATAN_TERMS: [f64; 7] = [
    f64::from_bits(0x3FD5_5555_5555_5555),
    f64::from_bits(0x3FC9_9999_9999_999A),
    f64::from_bits(0x3FC2_4924_9249_2492),
    f64::from_bits(0x3FBC_71C7_1C71_C71C),
    f64::from_bits(0x3FB7_45D1_745D_1746),
    f64::from_bits(0x3FB3_B13B_13B1_3B14),
    f64::from_bits(0x3FB1_1111_1111_1111),
];

// The bits are those of the decimals that the document writes.
const _: () = {
    assert!(TWO_OVER_PI == 0.6366197723675814 && TO_WHOLE == 6755399441055744.0);
    assert!(QUARTER == 1.5707963267948966 && HALF == 3.141592653589793);
    let mut i = 0;
    while i < ATAN_TERMS.len() {
        assert!(ATAN_TERMS[i] == 1.0 / (2 * i + 3) as f64);
        i += 1;
    }
};

/// 1 − z/d0 × (1 − z/d1 × ( .. (1 − z/dn))).
fn brackets(z: f64, divisors: &[f64]) -> f64 {
    divisors.iter().rev().fold(1.0, |inner, d| 1.0 - z / d * inner)
}

/// Sine and cosine together.
pub fn sin_cos(a: f64) -> (f64, f64) {
    if !a.is_finite() || a.abs() > GREATEST {
        return (f64::NAN, f64::NAN);
    }
    let k = (a * TWO_OVER_PI + TO_WHOLE) - TO_WHOLE;
    let r = (a - k * P1) - k * P2;
    let z = r * r;
    let s = r * brackets(z, &SIN_DIVISORS);
    let c = brackets(z, &COS_DIVISORS);
    match (k as i64).rem_euclid(4) {
        0 => (s, c),
        1 => (c, -s),
        2 => (-s, -c),
        _ => (-c, s),
    }
}

pub fn atan(v: f64) -> f64 {
    let magnitude = v.abs();
    let above = magnitude > 1.0;
    let mut t = if above { 1.0 / magnitude } else { magnitude };
    for _ in 0..3 {
        t = t / (1.0 + (1.0 + t * t).sqrt());
    }
    let w = t * t;
    let (last, terms) = ATAN_TERMS.split_last().unwrap();
    let sum = terms.iter().rev().fold(*last, |inner, term| term - w * inner);
    let angle = 8.0 * (t * (1.0 - w * sum));
    let angle = if above { QUARTER - angle } else { angle };
    angle.copysign(v)
}

pub fn asin(v: f64) -> f64 {
    if v.abs() > 1.0 {
        return f64::NAN;
    }
    atan(v / ((1.0 - v) * (1.0 + v)).sqrt())
}

/// Document 01's, and for a zero `y` request 6 of document 02: the signs of
/// zeros count, as IEEE 754 has it.
pub fn atan2(y: f64, x: f64) -> f64 {
    if y.is_nan() || x.is_nan() {
        f64::NAN
    } else if x > 0.0 {
        atan(y / x)
    } else if y == 0.0 {
        if x.is_sign_negative() { HALF.copysign(y) } else { y }
    } else if x < 0.0 {
        let angle = atan(y / x);
        if y < 0.0 { angle - HALF } else { angle + HALF }
    } else {
        QUARTER.copysign(y)
    }
}

/// Widen, cosine, narrow.
pub fn cos32(a: f32) -> f32 {
    sin_cos(a as f64).1 as f32
}

/// The names that the substitutions give the reference's calls.
pub trait Angles: Sized {
    fn sin01(self) -> Self;
    fn cos01(self) -> Self;
    fn atan01(self) -> Self;
    fn asin01(self) -> Self;
    fn atan2_01(self, x: Self) -> Self;
}

#[cfg(not(host_angles))]
impl Angles for f64 {
    fn sin01(self) -> f64 {
        sin_cos(self).0
    }
    fn cos01(self) -> f64 {
        sin_cos(self).1
    }
    fn atan01(self) -> f64 {
        atan(self)
    }
    fn asin01(self) -> f64 {
        asin(self)
    }
    fn atan2_01(self, x: f64) -> f64 {
        atan2(self, x)
    }
}

#[cfg(host_angles)]
impl Angles for f64 {
    fn sin01(self) -> f64 {
        self.sin()
    }
    fn cos01(self) -> f64 {
        self.cos()
    }
    fn atan01(self) -> f64 {
        self.atan()
    }
    fn asin01(self) -> f64 {
        self.asin()
    }
    fn atan2_01(self, x: f64) -> f64 {
        self.atan2(x)
    }
}

/// The query's cosine is the one f32 function that is replaced.
pub trait Cosine32 {
    fn cos01(self) -> Self;
}

impl Cosine32 for f32 {
    fn cos01(self) -> f32 {
        if cfg!(host_angles) { self.cos() } else { cos32(self) }
    }
}
