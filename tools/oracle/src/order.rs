//! The total order of f64 in which all NaNs are one, after every number.

use std::cmp::Ordering;

pub fn total_cmp(a: &f64, b: &f64) -> Ordering {
    match (a.is_nan(), b.is_nan()) {
        (false, false) => a.total_cmp(b),
        (a_nan, b_nan) => a_nan.cmp(&b_nan),
    }
}
