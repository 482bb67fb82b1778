//! Rust's methods on `f64` with their IEEE 754 meanings, as the library uses them (Rules 12). All
//! are total.
//!
//! ```
//! use merlontrispa::float;
//!
//! assert_eq!(float::floor_i64(-0.25), -1);
//! assert!(float::total_cmp(-0.0, 0.0).is_lt());
//! ```

use crate::boundary;
use std::cmp::Ordering;

/// `x.abs()`, but that a NaN may keep its sign
pub fn abs(x: f64) -> f64 {
    boundary::mt_abs(x)
}

/// `x.is_finite()`
pub fn is_finite(x: f64) -> bool {
    boundary::mt_is_finite(x)
}

/// Whether the magnitude of `x` is at most `top`: never so for a NaN.
pub fn at_most(x: f64, top: f64) -> bool {
    boundary::mt_at_most(x, top)
}

/// `x.max(y)`, and `x` where the two are equal, zeros of either sign too.
pub fn max(x: f64, y: f64) -> f64 {
    boundary::mt_max(x, y)
}

/// `x.clamp(lo, hi)`, which keeps -0.0 between 0.0 and 1.0. A NaN stays a NaN; else, where `hi` is
/// below `lo`, the answer is `hi`, and an end that is a NaN does not bound: Rust panics there.
pub fn clamp(x: f64, lo: f64, hi: f64) -> f64 {
    boundary::mt_clamp(x, lo, hi)
}

/// `x.total_cmp(&y)` of values that are no NaN: -0.0 precedes 0.0.
pub fn total_cmp(x: f64, y: f64) -> Ordering {
    boundary::mt_total_cmp(x, y).cmp(&0)
}

/// `x.floor() as i64`
pub fn floor_i64(x: f64) -> i64 {
    boundary::mt_floor_i64(x)
}

/// `x.ceil() as i64`
pub fn ceil_i64(x: f64) -> i64 {
    boundary::mt_ceil_i64(x)
}

/// `x.round()`
pub fn round(x: f64) -> f64 {
    boundary::mt_round(x)
}

/// `x.ceil()`
pub fn ceil(x: f64) -> f64 {
    boundary::mt_ceil(x)
}

/// `x as usize`
pub fn to_usize(x: f64) -> usize {
    boundary::mt_to_usize(x)
}

/// `n as f64`
pub fn to_f64(n: usize) -> f64 {
    boundary::mt_to_f64(n)
}

#[cfg(test)]
mod tests {
    use super::*;

    #[test]
    fn clamp_takes_ends_that_rust_does_not() {
        let (nan, inf) = (f64::NAN, f64::INFINITY);
        for x in [-inf, -1.0, 0.0, 0.5, 1.0, 2.0, inf] {
            assert_eq!(clamp(x, 1.0, 0.0), 0.0, "{x}");
            assert_eq!(clamp(x, nan, 0.5), x.min(0.5), "{x}");
            assert_eq!(clamp(x, 0.5, nan), x.max(0.5), "{x}");
            assert_eq!(clamp(x, nan, nan), x);
        }
        for [lo, hi] in [[0.0, 1.0], [1.0, 0.0], [nan, 0.5], [0.5, nan]] {
            assert!(clamp(nan, lo, hi).is_nan(), "{lo}, {hi}");
        }
    }
}
