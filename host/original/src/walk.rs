//! What the walk of a trace makes, whichever original goes it, and a panic of its own.

use std::cell::Cell;
use std::panic::{self, AssertUnwindSafe};
use std::sync::Once;

/// A sample of a curve: u and v, or a break.
pub type Sample = Option<(f64, f64)>;

/// The two grid points that a drawn point lies between, and where (Rules 7.2).
#[derive(Debug, Clone, Copy, PartialEq)]
pub struct Side {
    /// The number of p.
    pub p: usize,
    /// The number of q.
    pub q: usize,
    /// How far the point lies from p to q.
    pub t: f64,
}

/// A point that the walk of a trace makes.
#[derive(Debug, Clone, Copy, PartialEq)]
pub struct Made {
    /// The point and what it was made from, or nothing where the original panics.
    pub point: Option<([f64; 3], Side)>,
    /// The number of the sample that the original took last before it made the point, from 0 on.
    pub sample: usize,
    /// Whether it is close to the last pending point, or nothing where no point is pending.
    pub close: Option<bool>,
}

/// The walk of a trace. It goes on where the original panics.
#[derive(Debug, Clone, PartialEq)]
pub struct Walk {
    /// The points that it makes, in order. A pending line was flushed before each one at which no
    /// point is pending, and at the end.
    pub made: Vec<Made>,
    /// Those that the original's own lines keep.
    pub kept: Vec<Made>,
}

thread_local! {
    static EXPECTED: Cell<bool> = const { Cell::new(false) };
}

/// The call's answer, or nothing where it panics. Such a panic is not reported.
pub(crate) fn caught<T>(call: impl FnOnce() -> T) -> Option<T> {
    static QUIET: Once = Once::new();
    QUIET.call_once(|| {
        let report = panic::take_hook();
        panic::set_hook(Box::new(move |info| {
            if !EXPECTED.get() {
                report(info);
            }
        }));
    });
    EXPECTED.set(true);
    let answer = panic::catch_unwind(AssertUnwindSafe(call));
    EXPECTED.set(false);
    answer.ok()
}
