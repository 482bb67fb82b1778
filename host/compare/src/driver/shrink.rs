//! The smallest case that still shows a difference, as far as it can be found in the time.

use crate::case::Case;
use std::time::{Duration, Instant};

/// Goes from a case to the first smaller one that differs too, until there is none or the time is over.
pub fn shrink<I: Case>(given: I, time: Duration, mut differs: impl FnMut(&I) -> bool) -> I {
    let start = Instant::now();
    let mut least = given;
    while start.elapsed() < time {
        let tried = least.smaller().take_while(|_| start.elapsed() < time);
        match tried.into_iter().find(|smaller| differs(smaller)) {
            Some(smaller) => least = smaller,
            None => break,
        }
    }
    least
}
