//! Wrong libraries are found, their differences made as small as they can be, written and read again.

use crate::difference::{Difference, Saved};
use crate::driver::{Amount, Compared, Driver, Ended, Task};
use std::time::Duration;

/// The smallest case that a comparison of a wrong library is found to differ on. The same case
/// differs when it is replayed, and does so no longer where the comparison is of the `mended`
/// library. Handed back are its words, floats by their values and points that are all zero as `o`.
pub fn found(
    wrong: impl Fn(&mut Driver) -> Compared,
    mended: impl Fn(&mut Driver) -> Compared,
) -> String {
    let run = |task, compare: &dyn Fn(&mut Driver) -> Compared| {
        compare(&mut Driver::new(task, 1, Duration::from_secs(60)))
    };
    let difference = |told: Compared| -> Difference {
        match told {
            Err(Ended::Difference(difference)) => difference,
            other => panic!("{other:?} where a difference should be"),
        }
    };
    let first = difference(run(Task::Run(Amount::Own), &wrong));
    let replay = || Task::Replay(Saved::read(&first.to_string()).expect("it was written"));
    assert_eq!(difference(run(replay(), &wrong)), first);
    assert_eq!(run(replay(), &mended), Ok(()));
    readable(&first.case)
}

fn readable(case: &str) -> String {
    let value = |word: &str| match word.split_once('(') {
        Some((_, value)) => value.trim_end_matches(')').to_owned(),
        None => word.to_owned(),
    };
    let words: Vec<_> = case.split_whitespace().map(value).collect();
    words.join(" ").replace("0.0 0.0 0.0", "o")
}
