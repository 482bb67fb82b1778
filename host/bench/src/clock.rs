//! Runs in turn, and their medians.

use std::hint::black_box;
use std::time::{Duration, Instant};

/// How long a run lasts at least: a call that is shorter is repeated.
const RUN: Duration = Duration::from_millis(4);

/// How many runs each side has.
const RUNS: usize = 51;

/// A call that uses its input up, after what makes that input.
pub struct Input<M, C>(pub M, pub C);

/// A call on what is there.
pub fn call<T>(mut call: impl FnMut() -> T) -> impl Timed {
    Input(|| (), move |()| call())
}

/// What is timed.
pub trait Timed {
    /// The time of one call. Its input is made before, and what it hands back is dropped after.
    fn once(&mut self) -> Duration;

    /// The calls that make up a run.
    fn calls(&mut self) -> u32 {
        let (mut calls, mut total) = (0, Duration::ZERO);
        while total < RUN {
            total += self.once();
            calls += 1;
        }
        calls
    }

    /// The nanoseconds of a call, on average over a run.
    fn run(&mut self, calls: u32) -> f64 {
        let total: Duration = (0..calls).map(|_| self.once()).sum();
        total.as_nanos() as f64 / f64::from(calls)
    }
}

impl<A, T, M: FnMut() -> A, C: FnMut(A) -> T> Timed for Input<M, C> {
    fn once(&mut self) -> Duration {
        let input = black_box(self.0());
        let start = Instant::now();
        let output = black_box(self.1(input));
        let time = start.elapsed();
        drop(output);
        time
    }
}

pub struct Table(Vec<String>);

impl Table {
    /// A table of the rows whose name begins with one of these, or of all.
    pub fn new(names: Vec<String>) -> Self {
        let head = format!("medians of {RUNS} runs each");
        println!(
            "{head:48} {:>12} {:>12} {:>7} {:>15}",
            "library ns", "original ns", "ratio", "quartiles"
        );
        Self(names)
    }

    /// Times the library beside the original.
    pub fn row(&self, name: &str, mut library: impl Timed, mut original: impl Timed) {
        if !self.0.is_empty() && !self.0.iter().any(|begin| name.starts_with(begin)) {
            return;
        }
        let calls = [library.calls(), original.calls()];
        let runs: Vec<_> = (0..RUNS)
            .map(|_| [library.run(calls[0]), original.run(calls[1])])
            .collect();
        let [_, library, _] = quartiles(runs.iter().map(|run| run[0]));
        let [_, original, _] = quartiles(runs.iter().map(|run| run[1]));
        let [low, ratio, high] = quartiles(runs.iter().map(|run| run[0] / run[1]));
        println!("{name:48} {library:12.0} {original:12.0} {ratio:7.3} {low:7.3} {high:7.3}");
    }
}

/// The values a quarter, a half and three quarters of the way up.
fn quartiles(values: impl Iterator<Item = f64>) -> [f64; 3] {
    let mut values: Vec<_> = values.collect();
    values.sort_by(f64::total_cmp);
    [1, 2, 3].map(|quarter| values[values.len() * quarter / 4])
}
