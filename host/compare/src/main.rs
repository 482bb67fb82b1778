//! Compares the library with the original, bit by bit, on random and edge inputs.
//!
//!     compare [--seed NUMBER] [--cases NUMBER | --total NUMBER] [--shrink SECONDS] [--write FILE] [LAYER..]
//!     compare --replay FILE
//!     compare --bytes FILE [LAYER..]
//!     compare [--seed NUMBER] --record FILE
//!
//! Without a number each comparison takes a number of random inputs of its own. `--cases` says how
//! many each takes; one on large grids takes its share of them. `--total` says how many all take
//! together: the layers share them as `LAYERS` says, and the comparisons of a layer in the
//! proportion of their own numbers. Lists of inputs that are not random are run whole besides.
//!
//! The first difference ends the run with status 1. It is made smaller, for 20 seconds or so many
//! as `--shrink` says, printed by its bits, and written to difference.txt or the file that
//! `--write` names. `--replay` runs the written case alone: status 1 while it differs, 0 when it
//! does no longer. `--bytes` runs one case that the bytes of a file choose (`-` is stdin), as a
//! fuzzer wants it. `--record` writes the cases that `crates/replay` runs, and says what they
//! reach. Where the sources of the original are absent nothing is compared, and the status is 2.

use std::process::ExitCode;

#[cfg(larnt)]
fn main() -> ExitCode {
    compare::run(std::env::args().skip(1))
}

#[cfg(not(larnt))]
fn main() -> ExitCode {
    println!(
        "compare: not run, since ../shared/docs/src (or LARNT_SRC) has not the original's sources"
    );
    ExitCode::from(2)
}
