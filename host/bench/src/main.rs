//! Times the library beside the original, in one process, and prints a table.
//!
//!     cargo run --release -p bench [--growth] [NAME..]
//!     cargo run --release -p bench -- --stack
//!
//! The two take turns, and the table has the median time of each, the median of the ratios of
//! neighbouring runs and its quartiles. Names choose the rows that begin so. `--growth` has rows of
//! several sizes, and `--stack` the most stack that each call takes.

use std::process::ExitCode;

#[cfg(larnt)]
mod cases;
#[cfg(larnt)]
mod clock;
#[cfg(larnt)]
mod growth;
mod inputs;
#[cfg(larnt)]
mod rows;
mod stack;
#[cfg(larnt)]
mod whole;

fn main() -> ExitCode {
    let mut words = std::env::args().skip(1).peekable();
    match words.peek().map(String::as_str) {
        Some("--stack") => stack::run(),
        Some(stack::CHILD) => stack::child(words.skip(1)),
        _ => times(words.collect()),
    }
}

#[cfg(larnt)]
fn times(mut names: Vec<String>) -> ExitCode {
    if names.first().is_some_and(|word| word == "--growth") {
        names.remove(0);
        growth::run(&clock::Table::new(names));
    } else {
        let table = clock::Table::new(names);
        cases::run(&table);
        whole::run(&table);
    }
    ExitCode::SUCCESS
}

#[cfg(not(larnt))]
fn times(_: Vec<String>) -> ExitCode {
    println!(
        "bench: not run, since ../shared/docs/src (or LARNT_SRC) has not the original's sources"
    );
    ExitCode::from(2)
}
