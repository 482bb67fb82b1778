//! The comparison of the library with the original; `main.rs` says how it is called.
//!
//! A layer (`layers`) makes inputs (`inputs`) and hands them to the driver (`driver`), with the two
//! functions that are compared. An input is a `case::Case`: it can be written, read again and made
//! smaller. An output is a `value::Value`. `run` does what the command line asks for, and `record`
//! makes the cases of `crates/replay`.
//!
//! Where the sources of the original are absent this crate is empty.
#![cfg(larnt)]

mod case;
mod difference;
mod driver;
mod inputs;
mod layers;
mod mappings;
#[cfg(test)]
mod planted;
mod random;
mod record;
mod request;
mod run;
mod text;
mod value;

pub use run::run;
