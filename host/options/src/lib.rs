//! What the user of `./draw` asks for: the options and their help, the surfaces by name, and
//! formulas. The proved library is not needed here, so that a fault in the options is told before
//! it is built.

mod formula;
mod parametric;
mod request;

pub use formula::{Fault, Formula};
pub use parametric::{ParametricSurface, names};
pub use request::{Options, Request, Seam, Style, Texture, Tolerances};

/// What `./draw --help` prints.
pub const HELP: &str = include_str!("help.txt");
