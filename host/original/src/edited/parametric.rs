//! The edited copy of parametric.rs, and beside it the same modules as beside the unchanged file.
#![allow(clippy::all, dead_code, missing_docs)]

include!(concat!(env!("OUT_DIR"), "/tolerant/parametric.rs"));

#[path = "../parametric/seams.rs"]
pub(crate) mod seams;
#[path = "../parametric/surface.rs"]
pub(crate) mod surface;

/// Whether a trace leaves out a point after another one, as `trace_edge_curve` asks.
fn same_point(a: Vector, b: Vector) -> bool {
    a.all_close(b, super::tolerances().line)
}
