//! parametric.rs, included here so that the modules below see its private functions.
#![allow(dead_code, missing_docs)]

include!(concat!(env!("OUT_DIR"), "/parametric.rs"));

pub(crate) mod seams;
pub(crate) mod surface;
pub(crate) mod textures;

/// Whether a trace leaves out a point after another one, as `trace_edge_curve` asks.
fn same_point(a: Vector, b: Vector) -> bool {
    a.all_close(b)
}
