//! The original, compiled unchanged over stand-ins of our own, and beside it what the comparison
//! calls. Some of its files are compiled once more from copies that `build.rs` edits: in `rays` with
//! cosine and sine lent, in `edited` with closeness at tolerances, in `given` with seams that are
//! given.
//!
//! The sources are not part of this repository: `build.rs` says where they are looked for. Where they
//! are absent this crate is empty, and its dependents learn it from `DEP_LARNT_PRESENT`.
#![cfg(larnt)]

pub mod edited;
pub mod given;
mod parametric;
mod rays;
mod stand_ins;
mod walk;

use stand_ins::{bounding_box, common, filter, hit, matrix, mesh, ray, shape};

// path.rs, util.rs and vector.rs as modules of this crate.
include!(concat!(env!("OUT_DIR"), "/larnt.rs"));

pub use parametric::surface::{Surface, step_index};
pub use parametric::textures::{radial_sample_count, spiral_sample_count, texture_spacing};
pub use parametric::{CyclicMapping, ParametricSurfaceTexture};
pub use path::Paths;
pub use rays::{RaySample, Rays, rays};
pub use vector::Vector;
pub use walk::{Made, Sample, Side, Walk};

/// The points of a list of three numbers each.
pub fn vectors(numbers: &[f64]) -> Vec<Vector> {
    let points = numbers.as_chunks::<3>().0.iter();
    points.map(|&point| point.into()).collect()
}

/// What the seam search finds, and how often it asks whether two points are close.
pub fn search(a: &[Vector], b: &[Vector]) -> (Option<CyclicMapping>, u64) {
    parametric::seams::search(a, b, Vector::all_close)
}
