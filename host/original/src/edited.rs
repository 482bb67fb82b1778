//! The original with closeness at tolerances: copies of vector.rs and parametric.rs with the edits
//! that `TOLERANT` in edits.rs lists. path.rs and util.rs are the unchanged ones, so that the EPS by
//! which a trace finds its events, lambdas and borders is not touched, nor is that of `step_index`.
//!
//! Triangulation and traces take the tolerances of the call of [`at`] that they stand in.

mod parametric;
// The same stand-ins, over the edited Vector.
#[path = "stand_ins.rs"]
mod stand_ins;

use crate::{common, path, util};
use stand_ins::{bounding_box, hit, matrix, mesh, ray, shape};
use std::cell::Cell;

// vector.rs, edited, as a module of this one.
include!(concat!(env!("OUT_DIR"), "/tolerant.rs"));

pub use parametric::surface::Surface;
pub use vector::Vector;

/// The tolerances of a surface.
#[derive(Debug, Clone, Copy, PartialEq)]
pub struct Tolerances {
    /// Of the seam between column u = 0 and column u = M.
    pub u: f64,
    /// Of the seam between row v = 0 and row v = N.
    pub v: f64,
    /// Of a point and the last one of the pending line.
    pub line: f64,
}

thread_local! {
    static TOLERANCES: Cell<Option<Tolerances>> = const { Cell::new(None) };
}

/// What a call answers at these tolerances.
pub fn at<T>(tolerances: Tolerances, call: impl FnOnce() -> T) -> T {
    let before = TOLERANCES.replace(Some(tolerances));
    let answer = call();
    TOLERANCES.set(before);
    answer
}

/// The tolerances that the copies name.
fn tolerances() -> Tolerances {
    TOLERANCES.get().expect("the call stands in `at`")
}

/// The points of a list of three numbers each.
pub fn vectors(numbers: &[f64]) -> Vec<Vector> {
    let points = numbers.as_chunks::<3>().0.iter();
    points.map(|&point| point.into()).collect()
}

/// What the seam search finds at a tolerance, and how often it asks whether two points are close.
pub fn search(a: &[Vector], b: &[Vector], tolerance: f64) -> (Option<crate::CyclicMapping>, u64) {
    let close = |p: Vector, q| p.all_close(q, tolerance);
    let (found, comparisons) = parametric::seams::search(a, b, close);
    (found.map(Into::into), comparisons)
}

/// Whether the search at a tolerance finds a mapping where it passes over every other one.
pub fn finds(a: &[Vector], b: &[Vector], mapping: crate::CyclicMapping, tolerance: f64) -> bool {
    let parts = |mapping| match mapping {
        crate::CyclicMapping::Forward(offset, steps) => ((false, offset), steps),
        crate::CyclicMapping::Reverse(offset, steps) => ((true, offset), steps),
    };
    let (wanted, steps) = parts(mapping);
    let close = |p: Vector, q| p.all_close(q, tolerance);
    let found = parametric::seams::search_for(a, b, wanted, close);
    found.is_some_and(|found| parts(found.into()) == (wanted, steps))
}

/// What `new_vector` finds at a tolerance.
pub fn new_vector(a: &[Vector], b: &[Vector], tolerance: f64) -> Option<crate::CyclicMapping> {
    parametric::CyclicMapping::new_vector(a, b, tolerance).map(Into::into)
}

impl From<crate::ParametricSurfaceTexture> for parametric::ParametricSurfaceTexture {
    fn from(texture: crate::ParametricSurfaceTexture) -> Self {
        use crate::ParametricSurfaceTexture::{Grid, Spiral, Swirl};
        match texture {
            Grid => Self::Grid,
            Swirl { spacing, twist } => Self::Swirl { spacing, twist },
            Spiral { spacing, arms } => Self::Spiral { spacing, arms },
        }
    }
}

impl From<parametric::CyclicMapping> for crate::CyclicMapping {
    fn from(mapping: parametric::CyclicMapping) -> Self {
        match mapping {
            parametric::CyclicMapping::Forward(offset, steps) => Self::Forward(offset, steps),
            parametric::CyclicMapping::Reverse(offset, steps) => Self::Reverse(offset, steps),
        }
    }
}
