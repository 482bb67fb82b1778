//! The numbers that a texture is planned from.
#![warn(missing_docs)]

use super::ParametricSurface;

/// The spacing, or the default where it is none.
pub fn texture_spacing(spacing: f64) -> f64 {
    ParametricSurface::texture_spacing(spacing)
}

/// The samples of a ray of a swirl.
pub fn radial_sample_count(radius: f64, spacing: f64, angular_turns: f64) -> usize {
    ParametricSurface::radial_sample_count(radius, spacing, angular_turns)
}

/// The samples of an arm of a spiral.
pub fn spiral_sample_count(radius: f64, spacing: f64, turns: f64) -> usize {
    ParametricSurface::spiral_sample_count(radius, spacing, turns)
}
