//! Mappings, seams and tolerances of the original in the library's types, and back.

use merlontrispa::{Mapping, Seam, Tolerances};
use original::{CyclicMapping, edited, vectors};

pub fn mapping(reverse: bool, offset: usize, steps: usize) -> Mapping {
    if reverse {
        Mapping::Reverse { offset, steps }
    } else {
        Mapping::Forward { offset, steps }
    }
}

/// The offset and the steps of a mapping.
pub fn offset_and_steps(mapping: Mapping) -> [usize; 2] {
    match mapping {
        Mapping::Forward { offset, steps } | Mapping::Reverse { offset, steps } => [offset, steps],
    }
}

/// The same mapping in the original's type.
pub fn to_original(mapping: Mapping) -> CyclicMapping {
    match mapping {
        Mapping::Forward { offset, steps } => CyclicMapping::Forward(offset, steps),
        Mapping::Reverse { offset, steps } => CyclicMapping::Reverse(offset, steps),
    }
}

/// The same tolerances in the edited original's type.
pub fn to_edited(tolerances: Tolerances) -> edited::Tolerances {
    let Tolerances { u, v, line } = tolerances;
    edited::Tolerances { u, v, line }
}

/// What the original's search finds between two rows, three numbers to a point, and its comparisons:
/// the edited original's where a tolerance is given.
pub fn searched(a: &[f64], b: &[f64], tolerance: Option<f64>) -> Seam {
    let (found, comparisons) = match tolerance {
        None => original::search(&vectors(a), &vectors(b)),
        Some(tolerance) => edited::search(&edited::vectors(a), &edited::vectors(b), tolerance),
    };
    let mapping = found.map(|found| match found {
        CyclicMapping::Forward(offset, steps) => Mapping::Forward { offset, steps },
        CyclicMapping::Reverse(offset, steps) => Mapping::Reverse { offset, steps },
    });
    Seam {
        mapping,
        comparisons,
    }
}
