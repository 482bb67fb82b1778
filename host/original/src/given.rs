//! The triangulation of seams that are given: a copy of parametric.rs with the edits that `GIVEN` in
//! edits.rs lists. Its `triangulate_grid` compares no points, so that no tolerance is taken.

use crate::{CyclicMapping, Vector};
use std::cell::Cell;

/// The copy, and beside it what it hands to the mesh builder.
#[allow(clippy::all, dead_code, missing_docs, unused_variables)]
mod copy {
    include!(concat!(env!("OUT_DIR"), "/given/parametric.rs"));

    pub fn mesh(grid: Vec<Vector>, u_steps: usize, v_steps: usize) -> Mesh {
        let number = |u, v| ParametricSurface::grid_index(u, v, v_steps);
        ParametricSurface::triangulate_grid(grid, u_steps, v_steps, number)
    }
}

/// The two seams.
#[derive(Clone, Copy)]
struct Seams {
    u: Option<copy::CyclicMapping>,
    v: Option<copy::CyclicMapping>,
}

thread_local! {
    static SEAMS: Cell<Option<Seams>> = const { Cell::new(None) };
}

/// The seams that the copy names.
fn seams() -> Seams {
    SEAMS.get().expect("the call stands in `triangulated`")
}

/// The triangles, three point numbers each, and the flipped pairs, ascending, of a grid whose point
/// (u, v) has the number `u * (v_steps + 1) + v`, with these seams in the place of those that the
/// original finds.
pub fn triangulated(
    grid: Vec<Vector>,
    u_steps: usize,
    v_steps: usize,
    u: Option<CyclicMapping>,
    v: Option<CyclicMapping>,
) -> (Vec<usize>, Vec<(usize, usize)>) {
    let [u, v] = [u, v].map(|seam| seam.map(Into::into));
    SEAMS.set(Some(Seams { u, v }));
    let mesh = copy::mesh(grid, u_steps, v_steps);
    SEAMS.set(None);
    let mut flipped: Vec<_> = mesh.flipped_triangles.into_iter().collect();
    flipped.sort_unstable();
    (mesh.triangles, flipped)
}

impl From<CyclicMapping> for copy::CyclicMapping {
    fn from(mapping: CyclicMapping) -> Self {
        match mapping {
            CyclicMapping::Forward(offset, steps) => Self::Forward(offset, steps),
            CyclicMapping::Reverse(offset, steps) => Self::Reverse(offset, steps),
        }
    }
}
