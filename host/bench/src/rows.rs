//! Rows of the table: a call of the library beside the original's, on the same input.

use crate::clock::{Input, Table, call};
use crate::inputs::{Lists, TOLERANCES};
use merlontrispa::{EPS, Mapping, grid_paths, trace_flat, triangulate_grid};
use original::{CyclicMapping, ParametricSurfaceTexture, Sample, Surface, vectors};

/// The search for the seam between two rows.
pub fn seam(table: &Table, name: &str, a: &[[f64; 3]], b: &[[f64; 3]]) {
    let [a, b] = [a, b].map(<[_]>::as_flattened);
    let [p, q] = [a, b].map(vectors);
    table.row(
        name,
        call(|| Mapping::new_vector(a, b, EPS)),
        call(|| CyclicMapping::new_vector(&p, &q)),
    );
}

/// The triangles of a grid of `steps` by `steps` cells.
pub fn triangles(table: &Table, name: &str, steps: usize, grid: &[f64]) {
    let points = vectors(grid);
    let (mut triangles, mut flipped) = (vec![0; 6 * steps * steps], vec![0; 4 * steps]);
    table.row(
        name,
        call(|| {
            let (triangles, flipped) = (&mut triangles, &mut flipped);
            triangulate_grid(grid, steps, steps, TOLERANCES, triangles, flipped)
        }),
        Input(
            || points.clone(),
            |points| Surface::triangulate(points, steps, steps),
        ),
    );
}

/// The lines of a grid of `steps` by `steps` cells.
pub fn lines(table: &Table, name: &str, steps: usize, grid: &[f64]) {
    let mut surface = Surface::from_grid(vectors(grid), steps, steps);
    let count = 2 * (steps + 1) * (steps + 1);
    let (mut points, mut starts) = (vec![0.0; 3 * count], vec![0; 2 * steps + 2]);
    table.row(
        name,
        call(|| grid_paths(grid, steps, steps, &mut points, &mut starts)),
        call(|| surface.paths(ParametricSurfaceTexture::Grid)),
    );
}

/// The trace of samples without a break, into lists that just hold its points.
pub fn trace(table: &Table, name: &str, steps: usize, grid: &[f64], samples: &[[f64; 2]]) {
    let surface = Surface::from_grid(vectors(grid), steps, steps);
    let curve: Vec<Sample> = samples.iter().map(|&[u, v]| Some((u, v))).collect();
    let paths = surface.trace(&curve).expect("the original draws it");
    let mut lists = Lists::new(paths.total_len());
    let (pairs, marks) = (samples.as_flattened(), vec![1; samples.len()]);
    let mut library = || {
        let lists = lists.lend();
        trace_flat(grid, steps, steps, TOLERANCES, pairs, &marks, lists)
    };
    let drawn = library().expect("the lists hold it");
    assert_eq!(drawn.points, paths.total_len(), "both draw the same");
    table.row(name, call(library), call(|| surface.trace(&curve)));
}
