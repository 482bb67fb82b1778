//! The rows of the table.

use crate::clock::{Table, call};
use crate::inputs::{Lists, TOLERANCES, circle, grid, klein, turn};
use crate::rows;
use merlontrispa::{EPS, Mapping, Sample, trace_flat, trace_samples};

/// Cells along u and along v.
const STEPS: usize = 255;

pub fn run(table: &Table) {
    seams(table);
    for (name, grid) in [
        ("triangles, 255 by 255, no seam", plane(STEPS)),
        ("triangles, 255 by 255, torus", torus()),
        ("triangles, 255 by 255, Klein bottle", klein(STEPS)),
    ] {
        rows::triangles(table, name, STEPS, &grid);
    }
    let grid = plane(STEPS);
    rows::lines(table, "grid lines, 255 by 255", STEPS, &grid);
    for (name, samples) in [
        ("trace, 255 by 255, 10,000 legs of half a step", spiral()),
        ("trace, 255 by 255, 100 legs across", across()),
    ] {
        rows::trace(table, name, STEPS, &grid, &samples);
    }
    records(table, &grid);
}

fn seams(table: &Table) {
    let row = |point: &dyn Fn(usize) -> [f64; 3]| -> Vec<_> { (0..=STEPS).map(point).collect() };
    let circle = |j: usize| circle(j, STEPS);
    let line = |j: usize| [j as f64, 0.0, 0.0];
    let (closed, open) = (row(&circle), row(&line));
    for (name, a, b) in [
        (
            "seam, closed, 256 points, forward, last offset",
            &closed,
            row(&|j| circle(j + 1)),
        ),
        (
            "seam, closed, 256 points, reverse, last offset",
            &closed,
            row(&|j| circle(2 * STEPS - 1 - j)),
        ),
        ("seam, open, 256 points, forward", &open, row(&line)),
        (
            "seam, open, 256 points, reverse",
            &open,
            row(&|j| line(STEPS - j)),
        ),
    ] {
        rows::seam(table, name, a, &b);
    }
    let row = open.as_flattened();
    // The points are further apart than either, so that both search the same.
    table.row(
        "seam at 0.5 beside EPS, open, 256 points",
        call(|| Mapping::new_vector(row, row, 0.5)),
        call(|| Mapping::new_vector(row, row, EPS)),
    );
}

/// The entry that takes records beside the flat one, in the place of the original.
fn records(table: &Table, grid: &[f64]) {
    let samples = spiral();
    let records: Vec<_> = samples.iter().map(|&[u, v]| Sample::at(u, v)).collect();
    let (pairs, marks) = (samples.as_flattened(), vec![1; samples.len()]);
    let [mut by_records, mut by_flat] = [0; 2].map(|_| Lists::new(8 * samples.len()));
    table.row(
        "records beside flat, 10,000 legs of half a step",
        call(|| {
            let lists = by_records.lend();
            trace_samples(grid, STEPS, STEPS, TOLERANCES, &records, lists)
        }),
        call(|| {
            let lists = by_flat.lend();
            trace_flat(grid, STEPS, STEPS, TOLERANCES, pairs, &marks, lists)
        }),
    );
    assert_eq!(by_records, by_flat);
}

/// A grid that nothing joins.
pub fn plane(steps: usize) -> Vec<f64> {
    grid(steps, |u, v| {
        let [u, v] = [u, v].map(|step| step as f64);
        [u, v, (u * v * 1e-3).sin()]
    })
}

fn torus() -> Vec<f64> {
    grid(STEPS, |u, v| {
        let (u, v) = (turn(u, STEPS), turn(v, STEPS));
        let radius = 3.0 + v.cos();
        [radius * u.cos(), radius * u.sin(), v.sin()]
    })
}

/// A spiral of 10,000 legs, its samples half a step apart.
fn spiral() -> Vec<[f64; 2]> {
    let middle = STEPS as f64 / 2.0;
    let sample = |i| {
        let angle = f64::from(i).sqrt();
        let radius = angle / 4.0;
        [middle + radius * angle.cos(), middle + radius * angle.sin()]
    };
    (0..=10_000).map(sample).collect()
}

/// From one side of the grid to the opposite one and back.
fn across() -> Vec<[f64; 2]> {
    let sample = |i| [f64::from(i % 2) * STEPS as f64, f64::from(i) * 2.5 + 0.1];
    (0..=100).map(sample).collect()
}
