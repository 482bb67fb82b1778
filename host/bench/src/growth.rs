//! How the times grow with the cells and the samples.

use crate::cases::plane;
use crate::clock::Table;
use crate::inputs::circle;
use crate::rows;
use std::f64::consts::TAU;

pub fn run(table: &Table) {
    for steps in [16, 64, 255] {
        // Closed rows that fit forward at the last offset.
        let [a, b] = [0, 1].map(|shift| -> Vec<_> {
            let points = (0..=steps).map(|j| circle(j + shift, steps));
            points.collect()
        });
        let grid = plane(steps);
        rows::seam(table, &format!("seam, closed, {steps} steps"), &a, &b);
        let size = format!("{steps} by {steps}");
        rows::triangles(table, &format!("triangles, {size}"), steps, &grid);
        rows::lines(table, &format!("grid lines, {size}"), steps, &grid);
        for count in [1_000, 10_000] {
            let name = format!("trace, {size}, {count} samples");
            rows::trace(table, &name, steps, &grid, &turns(steps, count));
        }
    }
}

/// 20 turns around the middle, their samples as far apart as their number says.
fn turns(steps: usize, count: usize) -> Vec<[f64; 2]> {
    let middle = steps as f64 / 2.0;
    let sample = |i: usize| {
        let angle = 20.0 * TAU * i as f64 / count as f64;
        let radius = middle * (0.2 + 0.7 * i as f64 / count as f64);
        [middle + radius * angle.cos(), middle + radius * angle.sin()]
    };
    (0..=count).map(sample).collect()
}
