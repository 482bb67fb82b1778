//! The rows that a seam joins, and whether a mapping that is given fits them: by the rule, over the
//! original's closeness and its `map_index`.

use super::mappings;
use crate::inputs::grids::Grid;
use crate::inputs::tolerances::Point;
use crate::mappings::{offset_and_steps, searched, to_original};
use merlontrispa::{Mapping, Tolerances};
use original::edited;

/// The rows that a seam joins, and the tolerance by which their points are close.
#[derive(Clone)]
pub struct Edges {
    pub a: Vec<Point>,
    pub b: Vec<Point>,
    pub tolerance: f64,
}

impl Edges {
    /// Those of the u seam and those of the v seam.
    pub fn both(grid: &Grid, tolerances: Tolerances) -> [Self; 2] {
        let [[u0, ue], [v0, ve]] = grid.edges();
        [(u0, ue, tolerances.u), (v0, ve, tolerances.v)].map(|(a, b, tolerance)| Self {
            a,
            b,
            tolerance,
        })
    }

    pub fn at(&self, tolerance: f64) -> Self {
        Self {
            tolerance,
            ..self.clone()
        }
    }

    pub fn steps(&self) -> usize {
        self.a.len() - 1
    }

    /// Whether a mapping fits (Rules 3.5): it is one of these rows, at an offset that is tried, and
    /// each point of a is close to its image in b.
    pub fn fits(&self, mapping: Mapping) -> bool {
        self.has(mapping) && self.tries(mapping) && self.apart(mapping).next().is_none()
    }

    /// Whether a mapping has the steps of these rows and an offset below them.
    pub fn has(&self, mapping: Mapping) -> bool {
        let [offset, steps] = offset_and_steps(mapping);
        steps == self.steps() && offset < steps
    }

    /// Whether a search tries its offset: 0, or on closed rows any.
    pub fn tries(&self, mapping: Mapping) -> bool {
        offset_and_steps(mapping)[0] == 0 || self.closed() == [true; 2]
    }

    /// Whether the ends of a are close, and whether those of b are.
    pub fn closed(&self) -> [bool; 2] {
        [&self.a, &self.b].map(|row| self.close(row[0], row[self.steps()]))
    }

    /// The points of a that are not close to their images by a mapping of these rows.
    pub fn apart(&self, mapping: Mapping) -> impl Iterator<Item = usize> {
        let mapping = to_original(mapping);
        let image = move |j| self.b[mapping.map_index(j)];
        (0..=self.steps()).filter(move |&j| !self.close(self.a[j], image(j)))
    }

    pub fn close(&self, p: Point, q: Point) -> bool {
        edited::Vector::from(p).all_close(q.into(), self.tolerance)
    }

    /// Each mapping of these rows, in the order in which a search tries them.
    pub fn mappings(&self) -> impl Iterator<Item = Mapping> + use<> {
        mappings(self.steps()).flatten()
    }

    /// What the original finds.
    pub fn searched(&self) -> Option<Mapping> {
        let [a, b] = [&self.a, &self.b].map(|row| row.as_flattened());
        searched(a, b, Some(self.tolerance)).mapping
    }
}
