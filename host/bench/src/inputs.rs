//! Surfaces and rows to measure on, and lists to draw into.

use merlontrispa::{EPS, Tolerances, TraceLists};
use std::f64::consts::TAU;

/// Those of the original, so that both do the same.
pub const TOLERANCES: Tolerances = Tolerances {
    u: EPS,
    v: EPS,
    line: EPS,
};

/// The numbers of a grid of `steps` by `steps` cells, from the point at each u and v.
pub fn grid(steps: usize, point: impl Fn(usize, usize) -> [f64; 3]) -> Vec<f64> {
    let places = (0..=steps).flat_map(|u| (0..=steps).map(move |v| (u, v)));
    places.flat_map(|(u, v)| point(u, v)).collect()
}

/// A Klein bottle: column u = M runs against column u = 0, and each column is closed.
pub fn klein(steps: usize) -> Vec<f64> {
    grid(steps, |u, v| {
        let v = if u == steps { steps - v } else { v };
        let (u, v) = (turn(u, steps), turn(v, steps));
        [u.cos(), v.cos(), v.sin()]
    })
}

/// Point `j` of a closed row of so many steps around a circle.
pub fn circle(j: usize, steps: usize) -> [f64; 3] {
    let angle = turn(j, steps);
    [angle.cos(), angle.sin(), 0.5]
}

/// The angle of a step on a circle of so many; the last of them is the first again.
pub fn turn(step: usize, steps: usize) -> f64 {
    TAU * (step % steps) as f64 / steps as f64
}

/// Lists that a trace draws into.
#[derive(Debug, PartialEq)]
pub struct Lists {
    pub points: Vec<f64>,
    pub starts: Vec<usize>,
    pub sides: Vec<usize>,
    pub fractions: Vec<f64>,
    pub samples: Vec<usize>,
}

impl Lists {
    /// Lists for as many points and as many lines.
    pub fn new(room: usize) -> Self {
        Self {
            points: vec![0.0; 3 * room],
            starts: vec![0; room],
            sides: vec![0; 2 * room],
            fractions: vec![0.0; room],
            samples: vec![0; room],
        }
    }

    pub fn lend(&mut self) -> TraceLists<'_> {
        TraceLists {
            points: &mut self.points,
            starts: &mut self.starts,
            sides: &mut self.sides,
            fractions: &mut self.fractions,
            samples: &mut self.samples,
        }
    }
}
