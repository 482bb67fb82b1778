//! The seam search of the file that this stands in: unchanged or edited.
#![warn(missing_docs)]

use super::{CyclicMapping, Vector};
use std::cell::Cell;

/// What the search finds and how often it asks whether two points are close.
pub fn search(
    a: &[Vector],
    b: &[Vector],
    close: impl Fn(Vector, Vector) -> bool,
) -> (Option<CyclicMapping>, u64) {
    let comparisons = Cell::new(0);
    let found = CyclicMapping::new_eq(a, b, |p, q| {
        comparisons.set(comparisons.get() + 1);
        close(*p, *q)
    });
    (found, comparisons.get())
}

/// What the search finds where it passes over every direction but one, at one offset.
pub fn search_for(
    a: &[Vector],
    b: &[Vector],
    (reverse, offset): (bool, usize),
    close: impl Fn(Vector, Vector) -> bool,
) -> Option<CyclicMapping> {
    let count = a.len();
    let numbered = |row: &[Vector], first| row.iter().copied().zip(first..).collect::<Vec<_>>();
    let directions = Cell::new(0);
    CyclicMapping::new_eq(&numbered(a, 0), &numbered(b, count), |&(p, i), &(q, k)| {
        // A direction begins with the first point of a and a point of b, forward before reverse.
        if i > 0 || k < count {
            return close(p, q);
        }
        let before = directions.replace(directions.get() + 1);
        (before % 2 == 1, before / 2) == (reverse, offset) && close(p, q)
    })
}
