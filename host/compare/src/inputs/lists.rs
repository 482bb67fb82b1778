//! Lists that are lent for output: before a call no place is zero.

use crate::inputs::grids::Grid;
use crate::random::Random;

/// Grids of fewer cells, each with lists of these lengths, and with lists that are as far from the
/// least as these are.
pub fn fewer_cells(
    grid: &Grid,
    lengths: [usize; 2],
    least: fn(usize, usize) -> [usize; 2],
) -> impl Iterator<Item = (Grid, [usize; 2])> + use<> {
    let (m, n) = (grid.u_steps, grid.v_steps);
    grid.fewer_lines().flat_map(move |grid| {
        let (before, after) = (least(m, n), least(grid.u_steps, grid.v_steps));
        let moved = [0, 1].map(|i| as_far(lengths[i], before[i], after[i]));
        [(grid.clone(), moved), (grid, lengths)]
    })
}

/// The length that is as far from `after` as this one from `before`.
pub fn as_far(length: usize, before: usize, after: usize) -> usize {
    (after + length).saturating_sub(before)
}

/// A list of numbers before a call.
pub fn numbers(length: usize) -> Vec<usize> {
    (0..length).map(|i| !i).collect()
}

/// A list of floats before a call.
pub fn floats(length: usize) -> Vec<f64> {
    (0..length).map(|i| -1.5 - i as f64).collect()
}

/// These values in a list, and zero past them.
pub fn fill<T: Copy + Default>(list: &mut [T], values: impl IntoIterator<Item = T>) {
    let mut values = values.into_iter();
    for place in &mut *list {
        *place = values.next().unwrap_or_default();
    }
    assert!(values.next().is_none(), "the list has room for all values");
}

/// A length that is mostly the least that is taken, or one less, or more.
pub fn length(random: &mut Random, least: usize) -> usize {
    match random.below(8) {
        0 => least.saturating_sub(1),
        1 => random.below(least as u64 + 1) as usize,
        2 => least + 1,
        3 => least + random.below(10) as usize,
        _ => least,
    }
}
