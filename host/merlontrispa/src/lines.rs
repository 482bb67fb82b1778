use crate::boundary;
use crate::refusal::Refusal;
use std::iter::FusedIterator;
use std::ops::Range;

/// The lists that lines are drawn into, and read from (Rules 9).
///
/// A line is a run of points, three numbers each: it ends where the next one starts, the last one
/// at the count of points.
///
/// ```
/// use merlontrispa::{Drawn, Lines};
///
/// let points = [[0.0, 0.0, 0.0], [1.0, 0.0, 0.0], [2.0, 0.0, 0.0], [5.0, 5.0, 5.0], [6.0, 5.0, 5.0]];
/// let lines = Lines {
///     points: points.as_flattened(),
///     starts: &[0, 3],
///     drawn: Drawn { points: 5, lines: 2 },
/// };
/// for line in &lines {
///     for [x, y, z] in line {
///         println!("{x} {y} {z}");
///     }
/// }
/// assert!(lines.iter().eq([&points[..3], &points[3..]]));
/// ```
#[derive(Debug, Clone, Copy)]
pub struct Lines<'a> {
    /// x, y and z of each point.
    pub points: &'a [f64],
    /// The number of the first point of each line.
    pub starts: &'a [usize],
    /// The counts of points and of lines in these lists.
    pub drawn: Drawn,
}

/// How much was drawn.
#[derive(Debug, Clone, Copy, PartialEq, Eq, Hash)]
pub struct Drawn {
    /// The count of points.
    pub points: usize,
    /// The count of lines.
    pub lines: usize,
}

impl<'a> Lines<'a> {
    /// x, y and z of each point of a line: nothing where there is no such line.
    ///
    /// There is one if `index` is less than the count of lines, neither count is more than its list
    /// holds, and start ≤ end ≤ the count of points (Rules 9.2). It may be empty.
    pub fn get(self, index: usize) -> &'a [f64] {
        let part = boundary::get(self, index);
        &self.points[part.offset..part.offset + part.length]
    }

    /// The number of the point at which a line starts, and of the one before which it ends.
    ///
    /// # Errors
    /// 8 where there is no such line, as for [`Lines::get`].
    pub fn line_span(self, index: usize) -> Result<Range<usize>, Refusal> {
        let answer = boundary::line_span(self, index);
        Refusal::check(answer.refusal).map(|()| answer.start..answer.end)
    }

    /// The lines in turn, each as its points, by [`Lines::get`].
    pub fn iter(self) -> LinesIter<'a> {
        LinesIter {
            lines: self,
            indices: 0..self.drawn.lines,
        }
    }
}

impl<'a> IntoIterator for Lines<'a> {
    type Item = &'a [[f64; 3]];
    type IntoIter = LinesIter<'a>;

    fn into_iter(self) -> LinesIter<'a> {
        self.iter()
    }
}

impl<'a> IntoIterator for &Lines<'a> {
    type Item = &'a [[f64; 3]];
    type IntoIter = LinesIter<'a>;

    fn into_iter(self) -> LinesIter<'a> {
        self.iter()
    }
}

/// The lines in turn, each as its points. Made by [`Lines::iter`].
#[derive(Debug, Clone)]
pub struct LinesIter<'a> {
    lines: Lines<'a>,
    indices: Range<usize>,
}

impl<'a> LinesIter<'a> {
    fn line(&self, index: usize) -> &'a [[f64; 3]] {
        self.lines.get(index).as_chunks().0
    }
}

impl<'a> Iterator for LinesIter<'a> {
    type Item = &'a [[f64; 3]];

    fn next(&mut self) -> Option<Self::Item> {
        self.indices.next().map(|index| self.line(index))
    }

    fn size_hint(&self) -> (usize, Option<usize>) {
        self.indices.size_hint()
    }
}

impl DoubleEndedIterator for LinesIter<'_> {
    fn next_back(&mut self) -> Option<Self::Item> {
        self.indices.next_back().map(|index| self.line(index))
    }
}

impl ExactSizeIterator for LinesIter<'_> {}

impl FusedIterator for LinesIter<'_> {}

/// Lines in lists of their own, with no place past what is drawn.
#[derive(Debug, Clone, PartialEq, Default)]
pub struct OwnedLines {
    /// The points of all lines.
    pub points: Vec<[f64; 3]>,
    /// The number of the first point of each line.
    pub starts: Vec<usize>,
}

impl OwnedLines {
    /// These lines, lent.
    pub fn as_lines(&self) -> Lines<'_> {
        Lines {
            points: self.points.as_flattened(),
            starts: &self.starts,
            drawn: Drawn {
                points: self.points.len(),
                lines: self.starts.len(),
            },
        }
    }

    /// The lines in turn, each as its points.
    pub fn iter(&self) -> LinesIter<'_> {
        self.as_lines().iter()
    }
}

impl<'a> IntoIterator for &'a OwnedLines {
    type Item = &'a [[f64; 3]];
    type IntoIter = LinesIter<'a>;

    fn into_iter(self) -> LinesIter<'a> {
        self.iter()
    }
}

/// Adds lines after those that are there.
impl<'a> Extend<&'a [[f64; 3]]> for OwnedLines {
    fn extend<I: IntoIterator<Item = &'a [[f64; 3]]>>(&mut self, lines: I) {
        for line in lines {
            self.starts.push(self.points.len());
            self.points.extend_from_slice(line);
        }
    }
}

/// The lines of a grid (Rules 9.1): `v_steps + 1` along u, then `u_steps + 1` along v, through
/// `2 * (u_steps + 1) * (v_steps + 1)` points.
///
/// All places of the two lists past what is drawn become zero.
///
/// # Errors
/// 1, 2, 3 (`points` has less than `6 * (u_steps + 1) * (v_steps + 1)` places, or `starts` less than
/// `u_steps + v_steps + 2`) and 4. The lists are then as they were.
///
/// ```
/// use merlontrispa::Lines;
///
/// let grid = [0.0, 0.0, 0.0, 0.0, 1.0, 0.0, 1.0, 0.0, 0.0, 1.0, 1.0, 5.0];
/// let (mut points, mut starts) = ([0.0; 24], [0; 4]);
/// let drawn = merlontrispa::grid_paths(&grid, 1, 1, &mut points, &mut starts)?;
/// let lines = Lines { points: &points, starts: &starts, drawn };
/// assert_eq!(lines.get(0), [0.0, 0.0, 0.0, 1.0, 0.0, 0.0]);
/// assert_eq!(lines.line_span(3)?, 6..8);
/// # Ok::<(), merlontrispa::Refusal>(())
/// ```
pub fn grid_paths(
    grid: &[f64],
    u_steps: usize,
    v_steps: usize,
    points: &mut [f64],
    starts: &mut [usize],
) -> Result<Drawn, Refusal> {
    boundary::grid_paths(grid, u_steps, v_steps, points, starts).into()
}
