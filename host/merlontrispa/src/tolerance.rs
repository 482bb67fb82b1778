use crate::mapping::Mapping;
use crate::refusal::Refusal;

/// The f64 nearest to 10^-9 (Rules 1.3): each tolerance where none is given, with which the library
/// answers as the original does.
pub const EPS: f64 = 1e-9;

/// How far apart two points may be and still count as one, at the seams and along a line (Rules
/// 2.3).
///
/// Two points are close by a tolerance if of the magnitudes of their three differences the largest
/// is less than it ([`Vector::all_close`](crate::Vector::all_close)). Each tolerance is a distance
/// in the space of the grid, above 0 and at most 1. What a trace asks of u and v, such as whether a
/// sample lies on a side, is decided by [`EPS`] whatever the tolerances are.
///
/// A [`Surface`](crate::Surface) carries three, [`EPS`] each unless it is told otherwise.
///
/// ```
/// use merlontrispa::{EPS, Mapping, Surface, Tolerances};
///
/// // A tube of three steps whose last column misses the first by a hundredth.
/// let columns = [[0.0, 0.0], [0.5, 0.0], [0.25, 0.5], [0.0, 0.01]];
/// let grid: Vec<f64> = columns.iter().flat_map(|[x, y]| [*x, *y, 0.0, *x, *y, 9.0]).collect();
/// let surface = Surface::new(&grid, 3, 1)?;
/// assert_eq!(surface.tolerances(), Tolerances { u: EPS, v: EPS, line: EPS });
/// assert_eq!(surface.seams().u.mapping, None);
///
/// let coarse = surface.with_tolerances(Tolerances { u: 0.02, ..Tolerances::default() })?;
/// assert_eq!(coarse.seams().u.mapping, Some(Mapping::Forward { offset: 0, steps: 1 }));
///
/// // Halfway along the first cell a curve crosses its diagonal, which a broad pen shows as a blot.
/// let curve = [Some([0.0, 0.5]), Some([1.0, 0.5])];
/// assert_eq!(surface.trace(&curve)?.lines.points.len(), 3);
/// let broad = surface.with_tolerances(Tolerances { line: 0.3, ..Tolerances::default() })?;
/// assert_eq!(broad.trace(&curve)?.lines.points, [[0.0, 0.0, 4.5], [0.5, 0.0, 4.5]]);
/// # Ok::<(), merlontrispa::Refusal>(())
/// ```
#[derive(Debug, Clone, Copy, PartialEq)]
pub struct Tolerances {
    /// Of the u seam, between column u = 0 and column u = M.
    pub u: f64,
    /// Of the v seam, between row v = 0 and row v = N.
    pub v: f64,
    /// Of neighbours on a traced line: a point that is close to the last one of its line is left
    /// out.
    pub line: f64,
}

impl Default for Tolerances {
    /// [`EPS`] three times.
    fn default() -> Self {
        Self {
            u: EPS,
            v: EPS,
            line: EPS,
        }
    }
}

impl Tolerances {
    /// # Errors
    /// 13 where a call that takes these would answer it.
    pub(crate) fn check(self) -> Result<(), Refusal> {
        // The rule of 13 is the library's alone: a search between rows without points looks at its
        // tolerance and at nothing else.
        for tolerance in [self.u, self.v, self.line] {
            Mapping::new_vector(&[], &[], tolerance)?;
        }
        Ok(())
    }
}
