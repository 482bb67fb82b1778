use crate::boundary::{self, FoundSeam};
use crate::mapping::{Mapping, Seam};
use crate::refusal::Refusal;
use crate::tolerance::Tolerances;

/// The two seams of a grid.
#[derive(Debug, Clone, Copy, PartialEq, Eq, Hash)]
pub struct Seams {
    /// Between column u = 0 and column u = M.
    pub u: Seam,
    /// Between row v = 0 and row v = N.
    pub v: Seam,
}

impl From<[FoundSeam; 2]> for Seams {
    fn from(seams: [FoundSeam; 2]) -> Self {
        let [u, v] = seams.map(Seam::from);
        Self { u, v }
    }
}

/// The seams of a grid of `u_steps` by `v_steps` cells: that of u, by the tolerance of u, and that of
/// v, by the tolerance of v, each as [`Mapping::new_vector`] finds it (Rules 4.1).
///
/// The tolerance of lines is tested and not used.
///
/// # Errors
/// 1, 2, 13 and 4, tested in this order.
///
/// ```
/// use merlontrispa::{Mapping, Tolerances, find_seams};
///
/// // A band of two cells whose last column is its first, turned over.
/// let columns = [[[0.0, 1.0], [0.0, -1.0]], [[1.0, 1.0], [1.0, -1.0]], [[0.0, -1.0], [0.0, 1.0]]];
/// let grid = columns.map(|column| column.map(|[x, y]| [x, y, 0.0]));
/// let seams = find_seams(grid.as_flattened().as_flattened(), 2, 1, Tolerances::default())?;
/// assert_eq!(seams.u.mapping, Some(Mapping::Reverse { offset: 0, steps: 1 }));
/// assert_eq!(seams.v.mapping, None);
/// // The ends of the first column are compared, then one point forward and two in reverse.
/// assert_eq!(seams.u.comparisons, 4);
/// # Ok::<(), merlontrispa::Refusal>(())
/// ```
pub fn find_seams(
    grid: &[f64],
    u_steps: usize,
    v_steps: usize,
    tolerances: Tolerances,
) -> Result<Seams, Refusal> {
    let answer = boundary::find_seams(grid, u_steps, v_steps, tolerances);
    Refusal::check(answer.refusal)?;
    Ok([answer.u, answer.v].into())
}

/// What was written by [`triangulate_seams`].
#[derive(Debug, Clone, Copy, PartialEq, Eq, Hash)]
pub struct Counts {
    /// The count of triangles: three point numbers each stand in the list.
    pub triangles: usize,
    /// The count of flipped pairs: two triangle numbers each stand in the list.
    pub flipped: usize,
}

/// The triangles of a grid of `u_steps` by `v_steps` cells, joined at the seams that are given, and
/// its flipped pairs, in the lists of [`triangulate_grid`] (Rules 4.5).
///
/// A seam is `None`, which leaves its rows unjoined and is always taken, or a mapping that fits,
/// whoever proposed it: it need not be the one that [`find_seams`] finds. A mapping fits if it has
/// the steps of its rows, `v_steps` for the u seam and `u_steps` for the v seam, an offset below
/// them, and if each point of the first row is close to the one of the last that it meets, by the
/// tolerance of that seam; at an offset other than 0 the ends of each row must be close too. The
/// tolerance of lines is tested and not used.
///
/// # Errors
/// 1, 2, 13, 3 (as [`triangulate_grid`]), 4 and 14 (a mapping that does not fit), tested in this
/// order. The lists are then as they were.
///
/// ```
/// use merlontrispa::{Mapping, Refusal, Tolerances, triangulate_seams};
///
/// // All points are one, so that every mapping of three steps fits.
/// let (grid, tolerances) = ([0.0; 48], Tolerances::default());
/// let (mut triangles, mut flipped) = ([0; 54], [0; 12]);
/// let mut joined = |u, v| {
///     triangulate_seams(&grid, 3, 3, tolerances, u, v, &mut triangles, &mut flipped)
/// };
/// let four_steps = Mapping::Forward { offset: 0, steps: 4 };
/// assert_eq!(joined(None, Some(four_steps)), Err(Refusal::Mapping));
/// let written = joined(Some(Mapping::Reverse { offset: 0, steps: 3 }), None)?;
/// assert_eq!((written.triangles, written.flipped), (18, 3));
/// assert_eq!(flipped[..6], [0, 17, 2, 15, 4, 13]);
/// # Ok::<(), merlontrispa::Refusal>(())
/// ```
#[allow(clippy::too_many_arguments)]
pub fn triangulate_seams(
    grid: &[f64],
    u_steps: usize,
    v_steps: usize,
    tolerances: Tolerances,
    u: Option<Mapping>,
    v: Option<Mapping>,
    triangles: &mut [usize],
    flipped: &mut [usize],
) -> Result<Counts, Refusal> {
    let seams = [u, v];
    boundary::triangulate_seams(
        grid, u_steps, v_steps, tolerances, seams, triangles, flipped,
    )
    .into()
}

/// What was written by [`triangulate_grid`].
#[derive(Debug, Clone, Copy, PartialEq, Eq, Hash)]
pub struct Triangulation {
    /// The seams that were found and joined.
    pub seams: Seams,
    /// The count of triangles: three point numbers each stand in the list.
    pub triangles: usize,
    /// The count of flipped pairs: two triangle numbers each stand in the list.
    pub flipped: usize,
}

/// The triangles of a grid of `u_steps` by `v_steps` cells, its seams joined, and the pairs of
/// triangles that meet along a reversed seam, each (smaller, larger), ascending (Rules 4): as
/// [`triangulate_seams`] does with what [`find_seams`] finds.
///
/// The grid has three numbers for each point, and point (u, v) has the number `u * (v_steps + 1) + v`.
/// The tolerance of lines is tested and not used. All places of the two lists past what is written
/// become zero.
///
/// # Errors
/// 1, 2, 13, 3 (`triangles` has less than `6 * u_steps * v_steps` places, or `flipped` less than
/// `2 * (u_steps + v_steps)`) and 4, tested in this order. The lists are then as they were.
///
/// ```
/// use merlontrispa::{Tolerances, triangulate_grid};
///
/// let grid = [0.0, 0.0, 0.0, 0.0, 1.0, 0.0, 1.0, 0.0, 0.0, 1.0, 1.0, 5.0];
/// let (mut triangles, mut flipped) = ([0; 6], [0; 4]);
/// let tolerances = Tolerances::default();
/// let written = triangulate_grid(&grid, 1, 1, tolerances, &mut triangles, &mut flipped)?;
/// assert_eq!((written.triangles, written.flipped), (2, 0));
/// assert_eq!(triangles, [0, 2, 1, 2, 3, 1]);
/// # Ok::<(), merlontrispa::Refusal>(())
/// ```
pub fn triangulate_grid(
    grid: &[f64],
    u_steps: usize,
    v_steps: usize,
    tolerances: Tolerances,
    triangles: &mut [usize],
    flipped: &mut [usize],
) -> Result<Triangulation, Refusal> {
    let answer = boundary::triangulate_grid(grid, u_steps, v_steps, tolerances, triangles, flipped);
    Refusal::check(answer.refusal)?;
    Ok(Triangulation {
        seams: [answer.u, answer.v].into(),
        triangles: answer.triangles,
        flipped: answer.pairs,
    })
}

/// A triangulated grid in lists of its own. Made by
/// [`Surface::triangulate`](crate::Surface::triangulate).
#[derive(Debug, Clone, PartialEq, Eq)]
pub struct Mesh {
    /// The seams that were found and joined.
    pub seams: Seams,
    /// The point numbers of each triangle.
    pub triangles: Vec<[usize; 3]>,
    /// The numbers of the triangles of each flipped pair, ascending.
    pub flipped: Vec<[usize; 2]>,
}

/// A grid that was triangulated with seams that were given, in lists of its own. Made by
/// [`Surface::triangulate_with`](crate::Surface::triangulate_with).
#[derive(Debug, Clone, PartialEq, Eq)]
pub struct GivenMesh {
    /// The point numbers of each triangle.
    pub triangles: Vec<[usize; 3]>,
    /// The numbers of the triangles of each flipped pair, ascending.
    pub flipped: Vec<[usize; 2]>,
}

impl GivenMesh {
    /// Lists with room for so many numbers each.
    pub(crate) fn with_room(triangles: usize, flipped: usize) -> Self {
        Self {
            triangles: vec![[0; 3]; triangles / 3],
            flipped: vec![[0; 2]; flipped / 2],
        }
    }

    /// The lists, lent to a triangulation.
    pub(crate) fn lists(&mut self) -> [&mut [usize]; 2] {
        [
            self.triangles.as_flattened_mut(),
            self.flipped.as_flattened_mut(),
        ]
    }

    /// Gives up the places past what was written.
    pub(crate) fn truncate(&mut self, counts: Counts) {
        self.triangles.truncate(counts.triangles);
        self.flipped.truncate(counts.flipped);
    }
}
