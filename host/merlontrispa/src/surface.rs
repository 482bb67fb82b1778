use crate::lines::{Lines, OwnedLines, grid_paths};
use crate::mapping::Mapping;
use crate::mesh::{
    Counts, GivenMesh, Mesh, Seams, Triangulation, find_seams, triangulate_grid, triangulate_seams,
};
use crate::refusal::Refusal;
use crate::texture::Texture;
use crate::tolerance::Tolerances;
use crate::trace::{OwnedTrace, Trace, TraceLists, trace_flat};

/// A surface sampled into a grid of points, checked once.
///
/// It has M steps in u and N in v. The number of point (u, v), u up to M and v up to N, is
/// `u * (N + 1) + v`; a grid is x, y and z of point number 0, then of number 1, and so on (Rules
/// 1).
///
/// Methods whose names end in `_into` write to lists that the caller lends, and allocate nothing.
///
/// ```
/// use merlontrispa::Surface;
///
/// // One cell, its last corner lifted.
/// let grid = [0.0, 0.0, 0.0, 0.0, 1.0, 0.0, 1.0, 0.0, 0.0, 1.0, 1.0, 5.0];
/// let surface = Surface::new(&grid, 1, 1)?;
/// assert_eq!(surface.triangulate().triangles, [[0, 2, 1], [2, 3, 1]]);
///
/// let trace = surface.trace(&[Some([0.0, 0.25]), Some([0.75, 0.25])])?;
/// for line in &trace.lines {
///     assert_eq!(line, [[0.0, 0.25, 0.0], [0.75, 0.25, 0.0]]);
/// }
/// # Ok::<(), merlontrispa::Refusal>(())
/// ```
#[derive(Debug, Clone, Copy, PartialEq)]
pub struct Surface<'a> {
    grid: &'a [f64],
    u_steps: usize,
    v_steps: usize,
    tolerances: Tolerances,
}

impl<'a> Surface<'a> {
    /// The surface of a grid with M and N steps. Its tolerances are the default,
    /// [`EPS`](crate::EPS) three times.
    ///
    /// # Errors
    /// 1 for M or N that is not from 1 to 255, 2 for a grid that has not `3 * (M + 1) * (N + 1)`
    /// numbers, 4 for a coordinate that is NaN, infinite or beyond ±2^40.
    ///
    /// ```
    /// use merlontrispa::{Refusal, Surface};
    ///
    /// assert_eq!(Surface::new(&[0.0; 12], 1, 256), Err(Refusal::Steps));
    /// assert_eq!(Surface::new(&[0.0; 12], 1, 2), Err(Refusal::Length));
    /// assert_eq!(Surface::new(&[f64::NAN; 12], 1, 1), Err(Refusal::Coordinate));
    /// ```
    pub fn new(grid: &'a [f64], u_steps: usize, v_steps: usize) -> Result<Self, Refusal> {
        // A trace without samples looks at the grid and at nothing else.
        let (tolerances, lists) = (Tolerances::default(), TraceLists::default());
        trace_flat(grid, u_steps, v_steps, tolerances, &[], &[], lists)?;
        Ok(Self {
            grid,
            u_steps,
            v_steps,
            tolerances,
        })
    }

    /// The same grid with other tolerances, by which its seams are found and its lines drawn. Lines
    /// of the grid ask for none.
    ///
    /// # Errors
    /// 13 where one of the three is NaN, infinite, not above zero or above 1.
    ///
    /// ```
    /// use merlontrispa::{EPS, Refusal, Surface, Tolerances};
    ///
    /// let grid = [0.0, 0.0, 0.0, 0.0, 1.0, 0.0, 1.0, 0.0, 0.0, 1.0, 1.0, 0.0];
    /// let surface = Surface::new(&grid, 1, 1)?;
    /// let coarse = Tolerances { u: EPS, v: EPS, line: 0.5 };
    /// // The last point is a quarter from the one before it.
    /// let curve = [Some([0.0, 0.25]), Some([0.75, 0.25]), Some([1.0, 0.25])];
    /// assert_eq!(surface.trace(&curve)?.lines.points.len(), 3);
    /// assert_eq!(surface.with_tolerances(coarse)?.trace(&curve)?.lines.points.len(), 2);
    ///
    /// let refused = Tolerances { line: 0.0, ..coarse };
    /// assert_eq!(surface.with_tolerances(refused), Err(Refusal::Tolerance));
    /// # Ok::<(), merlontrispa::Refusal>(())
    /// ```
    pub fn with_tolerances(self, tolerances: Tolerances) -> Result<Self, Refusal> {
        tolerances.check()?;
        Ok(Self { tolerances, ..self })
    }

    /// Its tolerances.
    pub fn tolerances(self) -> Tolerances {
        self.tolerances
    }

    /// M, the number of steps in u.
    pub fn u_steps(self) -> usize {
        self.u_steps
    }

    /// N, the number of steps in v.
    pub fn v_steps(self) -> usize {
        self.v_steps
    }

    /// x, y and z of each point.
    pub fn grid(self) -> &'a [f64] {
        self.grid
    }

    /// The points, which the numbers of triangles and sides index.
    pub fn points(self) -> &'a [[f64; 3]] {
        self.grid.as_chunks().0
    }

    /// The seam between column u = 0 and column u = M, by the tolerance of u, and the one between
    /// row v = 0 and row v = N, by that of v: [`find_seams`] of this surface.
    ///
    /// ```
    /// use merlontrispa::{Mapping, Surface};
    ///
    /// // A tube: two steps around in u, one along in v.
    /// let (a, b) = ([0.0, 0.0], [1.0, 0.0]);
    /// let grid: Vec<f64> = [a, b, a].iter().flat_map(|[x, y]| [*x, *y, 0.0, *x, *y, 9.0]).collect();
    /// let seams = Surface::new(&grid, 2, 1)?.seams();
    /// assert_eq!(seams.u.mapping, Some(Mapping::Forward { offset: 0, steps: 1 }));
    /// assert_eq!(seams.v.mapping, None);
    /// # Ok::<(), merlontrispa::Refusal>(())
    /// ```
    pub fn seams(self) -> Seams {
        let (m, n) = (self.u_steps, self.v_steps);
        answered(find_seams(self.grid, m, n, self.tolerances))
    }

    /// How many numbers [`Surface::triangulate_into`] and [`Surface::triangulate_with_into`] ask of
    /// the list of triangles.
    pub fn triangles_room(self) -> usize {
        6 * self.u_steps * self.v_steps
    }

    /// How many numbers [`Surface::triangulate_into`] and [`Surface::triangulate_with_into`] ask of
    /// the list of flipped pairs.
    pub fn flipped_room(self) -> usize {
        2 * (self.u_steps + self.v_steps)
    }

    /// [`triangulate_grid`] of this surface, with its tolerances.
    ///
    /// # Errors
    /// 3 for a list shorter than [`Surface::triangles_room`] or [`Surface::flipped_room`]; both are
    /// then as they were.
    ///
    /// ```
    /// use merlontrispa::Surface;
    ///
    /// let grid = [0.0, 0.0, 0.0, 0.0, 1.0, 0.0, 1.0, 0.0, 0.0, 1.0, 1.0, 5.0];
    /// let surface = Surface::new(&grid, 1, 1)?;
    /// let mut triangles = vec![0; surface.triangles_room()];
    /// let mut flipped = vec![0; surface.flipped_room()];
    /// let written = surface.triangulate_into(&mut triangles, &mut flipped)?;
    /// assert_eq!(triangles[..3 * written.triangles], [0, 2, 1, 2, 3, 1]);
    /// assert_eq!(written.flipped, 0);
    /// # Ok::<(), merlontrispa::Refusal>(())
    /// ```
    pub fn triangulate_into(
        self,
        triangles: &mut [usize],
        flipped: &mut [usize],
    ) -> Result<Triangulation, Refusal> {
        let (m, n) = (self.u_steps, self.v_steps);
        triangulate_grid(self.grid, m, n, self.tolerances, triangles, flipped)
    }

    /// Allocates two lists and does [`Surface::triangulate_into`] with them.
    pub fn triangulate(self) -> Mesh {
        let mut mesh = self.room_for_mesh();
        let [triangles, flipped] = mesh.lists();
        let Triangulation {
            seams,
            triangles,
            flipped,
        } = answered(self.triangulate_into(triangles, flipped));
        mesh.truncate(Counts { triangles, flipped });
        let GivenMesh { triangles, flipped } = mesh;
        Mesh {
            seams,
            triangles,
            flipped,
        }
    }

    /// [`triangulate_seams`] of this surface with these two seams, by its tolerances: for a surface
    /// whose seams are known beforehand.
    ///
    /// # Errors
    /// 3 for a list shorter than [`Surface::triangles_room`] or [`Surface::flipped_room`], 14 for a
    /// mapping that does not fit; both lists are then as they were.
    ///
    /// ```
    /// use merlontrispa::Surface;
    ///
    /// let grid = [0.0, 0.0, 0.0, 0.0, 1.0, 0.0, 1.0, 0.0, 0.0, 1.0, 1.0, 5.0];
    /// let surface = Surface::new(&grid, 1, 1)?;
    /// let mut triangles = vec![0; surface.triangles_room()];
    /// let mut flipped = vec![0; surface.flipped_room()];
    /// let written = surface.triangulate_with_into(None, None, &mut triangles, &mut flipped)?;
    /// assert_eq!(triangles[..3 * written.triangles], [0, 2, 1, 2, 3, 1]);
    /// assert_eq!(written.flipped, 0);
    /// # Ok::<(), merlontrispa::Refusal>(())
    /// ```
    pub fn triangulate_with_into(
        self,
        u: Option<Mapping>,
        v: Option<Mapping>,
        triangles: &mut [usize],
        flipped: &mut [usize],
    ) -> Result<Counts, Refusal> {
        let (m, n, tolerances) = (self.u_steps, self.v_steps, self.tolerances);
        triangulate_seams(self.grid, m, n, tolerances, u, v, triangles, flipped)
    }

    /// Allocates two lists and does [`Surface::triangulate_with_into`] with them.
    ///
    /// # Errors
    /// 14 for a mapping that does not fit.
    ///
    /// ```
    /// use merlontrispa::{Mapping, Refusal, Surface};
    ///
    /// // A tube, three steps around in u and one along in v, whose seam is on record.
    /// let around = [[0.0, 0.0], [1.0, 0.0], [0.0, 1.0], [0.0, 0.0]];
    /// let grid: Vec<f64> = around.iter().flat_map(|[x, y]| [*x, *y, 0.0, *x, *y, 9.0]).collect();
    /// let surface = Surface::new(&grid, 3, 1)?;
    /// let (offset, steps) = (0, 1);
    /// let tube = surface.triangulate_with(Some(Mapping::Forward { offset, steps }), None)?;
    /// assert_eq!(tube.triangles, surface.triangulate().triangles);
    ///
    /// // Left open, it is a sheet whose last column has points of its own.
    /// let sheet = surface.triangulate_with(None, None)?;
    /// assert_eq!((tube.triangles[5], sheet.triangles[5]), ([0, 1, 5], [6, 7, 5]));
    /// // Turned over, the last column does not fit.
    /// let band = surface.triangulate_with(Some(Mapping::Reverse { offset, steps }), None);
    /// assert_eq!(band, Err(Refusal::Mapping));
    /// # Ok::<(), merlontrispa::Refusal>(())
    /// ```
    pub fn triangulate_with(
        self,
        u: Option<Mapping>,
        v: Option<Mapping>,
    ) -> Result<GivenMesh, Refusal> {
        let mut mesh = self.room_for_mesh();
        let [triangles, flipped] = mesh.lists();
        let counts = self.triangulate_with_into(u, v, triangles, flipped)?;
        mesh.truncate(counts);
        Ok(mesh)
    }

    /// Lists as long as a triangulation asks for.
    fn room_for_mesh(self) -> GivenMesh {
        GivenMesh::with_room(self.triangles_room(), self.flipped_room())
    }

    /// How many numbers [`Surface::grid_lines_into`] asks of the list of points.
    pub fn grid_points_room(self) -> usize {
        6 * (self.u_steps + 1) * (self.v_steps + 1)
    }

    /// How many numbers [`Surface::grid_lines_into`] asks of the list of starts.
    pub fn grid_starts_room(self) -> usize {
        self.u_steps + self.v_steps + 2
    }

    /// The lines of the grid, by [`grid_paths`]: N + 1 along u, then M + 1 along v.
    ///
    /// # Errors
    /// 3 for a list shorter than [`Surface::grid_points_room`] or [`Surface::grid_starts_room`];
    /// both are then as they were.
    ///
    /// ```
    /// use merlontrispa::Surface;
    ///
    /// let grid = [0.0, 0.0, 0.0, 0.0, 1.0, 0.0, 1.0, 0.0, 0.0, 1.0, 1.0, 5.0];
    /// let (mut points, mut starts) = ([0.0; 24], [0; 4]);
    /// let lines = Surface::new(&grid, 1, 1)?.grid_lines_into(&mut points, &mut starts)?;
    /// assert_eq!(lines.iter().last(), Some(&[[1.0, 0.0, 0.0], [1.0, 1.0, 5.0]][..]));
    /// # Ok::<(), merlontrispa::Refusal>(())
    /// ```
    pub fn grid_lines_into<'b>(
        self,
        points: &'b mut [f64],
        starts: &'b mut [usize],
    ) -> Result<Lines<'b>, Refusal> {
        let drawn = grid_paths(self.grid, self.u_steps, self.v_steps, points, starts)?;
        Ok(Lines {
            points,
            starts,
            drawn,
        })
    }

    /// Allocates two lists and does [`Surface::grid_lines_into`] with them.
    pub fn grid_lines(self) -> OwnedLines {
        let mut lines = OwnedLines {
            points: vec![[0.0; 3]; self.grid_points_room() / 3],
            starts: vec![0; self.grid_starts_room()],
        };
        let OwnedLines { points, starts } = &mut lines;
        answered(self.grid_lines_into(points.as_flattened_mut(), starts));
        lines
    }

    /// The lines of a curve across the cells, by [`trace_flat`] with this surface's tolerances:
    /// `pairs` has u and v of each sample, and `marks` is 1 for a point and 0 for a break.
    ///
    /// # Errors
    /// 2 for pairs that are not two numbers for each mark or more than 65,537 marks, 9 and 10,
    /// which leave the lists as they were; 11 and 12, which leave them all zero.
    ///
    /// ```
    /// use merlontrispa::{Surface, TraceLists};
    ///
    /// let grid = [0.0, 0.0, 0.0, 0.0, 1.0, 0.0, 1.0, 0.0, 0.0, 1.0, 1.0, 5.0];
    /// let (mut points, mut starts) = ([0.0; 6], [0; 1]);
    /// let (mut sides, mut fractions, mut samples) = ([0; 4], [0.0; 2], [0; 2]);
    /// let lists = TraceLists {
    ///     points: &mut points,
    ///     starts: &mut starts,
    ///     sides: &mut sides,
    ///     fractions: &mut fractions,
    ///     samples: &mut samples,
    /// };
    /// let surface = Surface::new(&grid, 1, 1)?;
    /// let trace = surface.trace_into(&[0.0, 0.25, 0.75, 0.25], &[1, 1], lists)?;
    /// assert_eq!(trace.lines.iter().next(), Some(&[[0.0, 0.25, 0.0], [0.75, 0.25, 0.0]][..]));
    /// assert_eq!(trace.sides, [[0, 1], [2, 1]]);
    /// assert_eq!(trace.samples, [1, 1]);
    /// # Ok::<(), merlontrispa::Refusal>(())
    /// ```
    pub fn trace_into<'b>(
        self,
        pairs: &[f64],
        marks: &[u8],
        mut lists: TraceLists<'b>,
    ) -> Result<Trace<'b>, Refusal> {
        let (m, n, lent) = (self.u_steps, self.v_steps, lists.reborrow());
        let drawn = trace_flat(self.grid, m, n, self.tolerances, pairs, marks, lent)?;
        Ok(Trace::new(lists, drawn))
    }

    /// Allocates lists that hold what is drawn and does [`Surface::trace_into`] with them. A sample
    /// is u and v of a point, or `None` for a break.
    ///
    /// # Errors
    /// 2 for more than 65,537 samples, 10 and 11. Never 12: while a trace is refused with it, it is
    /// done again with twice the room.
    ///
    /// ```
    /// use merlontrispa::Surface;
    ///
    /// let grid = [0.0, 0.0, 0.0, 0.0, 1.0, 0.0, 1.0, 0.0, 0.0, 1.0, 1.0, 5.0];
    /// // Two strokes with a break between them, in black and in red.
    /// let black = [Some([0.0, 0.25]), Some([0.75, 0.25]), None];
    /// let red = [Some([0.0, 0.75]), Some([1.0, 0.75])];
    /// let trace = Surface::new(&grid, 1, 1)?.trace(&[&black[..], &red].concat())?;
    /// assert_eq!(trace.samples, [1, 1, 4, 4, 4]);
    /// // Numbers never fall, so that the points of the red stroke are the last ones.
    /// let first = trace.samples.partition_point(|&number| number < black.len());
    /// assert_eq!(trace.lines.points[first..].len(), 3);
    /// # Ok::<(), merlontrispa::Refusal>(())
    /// ```
    pub fn trace(self, samples: &[Option<[f64; 2]>]) -> Result<OwnedTrace, Refusal> {
        let pairs: Vec<_> = samples.iter().map(|s| s.unwrap_or_default()).collect();
        let marks: Vec<_> = samples.iter().map(|s| u8::from(s.is_some())).collect();
        let mut room = 4 * samples.len().min(65_537) + 16;
        loop {
            let mut trace = OwnedTrace::with_room(room);
            let drawn = self.trace_into(pairs.as_flattened(), &marks, trace.lists());
            match drawn.map(|trace| trace.lines.drawn) {
                Err(Refusal::Full) => room *= 2,
                Err(refusal) => return Err(refusal),
                Ok(drawn) => {
                    trace.truncate(drawn);
                    return Ok(trace);
                }
            }
        }
    }

    /// Allocates lists and draws a texture into them: for [`Texture::Grid`] the lines of the grid, else
    /// those of each ray, by [`Surface::trace`]. Cosine and sine are Rust's [`f64::sin_cos`]; who has
    /// others takes [`Texture::sample_point`].
    ///
    /// # Errors
    /// 5 for a twist or arms that are not allowed, 6 for more than 65,536 rays, or samples to a
    /// ray, 11.
    ///
    /// ```
    /// use merlontrispa::{Surface, Texture};
    ///
    /// let grid = [0.0, 0.0, 0.0, 0.0, 1.0, 0.0, 1.0, 0.0, 0.0, 1.0, 1.0, 5.0];
    /// let surface = Surface::new(&grid, 1, 1)?;
    /// let lines = surface.texture_lines(Texture::Swirl { spacing: 1.0, twist: 0.0 })?;
    /// // The first of five rays goes from the centre, which is on the diagonal, to the side u = 1.
    /// assert_eq!(lines.iter().len(), 5);
    /// assert_eq!(lines.iter().next(), Some(&[[0.5, 0.5, 0.0], [1.0, 0.5, 2.5]][..]));
    /// # Ok::<(), merlontrispa::Refusal>(())
    /// ```
    pub fn texture_lines(self, texture: Texture) -> Result<OwnedLines, Refusal> {
        if texture == Texture::Grid {
            return Ok(self.grid_lines());
        }
        let plan = texture.plan(self.u_steps, self.v_steps)?;
        let mut lines = OwnedLines::default();
        for ray in 0..plan.rays {
            lines.extend(&self.trace_ray(texture, ray)?.lines);
        }
        Ok(lines)
    }

    /// One ray of a texture, counted from 0, by [`Surface::trace`] of its samples from first to
    /// last. The number beside a point is that of the sample on the ray, from 1 to the plan's
    /// `samples`.
    ///
    /// # Errors
    /// Those of [`Surface::texture_lines`]; 8 where there is no such ray ([`Texture::Grid`] has
    /// none).
    ///
    /// ```
    /// use merlontrispa::{Surface, Texture};
    ///
    /// let grid = [0.0, 0.0, 0.0, 0.0, 1.0, 0.0, 1.0, 0.0, 0.0, 1.0, 1.0, 5.0];
    /// let surface = Surface::new(&grid, 1, 1)?;
    /// let trace = surface.trace_ray(Texture::Swirl { spacing: 1.0, twist: 0.0 }, 0)?;
    /// // The leg from the centre to sample 1 makes the point there, that to sample 2 the other.
    /// assert_eq!(trace.lines.points, [[0.5, 0.5, 0.0], [1.0, 0.5, 2.5]]);
    /// assert_eq!(trace.samples, [1, 2]);
    /// # Ok::<(), merlontrispa::Refusal>(())
    /// ```
    pub fn trace_ray(self, texture: Texture, ray: usize) -> Result<OwnedTrace, Refusal> {
        let plan = texture.plan(self.u_steps, self.v_steps)?;
        let samples = (0..=plan.samples).map(|sample| self.sample(texture, ray, sample));
        self.trace(&samples.collect::<Result<Vec<_>, _>>()?)
    }

    /// A sample of a ray, as [`Surface::trace`] takes it.
    fn sample(
        self,
        texture: Texture,
        ray: usize,
        sample: usize,
    ) -> Result<Option<[f64; 2]>, Refusal> {
        let (m, n) = (self.u_steps, self.v_steps);
        let (sine, cosine) = texture.angle(m, n, ray, sample)?.sin_cos();
        let point = texture.sample_point(m, n, ray, sample, [cosine, sine])?;
        Ok(Some(point))
    }
}

/// The answer of a call of which all refusals are ruled out: the grid and the tolerances were checked,
/// and the lists are as long as they need be.
fn answered<T>(answer: Result<T, Refusal>) -> T {
    answer.unwrap_or_else(|refusal| unreachable!("{refusal}"))
}
