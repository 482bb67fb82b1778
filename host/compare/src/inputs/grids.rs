//! Grids whose opposite lines meet by a mapping, nearly meet, or do not, and such as are refused.

use crate::case::{Smaller, case, plainer_everywhere, stretches, without};
use crate::inputs::tolerances::{
    Point, any_tolerance, row_distances, tolerance_at, tolerances_fit,
};
use crate::inputs::{COORDINATE_EDGES, COORDINATE_FAULTS, about, coordinates_fit, near};
use crate::mappings::{mapping, offset_and_steps, to_original};
use crate::random::Random;
use merlontrispa::{Mapping, Refusal, Tolerances};
use std::iter;

/// A grid of `u_steps` by `v_steps` cells, three numbers for each point.
#[derive(Debug, Clone)]
pub struct Grid {
    pub u_steps: usize,
    pub v_steps: usize,
    pub numbers: Vec<f64>,
}

case!(Grid { u_steps, v_steps, numbers }, first Grid::simpler);

impl Grid {
    /// The grid whose point of each number is given.
    pub fn new(u_steps: usize, v_steps: usize, point: impl FnMut(usize) -> [f64; 3]) -> Self {
        let points = (u_steps + 1) * (v_steps + 1);
        Self {
            u_steps,
            v_steps,
            numbers: (0..points).flat_map(point).collect(),
        }
    }

    /// The first of the refusals 1, 2, 13 and 4 that applies, 13 where tolerances are given.
    pub fn refusal(&self, tolerances: Option<Tolerances>) -> Option<Refusal> {
        self.refusal_with_lists(tolerances, [0; 2], |_, _| [0; 2])
    }

    /// The first of the refusals 1, 2, 13, 3 and 4 that applies where two lists of these lengths are
    /// lent; `least` has the least lengths for so many steps.
    pub fn refusal_with_lists(
        &self,
        tolerances: Option<Tolerances>,
        lengths: [usize; 2],
        least: fn(usize, usize) -> [usize; 2],
    ) -> Option<Refusal> {
        let (m, n) = (self.u_steps, self.v_steps);
        if !(1..=255).contains(&m) || !(1..=255).contains(&n) {
            Some(Refusal::Steps)
        } else if self.numbers.len() != 3 * (m + 1) * (n + 1) {
            Some(Refusal::Length)
        } else if !tolerances.is_none_or(tolerances_fit) {
            Some(Refusal::Tolerance)
        } else if iter::zip(lengths, least(m, n)).any(|(length, least)| length < least) {
            Some(Refusal::Room)
        } else if !coordinates_fit(&self.numbers) {
            Some(Refusal::Coordinate)
        } else {
            None
        }
    }

    /// Columns u = 0 and u = M, and rows v = 0 and v = N, where the grid has as many numbers as its
    /// steps want.
    pub fn edges(&self) -> [[Vec<Point>; 2]; 2] {
        let columns = [0, self.u_steps].map(|u| self.column(u));
        let rows = [0, self.v_steps].map(|v| self.row(v));
        [columns, rows]
    }

    fn column(&self, u: usize) -> Vec<Point> {
        let points = self.numbers.as_chunks().0;
        points[u * (self.v_steps + 1)..][..=self.v_steps].to_vec()
    }

    fn row(&self, v: usize) -> Vec<Point> {
        let points = self.numbers.as_chunks().0;
        let row = points[v..].iter().step_by(self.v_steps + 1);
        row.copied().collect()
    }

    /// Fewer lines, or points that still coincide where these do.
    fn simpler(&self) -> Smaller<Self> {
        let this = self.clone();
        let plainer =
            plainer_everywhere(&self.numbers).map(move |numbers| Self { numbers, ..this });
        Box::new(self.fewer_lines().chain(plainer))
    }

    /// Grids without some of the lines along v or along u, where this one has as many numbers as its
    /// steps want.
    pub fn fewer_lines(&self) -> Smaller<Self> {
        let (m, n) = (self.u_steps, self.v_steps);
        let points: Vec<_> = self.numbers.as_chunks::<3>().0.to_vec();
        if m.min(n) == 0 || m.max(n) > 255 || self.numbers.len() != 3 * (m + 1) * (n + 1) {
            return Box::new(iter::empty());
        }
        let part = move |us: &[usize], vs: &[usize]| {
            Self::new(us.len() - 1, vs.len() - 1, |i| {
                points[us[i / vs.len()] * (n + 1) + vs[i % vs.len()]]
            })
        };
        let (us, vs): (Vec<_>, Vec<_>) = ((0..=m).collect(), (0..=n).collect());
        let other = (us.clone(), vs.clone(), part.clone());
        let along_v = fewer(&us).map(move |us| part(&us, &vs));
        let (us, vs, part) = other;
        let along_u = fewer(&vs).map(move |vs| part(&us, &vs));
        Box::new(along_v.chain(along_u))
    }
}

/// The lines without a stretch of them, alone or with its mirror image, so that a reversed seam stays
/// one; at least two.
fn fewer(lines: &[usize]) -> impl Iterator<Item = Vec<usize>> + use<> {
    let lines = lines.to_vec();
    let left = stretches(lines.len()).flat_map(move |gone| {
        let mirrored = lines.len() - gone.end..lines.len() - gone.start;
        let both = |i: &usize| !gone.contains(i) && !mirrored.contains(i);
        let without_both = (0..lines.len()).filter(both).map(|i| lines[i]).collect();
        [without(&lines, &gone), without_both]
    });
    left.filter(|left| left.len() >= 2)
}

/// How the opposite lines of a grid meet.
#[derive(Debug, Clone, Copy)]
pub struct Joining {
    /// Column u = 0 with column u = M.
    pub u: Option<Mapping>,
    /// Row v = 0 with row v = N.
    pub v: Option<Mapping>,
    /// Whether the columns are closed at offset 0 too.
    pub u_closed: bool,
    /// Whether the rows are.
    pub v_closed: bool,
}

impl Joining {
    /// One of a plane, a band, a torus, a twisted torus, a Möbius band, a Klein bottle, or anything.
    pub fn any(random: &mut Random, u_steps: usize, v_steps: usize) -> Self {
        let seam = |random: &mut Random, steps: usize| match random.below(5) {
            0 => None,
            1 => Some(mapping(false, 0, steps)),
            2 => Some(mapping(true, 0, steps)),
            kind => Some(mapping(
                kind == 3,
                random.below(steps as u64) as usize,
                steps,
            )),
        };
        Self {
            u: seam(random, v_steps),
            v: seam(random, u_steps),
            u_closed: random.below(2) == 0,
            v_closed: random.below(2) == 0,
        }
    }

    /// For each point number the number of the first point that coincides with it: no more coincide
    /// than the joining says.
    pub fn classes(&self, u_steps: usize, v_steps: usize) -> Vec<usize> {
        let number = |u: usize, v: usize| u * (v_steps + 1) + v;
        let mut classes = Classes::new((u_steps + 1) * (v_steps + 1));
        classes.join(self.u, self.u_closed, v_steps, |last, v| {
            number(if last { u_steps } else { 0 }, v)
        });
        classes.join(self.v, self.v_closed, u_steps, |last, u| {
            number(u, if last { v_steps } else { 0 })
        });
        (0..classes.0.len()).map(|i| classes.first(i)).collect()
    }

    /// A grid that has this joining: each class of points has the point that is given for its number.
    pub fn grid(
        &self,
        u_steps: usize,
        v_steps: usize,
        mut point: impl FnMut(usize) -> [f64; 3],
    ) -> Grid {
        let classes = self.classes(u_steps, v_steps);
        let mut points = Vec::with_capacity(classes.len());
        for (i, &class) in classes.iter().enumerate() {
            points.push(if class == i { point(i) } else { points[class] });
        }
        Grid::new(u_steps, v_steps, |i| points[i])
    }
}

/// Points that coincide: each knows an earlier one of its class, or itself.
struct Classes(Vec<usize>);

impl Classes {
    fn new(count: usize) -> Self {
        Self((0..count).collect())
    }

    fn first(&self, i: usize) -> usize {
        if self.0[i] == i {
            i
        } else {
            self.first(self.0[i])
        }
    }

    fn unite(&mut self, i: usize, j: usize) {
        let (i, j) = (self.first(i), self.first(j));
        self.0[i.max(j)] = i.min(j);
    }

    /// Joins the first line with the last by a mapping; `number` is of a point of one of the two.
    fn join(
        &mut self,
        mapping: Option<Mapping>,
        closed: bool,
        steps: usize,
        number: impl Fn(bool, usize) -> usize,
    ) {
        let offset = mapping.map_or(0, |mapping| offset_and_steps(mapping)[0]);
        if closed || offset > 0 {
            self.unite(number(false, 0), number(false, steps));
            self.unite(number(true, 0), number(true, steps));
        }
        if let Some(mapping) = mapping.map(to_original) {
            for j in 0..=steps {
                self.unite(number(false, j), number(true, mapping.map_index(j)));
            }
        }
    }
}

/// A random grid that has a joining, or nearly: one point of a seam may be moved about as far as
/// closeness reaches.
pub fn any_grid(random: &mut Random, u_steps: usize, v_steps: usize) -> Grid {
    let joining = Joining::any(random, u_steps, v_steps);
    let flat = random.below(4) == 0;
    let mut grid = joining.grid(u_steps, v_steps, |_| {
        if flat {
            [random.below(2) as f64, random.below(2) as f64, 0.0]
        } else {
            [random.unit(), 8.0 * random.unit(), -256.0 * random.unit()]
        }
    });
    if random.below(3) == 0 {
        let number = seam_point(random, u_steps, v_steps);
        let place = 3 * number + random.below(3) as usize;
        grid.numbers[place] = near(random, grid.numbers[place]);
    }
    grid
}

/// A grid whose seams are open about as far as tolerances of theirs, and three tolerances: each any,
/// or, for a seam, at a distance that a search of it asks about.
pub fn gaping_grid(random: &mut Random, u_steps: usize, v_steps: usize) -> (Grid, Tolerances) {
    let joining = Joining::any(random, u_steps, v_steps);
    let gaps = [any_tolerance(random), any_tolerance(random)];
    let scale = random.of(&[1.0, gaps[0], gaps[1], 1.0 / 256.0]);
    let flat = random.below(2) == 0;
    let mut grid = joining.grid(u_steps, v_steps, |_| {
        let point = if flat {
            [random.below(2) as f64, random.below(2) as f64, 0.0]
        } else {
            [random.unit(), 8.0 * random.unit(), -256.0 * random.unit()]
        };
        point.map(|x| scale * x)
    });
    for _ in 0..random.below(6) {
        let number = seam_point(random, u_steps, v_steps);
        let place = 3 * number + random.below(3) as usize;
        let gap = random.of(&gaps);
        grid.numbers[place] = about(random, grid.numbers[place], gap);
    }
    let tolerances = gap_tolerances(random, gaps, &grid, [joining.u, joining.v]);
    (grid, tolerances)
}

/// A grid whose points are all equal, but for its corners, and three tolerances. The ends of an outer
/// line may be moved away from each other, so that it is open where every mapping fits, and any corner
/// about as far as a tolerance of a seam.
pub fn even_grid(random: &mut Random, u_steps: usize, v_steps: usize) -> (Grid, Tolerances) {
    let gaps = [any_tolerance(random), any_tolerance(random)];
    let point = [0.0, random.below(2) as f64, 0.0];
    let mut grid = Grid::new(u_steps, v_steps, |_| point);
    let last = u_steps * (v_steps + 1);
    let corners = [0, v_steps, last, last + v_steps];
    for _ in 0..random.below(3) {
        let ends = random.of(&[[0, 1], [2, 3], [0, 2], [1, 3]]);
        let axis = random.below(3) as usize;
        let gap = random.of(&gaps) * random.of(&[0.5, 0.75, 1.0]);
        grid.numbers[3 * corners[ends[0]] + axis] -= gap;
        grid.numbers[3 * corners[ends[1]] + axis] += gap;
    }
    for _ in 0..random.below(3) {
        let place = 3 * random.of(&corners) + random.below(3) as usize;
        let gap = random.of(&gaps);
        grid.numbers[place] = about(random, grid.numbers[place], gap);
    }
    let tolerances = gap_tolerances(random, gaps, &grid, [None; 2]);
    (grid, tolerances)
}

/// Tolerances of a grid whose seams have these gaps and were made by these mappings.
fn gap_tolerances(
    random: &mut Random,
    gaps: [f64; 2],
    grid: &Grid,
    seams: [Option<Mapping>; 2],
) -> Tolerances {
    let [columns, rows] = grid.edges();
    Tolerances {
        u: gap_tolerance(random, gaps[0], &columns, seams[0]),
        v: gap_tolerance(random, gaps[1], &rows, seams[1]),
        line: any_tolerance(random),
    }
}

/// A tolerance that is the gap of a seam, at a distance that a search of its mapping asks about, or
/// any.
fn gap_tolerance(
    random: &mut Random,
    gap: f64,
    lines: &[Vec<Point>; 2],
    found: Option<Mapping>,
) -> f64 {
    let steps = lines[0].len() - 1;
    let found = found.unwrap_or(mapping(random.below(2) == 0, 0, steps));
    match random.below(4) {
        0 => any_tolerance(random),
        1 => gap,
        _ => {
            let distances = row_distances(&lines[0], &lines[1], found);
            tolerance_at(random, &distances)
        }
    }
}

/// The number of a point of one of the four outer lines.
fn seam_point(random: &mut Random, u_steps: usize, v_steps: usize) -> usize {
    let u = random.below(u_steps as u64 + 1) as usize;
    let v = random.below(v_steps as u64 + 1) as usize;
    match random.below(4) {
        0 => v,
        1 => u_steps * (v_steps + 1) + v,
        2 => u * (v_steps + 1),
        _ => u * (v_steps + 1) + v_steps,
    }
}

/// Puts any set of the faults of a grid that are refused into it, or none.
pub fn spoil(random: &mut Random, grid: &mut Grid) {
    if random.below(3) == 0 {
        let place = random.below(grid.numbers.len() as u64) as usize;
        grid.numbers[place] = match random.below(2) {
            0 => random.of(&COORDINATE_FAULTS),
            _ => random.of(&COORDINATE_EDGES),
        };
    }
    if random.below(3) == 0 {
        let length = grid.numbers.len();
        let other = length.saturating_add_signed(random.of(&[-3, -1, 1, 3, 300]));
        grid.numbers.resize(other, 0.0);
    }
    if random.below(3) == 0 {
        let steps = random.of(&[0, 256, 257, 65_536, usize::MAX / 2, usize::MAX]);
        if random.below(2) == 0 {
            grid.u_steps = steps;
        } else {
            grid.v_steps = steps;
        }
    }
}

/// Steps from 1 to 255, mostly few.
pub fn any_steps(random: &mut Random) -> usize {
    1 + match random.below(64) {
        0 => random.below(255),
        1..8 => random.below(24),
        _ => random.below(5),
    } as usize
}

/// Steps from 1 to 255 of all sizes, often at the limits.
pub fn all_steps(random: &mut Random) -> usize {
    match random.below(4) {
        0 => any_steps(random),
        1 => random.of(&[1, 2, 254, 255]),
        _ => 1 + random.below(255) as usize,
    }
}
