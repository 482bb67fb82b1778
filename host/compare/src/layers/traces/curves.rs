//! Curves on grids, and how long the lists are that a trace of them is drawn into.

use super::walks::Need;
use crate::case::{Case, Smaller, case, stretches, without};
use crate::inputs::grids::{Grid, any_grid, spoil};
use crate::inputs::lists::as_far;
use crate::inputs::tolerances::{
    any_tolerance, distance, faulty_tolerances, tolerance_at, tolerance_fits,
};
use crate::inputs::{EPS, near};
use crate::mappings::to_edited;
use crate::random::Random;
use crate::text::{Text, Words};
use merlontrispa::{Refusal, Tolerances};
use original::{Paths, Sample, Surface, Vector, Walk, edited, vectors};
use std::cell::OnceCell;
use std::rc::Rc;

/// The largest magnitude of a sample's coordinate.
pub const FAR: f64 = 1_048_576.0;

/// A grid in the library's form and, where it is taken, in those of both originals, each made when it
/// is asked for.
pub struct Scene {
    pub grid: Grid,
    pub points: Vec<Vector>,
    unchanged: OnceCell<Surface>,
    edited: OnceCell<edited::Surface>,
}

impl Scene {
    pub fn new(grid: Grid) -> Self {
        Self {
            points: vectors(&grid.numbers),
            grid,
            unchanged: OnceCell::new(),
            edited: OnceCell::new(),
        }
    }

    /// The surface of a grid that is taken.
    fn unchanged(&self) -> &Surface {
        let Grid {
            u_steps, v_steps, ..
        } = self.grid;
        self.unchanged
            .get_or_init(|| Surface::from_grid(self.points.clone(), u_steps, v_steps))
    }

    /// What a call on the edited original's surface of such a grid answers at tolerances.
    fn edited<T>(&self, tolerances: Tolerances, call: impl FnOnce(&edited::Surface) -> T) -> T {
        let Grid {
            u_steps, v_steps, ..
        } = self.grid;
        let points = || edited::vectors(&self.grid.numbers);
        let surface = || edited::Surface::from_grid(points(), u_steps, v_steps);
        edited::at(to_edited(tolerances), || {
            call(self.edited.get_or_init(surface))
        })
    }

    /// The walk of samples on a grid that is taken: the edited original's where tolerances are given.
    pub fn walk(&self, tolerances: Option<Tolerances>, samples: &[Sample]) -> Walk {
        match tolerances {
            None => self.unchanged().walk(samples),
            Some(tolerances) => self.edited(tolerances, |surface| surface.walk(samples)),
        }
    }

    /// The lines of the same samples, or nothing where the original panics.
    pub fn trace(
        &self,
        tolerances: Option<Tolerances>,
        samples: &[Sample],
    ) -> Option<Paths<[f64; 3]>> {
        match tolerances {
            None => Some(self.unchanged().trace(samples)?.map(Into::into)),
            Some(tolerances) => {
                let paths = self.edited(tolerances, |surface| surface.trace(samples))?;
                Some(paths.map(Into::into))
            }
        }
    }
}

/// How long the lists are that are lent.
#[derive(Debug, Clone, Copy)]
pub struct Room {
    pub points: usize,
    pub starts: usize,
    pub sides: usize,
    pub fractions: usize,
    pub samples: usize,
}

case!(Room {
    points,
    starts,
    sides,
    fractions,
    samples
});

impl Room {
    /// For how many points there is room in all lists but the starts.
    pub fn for_points(self) -> usize {
        let whole = (self.points / 3).min(self.sides / 2);
        whole.min(self.fractions).min(self.samples)
    }

    /// Room that is as far from what is needed `after` as this is from what was needed `before`.
    fn as_far(self, before: Need, after: Need) -> Self {
        Self {
            points: as_far(self.points, 3 * before.points, 3 * after.points),
            starts: as_far(self.starts, before.lines, after.lines),
            sides: as_far(self.sides, 2 * before.points, 2 * after.points),
            fractions: as_far(self.fractions, before.points, after.points),
            samples: as_far(self.samples, before.points, after.points),
        }
    }
}

/// What an input is made of.
#[derive(Clone)]
struct Curve {
    grid: Grid,
    tolerances: Option<Tolerances>,
    pairs: Vec<f64>,
    marks: Vec<u8>,
    room: Room,
}

case!(Curve { grid, tolerances, pairs, marks, room }, first Curve::fewer_samples);

impl Curve {
    fn fewer_samples(&self) -> Smaller<Self> {
        let this = self.clone();
        let samples = self.marks.len().min(self.pairs.len() / 2);
        Box::new(stretches(samples).map(move |samples| Self {
            pairs: without(&this.pairs, &(2 * samples.start..2 * samples.end)),
            marks: without(&this.marks, &samples),
            ..this.clone()
        }))
    }

    /// The same curve with one of these distances as the tolerance of its line.
    fn reaching(&self, distances: &[f64]) -> impl Iterator<Item = Self> {
        let given = self.tolerances.into_iter();
        given.flat_map(move |given| {
            let other = move |line: &f64| *line != given.line && tolerance_fits(*line);
            let lines = distances.iter().copied().filter(other).take(8);
            lines.map(move |line| Self {
                tolerances: Some(Tolerances { line, ..given }),
                ..self.clone()
            })
        })
    }

    fn input(self, room: impl FnOnce(Need) -> Room) -> Input {
        Input::new(
            &Rc::new(Scene::new(self.grid)),
            self.tolerances,
            self.pairs,
            self.marks,
            room,
        )
    }
}

/// A curve on a scene, and what the original makes of it.
#[derive(Clone)]
pub struct Input {
    pub scene: Rc<Scene>,
    /// Those of the library and of the edited original. Where none are given the library is given
    /// EPS three times, and held to the unchanged original.
    pub tolerances: Option<Tolerances>,
    pub pairs: Vec<f64>,
    pub marks: Vec<u8>,
    pub room: Room,
    /// What the original's walk makes, unless the call is refused before it.
    pub walk: Result<Walk, Refusal>,
}

impl Input {
    pub fn new(
        scene: &Rc<Scene>,
        tolerances: Option<Tolerances>,
        pairs: Vec<f64>,
        marks: Vec<u8>,
        room: impl FnOnce(Need) -> Room,
    ) -> Self {
        let walk = match refusal(scene, tolerances, &pairs, &marks) {
            Some(refusal) => Err(refusal),
            None => Ok(scene.walk(tolerances, &samples(&pairs, &marks))),
        };
        Self {
            scene: Rc::clone(scene),
            tolerances,
            pairs,
            marks,
            room: room(need(&walk)),
            walk,
        }
    }

    /// The samples in the original's form.
    pub fn samples(&self) -> Vec<Sample> {
        samples(&self.pairs, &self.marks)
    }

    /// What the call is refused with at EPS three times, before it walks.
    pub fn refusal_by_eps(&self) -> Option<Refusal> {
        refusal(&self.scene, None, &self.pairs, &self.marks)
    }

    /// How far apart the points are that a walk makes one after the other, where there is one.
    fn distances(&self) -> Vec<f64> {
        match self.walk {
            Ok(_) => distances(&self.scene.walk(None, &self.samples())),
            Err(_) => Vec::new(),
        }
    }

    /// The least room for what the original draws.
    pub fn need(&self) -> Need {
        need(&self.walk)
    }

    fn curve(&self) -> Curve {
        Curve {
            grid: self.scene.grid.clone(),
            tolerances: self.tolerances,
            pairs: self.pairs.clone(),
            marks: self.marks.clone(),
            room: self.room,
        }
    }
}

fn need(walk: &Result<Walk, Refusal>) -> Need {
    let made = walk.as_ref().map(|walk| &walk.made);
    made.map_or_else(|_| Need::default(), |made| Need::of(made))
}

impl Case for Input {
    fn write(&self, text: &mut Text) {
        self.curve().write(text);
    }

    fn read(words: &mut Words<'_>) -> Result<Self, String> {
        let curve = Curve::read(words)?;
        let room = curve.room;
        Ok(curve.input(|_| room))
    }

    /// Smaller curves, with room that is as far from what they need, or the same. Where the tolerance
    /// of the line is the distance of two points, those of the smaller curve are tried before.
    fn smaller(&self) -> Smaller<Self> {
        let (before, tolerances) = (self.need(), self.tolerances);
        let reached = tolerances.is_some_and(|at| self.distances().contains(&at.line));
        Box::new(self.curve().smaller().flat_map(move |curve| {
            let room = curve.room;
            let moved = |curve: Curve| curve.input(|after| room.as_far(before, after));
            let first = moved(curve.clone());
            let reached = reached && curve.tolerances == tolerances;
            let distances = if reached {
                first.distances()
            } else {
                Vec::new()
            };
            let reaching: Vec<_> = curve.reaching(&distances).map(moved).collect();
            reaching.into_iter().chain([first, curve.input(|_| room)])
        }))
    }
}

fn samples(pairs: &[f64], marks: &[u8]) -> Vec<Sample> {
    let pairs = pairs.as_chunks().0.iter();
    pairs
        .zip(marks)
        .map(|(&[u, v], &mark)| (mark == 1).then_some((u, v)))
        .collect()
}

/// The first of 1, 2, 13, 4, 9 and 10 that applies.
fn refusal(
    scene: &Scene,
    tolerances: Option<Tolerances>,
    pairs: &[f64],
    marks: &[u8],
) -> Option<Refusal> {
    let lengths = pairs.len() != 2 * marks.len() || marks.len() > 65_537;
    match scene.grid.refusal(tolerances) {
        Some(Refusal::Steps) => return Some(Refusal::Steps),
        _ if lengths => return Some(Refusal::Length),
        Some(refusal) => return Some(refusal),
        None => {}
    }
    if marks.iter().any(|&mark| mark > 1) {
        return Some(Refusal::Mark);
    }
    let near_enough = |x: f64| x.is_finite() && x.abs() <= FAR;
    let placed = samples(pairs, marks).into_iter().flatten();
    let far = placed
        .into_iter()
        .any(|(u, v)| !near_enough(u) || !near_enough(v));
    far.then_some(Refusal::Sample)
}

/// A grid that nothing joins.
pub fn bent(u_steps: usize, v_steps: usize) -> Grid {
    Grid::new(u_steps, v_steps, |i| {
        let (u, v) = (i / (v_steps + 1), i % (v_steps + 1));
        [u as f64 + 0.1, v as f64 * 1.7, (3 * u + v * v) as f64]
    })
}

/// Some grids of all kinds, now and then with coordinates at their limits. Another takes the place
/// of one of them at every thousandth input or so.
pub struct Scenes<S> {
    scenes: Vec<Rc<Scene>>,
    most: usize,
    steps: S,
    scales: &'static [f64],
}

impl<S: Fn(&mut Random) -> usize> Scenes<S> {
    pub fn new(most: usize, steps: S) -> Self {
        Self {
            scenes: Vec::new(),
            most,
            steps,
            scales: &[1.0],
        }
    }

    /// Those whose points are mostly so near to each other that a tolerance tells.
    pub fn dense(most: usize, steps: S) -> Self {
        Self {
            scales: &[1.0, 1.0 / 16.0, 1.0 / 256.0, 1e-6],
            ..Self::new(most, steps)
        }
    }

    fn any(&mut self, random: &mut Random) -> &Rc<Scene> {
        let count = self.scenes.len();
        if count < self.most {
            self.scenes.push(self.another(random));
            return &self.scenes[count];
        }
        let place = random.below(count as u64) as usize;
        if random.below(1_000) == 0 {
            self.scenes[place] = self.another(random);
        }
        &self.scenes[place]
    }

    fn another(&self, random: &mut Random) -> Rc<Scene> {
        let (m, n) = ((self.steps)(random), (self.steps)(random));
        let mut grid = any_grid(random, m, n);
        let scale = match random.below(8) {
            0 => random.of(&[EPS, 1e-12, 4_294_967_296.0, 1e-300]),
            turn => self.scales[turn as usize % self.scales.len()],
        };
        grid.numbers.iter_mut().for_each(|x| *x *= scale);
        Rc::new(Scene::new(grid))
    }
}

/// The edges of an axis of so many steps.
fn edges(steps: usize) -> Vec<f64> {
    let top = steps as f64;
    let around = |x: f64| {
        [
            (x - EPS).next_down(),
            x - EPS,
            x,
            x + EPS,
            (x + EPS).next_up(),
        ]
    };
    let inside = [-0.0, 0.25, 0.5, top - 0.25, 1.0];
    let outside = [-100.0, -0.5, top + 0.5, 300.0];
    [
        around(0.0).to_vec(),
        around(top).to_vec(),
        inside.into(),
        outside.into(),
    ]
    .concat()
}

/// Each leg from one point at edges of both axes to another, with room to spare.
pub fn legs_between_edges(scene: &Rc<Scene>) -> impl Iterator<Item = Input> {
    let (us, vs) = (edges(scene.grid.u_steps), edges(scene.grid.v_steps));
    let ends: Vec<_> = us
        .iter()
        .flat_map(|&u| vs.iter().map(move |&v| [u, v]))
        .collect();
    let count = ends.len();
    (0..count * count).map(move |i| {
        let pairs = [ends[i / count], ends[i % count]].concat();
        Input::new(scene, None, pairs, vec![1, 1], |need| spare(need, i % 3))
    })
}

/// Lists that hold what is needed and a little more.
pub fn spare(need: Need, more: usize) -> Room {
    Room {
        points: 3 * need.points + more,
        starts: need.lines + more,
        sides: 2 * need.points + more,
        fractions: need.points + more,
        samples: need.points + more,
    }
}

/// Samples on one of the scenes, and lists that just hold what is needed, just do not, or have more
/// room.
pub fn traced(random: &mut Random, scenes: &mut Scenes<impl Fn(&mut Random) -> usize>) -> Input {
    let scene = scenes.any(random);
    let (pairs, marks) = any_samples(random, scene.grid.u_steps, scene.grid.v_steps);
    Input::new(scene, None, pairs, marks, |need| any_room(random, need))
}

/// The same at tolerances: that of the line is any, or at a distance of points that are made one after
/// the other.
pub fn traced_at(random: &mut Random, scenes: &mut Scenes<impl Fn(&mut Random) -> usize>) -> Input {
    let scene = scenes.any(random);
    let (pairs, marks) = any_samples(random, scene.grid.u_steps, scene.grid.v_steps);
    let line = match random.below(4) {
        0 => any_tolerance(random),
        _ => {
            let walk = scene.walk(None, &samples(&pairs, &marks));
            tolerance_at(random, &distances(&walk))
        }
    };
    let tolerances = Tolerances {
        u: any_tolerance(random),
        v: any_tolerance(random),
        line,
    };
    Input::new(scene, Some(tolerances), pairs, marks, |need| {
        any_room(random, need)
    })
}

/// How far each point that a walk makes is from the next one, and from the one after that, which it is
/// held to where that one is left out.
fn distances(walk: &Walk) -> Vec<f64> {
    let points = walk.made.iter().filter_map(|made| Some(made.point?.0));
    let points: Vec<_> = points.collect();
    let distance = |(&a, &b): (&[f64; 3], &[f64; 3])| distance(a, b);
    let next = points.iter().zip(points.iter().skip(1));
    let after = points.iter().zip(points.iter().skip(2));
    next.chain(after).map(distance).collect()
}

/// Room that is mostly enough; where it is not, one list is the shortest.
fn any_room(random: &mut Random, need: Need) -> Room {
    let mut more = [0; 5].map(|_| random.below(4) as usize);
    let mut least = [need.points; 5];
    least[1] = need.lines;
    if random.below(3) == 0 {
        let list = random.below(5) as usize;
        more[list] = 0;
        least[list] = match random.below(4) {
            0 => random.below(least[list] as u64 + 1) as usize,
            _ => least[list].saturating_sub(random.below(3) as usize),
        };
    }
    let [points, starts, sides, fractions, samples] = least;
    Room {
        points: 3 * points + more[0],
        starts: starts + more[1],
        sides: 2 * sides + more[2],
        fractions: fractions + more[3],
        samples: samples + more[4],
    }
}

/// 1 to 300 samples, mostly few, with breaks, which on some curves are half of them. The original
/// takes a millisecond for a leg that goes as far away as it may, so that such legs are few, but
/// more on the large grids, of which there are fewer.
fn any_samples(random: &mut Random, m: usize, n: usize) -> (Vec<f64>, Vec<u8>) {
    let count = 1 + match random.below(256) {
        0 => random.below(300),
        1..16 => random.below(24),
        _ => random.below(5),
    };
    let at_limits = if m.max(n) > 24 { 8 } else { 1 };
    let far = match random.below(512) {
        k if k < at_limits && count < 8 => FAR,
        1..100 => 2_000.0,
        _ => 300.0,
    };
    let (mut pairs, mut marks) = (Vec::new(), Vec::new());
    let mut last = [0.5, 0.5];
    let one_break_in = if random.below(6) == 0 { 2 } else { 12 };
    for _ in 0..count {
        last = any_sample(random, last, [m, n], far);
        let marked = random.below(one_break_in) != 0;
        if marked {
            pairs.extend(last);
        } else {
            pairs.extend(random.of(&[last, [f64::NAN; 2], [f64::INFINITY, 3.0 * FAR]]));
        }
        marks.push(u8::from(marked));
    }
    (pairs, marks)
}

/// A sample that stands in some relation to the one before it, to the grid lines or to the diagonals.
fn any_sample(random: &mut Random, last: [f64; 2], steps: [usize; 2], far: f64) -> [f64; 2] {
    let ([u, v], [m, n]) = (last, steps);
    let pair = match random.below(16) {
        0 => last,
        1 => [u, any_coordinate(random, n, far)],
        2 => [any_coordinate(random, m, far), v],
        3 => [near(random, u), near(random, v)],
        4 | 5 => [u + random.unit() - 0.5, v + random.unit() - 0.5],
        6 => {
            let sum = random.whole(0, (m + n) as i64) as f64;
            let u = any_coordinate(random, m, far);
            [u, near(random, sum - u)]
        }
        7 => {
            let corner = [random.below(m as u64 + 1), random.below(n as u64 + 1)];
            [2.0 * corner[0] as f64 - u, 2.0 * corner[1] as f64 - v]
        }
        _ => [
            any_coordinate(random, m, far),
            any_coordinate(random, n, far),
        ],
    };
    pair.map(|x| x.clamp(-far, far))
}

/// A coordinate on, near or between the grid lines, at or past a border, or far away.
fn any_coordinate(random: &mut Random, steps: usize, far: f64) -> f64 {
    let top = steps as f64;
    let line = random.below(steps as u64 + 1) as f64;
    match random.below(16) {
        0 => line,
        1 => random.of(&[-0.0, line]),
        2 | 3 => near(random, line),
        4 => line + random.of(&[0.25, 0.5, 0.75]),
        5 | 6 => {
            let border = random.of(&[-EPS, top + EPS]);
            random.of(&[border.next_down(), border, border.next_up()])
        }
        7 => random.of(&[-far, far, far.next_down(), -far / 2.0]),
        8 => random.of(&[-1.0, 1.0]) * far * random.unit(),
        9 => random.of(&[-1.0, -0.5, top + 0.5, top + 1.0]),
        10 => (top + 2.0) * random.unit() - 1.0,
        _ => top * random.unit(),
    }
}

/// Any set of the faults that are refused before the walk, or none.
pub fn faulty(random: &mut Random) -> Input {
    faulty_with(random, |_| None)
}

/// The same with tolerances of which each may be refused.
pub fn faulty_at_tolerances(random: &mut Random) -> Input {
    faulty_with(random, |random| Some(faulty_tolerances(random)))
}

fn faulty_with(
    random: &mut Random,
    tolerances: impl FnOnce(&mut Random) -> Option<Tolerances>,
) -> Input {
    let (m, n) = (1 + random.below(3) as usize, 1 + random.below(3) as usize);
    let mut grid = any_grid(random, m, n);
    if random.below(2) == 0 {
        spoil(random, &mut grid);
    }
    let (mut pairs, mut marks) = any_samples(random, m, n);
    if random.below(4) == 0 {
        let place = random.below(marks.len() as u64) as usize;
        marks[place] = random.of(&[2, 3, 128, 255]);
    }
    if random.below(3) == 0 {
        let place = random.below(pairs.len() as u64) as usize;
        let past = FAR.next_up();
        pairs[place] = match random.below(256) {
            0 => random.of(&[FAR, -FAR]),
            _ => random.of(&[past, -past, f64::INFINITY, f64::NAN, f64::MAX]),
        };
    }
    match random.below(16) {
        0 => pairs.truncate(pairs.len() - 1),
        1 => pairs.push(0.0),
        2 => pairs.extend([0.0, 0.0]),
        3 => marks.push(1),
        _ => {}
    }
    if random.below(512) == 0 {
        let count = random.of(&[65_536, 65_537, 65_538]);
        marks.resize(count, 0);
        pairs.resize(2 * count, 0.0);
    }
    let (scene, tolerances) = (Rc::new(Scene::new(grid)), tolerances(random));
    Input::new(&scene, tolerances, pairs, marks, |need| {
        any_room(random, need)
    })
}
