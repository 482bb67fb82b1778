//! Mappings and the seam search against the original's, comparisons counted.

use crate::case::{Smaller, case, plainer_everywhere, stretches, without};
use crate::driver::{Compared, Driver};
use crate::inputs::tolerances::{
    Point, TOLERANCE_EDGES, TOLERANCE_FAULTS, any_tolerance, distance, faulty_tolerance,
    row_distances, tolerance_at, tolerance_fits,
};
use crate::inputs::{
    COORDINATE_EDGES, COORDINATE_FAULTS, EPS, about, coordinates_fit, near, whole,
};
use crate::mappings::{mapping, offset_and_steps, searched, to_original};
use crate::random::Random;
use crate::record::{Call, Record, Recorded};
use merlontrispa::{Mapping, Refusal, Seam};
use std::collections::HashSet;
use std::iter;

/// Two rows of points, three numbers each.
#[derive(Clone)]
struct Rows {
    a: Vec<f64>,
    b: Vec<f64>,
    /// By which points are close, for the library and the edited original. Where it is not given
    /// the library is given EPS, and held to the unchanged original.
    tolerance: Option<f64>,
}

case!(Rows { a, b, tolerance }, first Rows::simpler);

impl Rows {
    fn new(a: Vec<f64>, b: Vec<f64>) -> Self {
        Self {
            a,
            b,
            tolerance: None,
        }
    }

    fn at(self, tolerance: f64) -> Self {
        Self {
            tolerance: Some(tolerance),
            ..self
        }
    }

    /// The first of 2, 13 and 4 that applies.
    fn refusal(&self) -> Option<Refusal> {
        let rows = [&self.a, &self.b];
        let row_fits = |row: &Vec<f64>| row.len().is_multiple_of(3) && row.len() / 3 <= 65_536;
        if !rows.into_iter().all(row_fits) {
            Some(Refusal::Length)
        } else if !self.tolerance.is_none_or(tolerance_fits) {
            Some(Refusal::Tolerance)
        } else if !rows.into_iter().all(|row| coordinates_fit(row)) {
            Some(Refusal::Coordinate)
        } else {
            None
        }
    }

    /// Rows without the same places of both, without the same points, or of points that still coincide.
    fn simpler(&self) -> Smaller<Self> {
        let (first, second) = (self.clone(), self.clone());
        let places = stretches(self.a.len().min(self.b.len()) / 3);
        let fewer_places = places.map(move |places| {
            let numbers = 3 * places.start..3 * places.end;
            Self {
                a: without(&first.a, &numbers),
                b: without(&first.b, &numbers),
                ..first
            }
        });
        let points = distinct(&self.a);
        let fewer_points = stretches(points.len()).map(move |stretch| {
            let gone: HashSet<_> = points[stretch].iter().copied().collect();
            Self {
                a: without_points(&second.a, &gone),
                b: without_points(&second.b, &gone),
                ..second
            }
        });
        let fewer = fewer_places.chain(fewer_points);
        Box::new(fewer.chain(self.nearer()).chain(self.plainer()))
    }

    /// Rows at a tolerance with the fractions of their numbers alone.
    fn nearer(&self) -> Option<Self> {
        let rows = [&self.a, &self.b];
        let far = rows.into_iter().flatten().any(|x| x.abs() >= 1.0);
        let [a, b] = rows.map(|row| row.iter().map(|x| x.fract()).collect());
        let rows = Self::new(a, b).at(self.tolerance?);
        far.then(|| match self.reached() {
            Some(pair) => rows.reaching(pair),
            None => rows,
        })
    }

    /// Rows with a number plainer wherever it stands, the tolerance too. A tolerance that is the
    /// distance of two points is tried as their new one first.
    fn plainer(&self) -> impl Iterator<Item = Self> + use<> {
        let [length, both] = [self.a.len(), self.a.len() + self.b.len()];
        let numbers = [&self.a[..], &self.b, self.tolerance.as_slice()].concat();
        let (before, reached) = (self.tolerance, self.reached());
        plainer_everywhere(&numbers).flat_map(move |mut a| {
            let tolerance = a.split_off(both).pop();
            let b = a.split_off(length);
            let rows = Self { a, b, tolerance };
            let as_far = reached.filter(|_| tolerance == before);
            let as_far = as_far.map(|pair| rows.clone().reaching(pair));
            as_far.into_iter().chain([rows])
        })
    }

    /// Two of the first points whose distance is the tolerance.
    fn reached(&self) -> Option<[usize; 2]> {
        let tolerance = self.tolerance?;
        let count = (self.a.len() / 3 + self.b.len() / 3).min(64);
        let mut pairs = (0..count).flat_map(|i| (0..i).map(move |j| [i, j]));
        pairs.find(|&pair| self.distance(pair) == tolerance)
    }

    /// The same rows at the distance of two points.
    fn reaching(self, pair: [usize; 2]) -> Self {
        let distance = self.distance(pair);
        self.at(distance)
    }

    /// How far apart two points are, those of b counted after those of a.
    fn distance(&self, pair: [usize; 2]) -> f64 {
        let [a, b] = [&self.a, &self.b].map(|row| row.as_chunks::<3>().0);
        let [p, q] = pair.map(|i| *a.get(i).unwrap_or_else(|| &b[i - a.len()]));
        distance(p, q)
    }
}

/// The points of a row by their bits, each once.
fn distinct(row: &[f64]) -> Vec<[u64; 3]> {
    let mut seen = HashSet::new();
    let points = row.as_chunks().0.iter().map(point_bits);
    points.filter(|&point| seen.insert(point)).collect()
}

fn without_points(row: &[f64], gone: &HashSet<[u64; 3]>) -> Vec<f64> {
    let (points, rest) = row.as_chunks();
    let left = points
        .iter()
        .filter(|point| !gone.contains(&point_bits(point)));
    left.flatten().chain(rest).copied().collect()
}

fn point_bits(point: &Point) -> [u64; 3] {
    point.map(f64::to_bits)
}

pub fn compare(driver: &mut Driver) -> Compared {
    compare_mappings(driver)?;
    compare_searches(driver)?;
    compare_searches_at_tolerances(driver)
}

fn compare_mappings(driver: &mut Driver) -> Compared {
    for direction in [Direction::AToB, Direction::BToA] {
        let name = direction.name();
        let small = (0..=12).flat_map(|steps| (0..=13).map(move |offset| (steps, offset)));
        let small = small.flat_map(|(steps, offset)| {
            (0..=13).flat_map(move |index| {
                [false, true].map(|reverse| (mapping(reverse, offset, steps), index))
            })
        });
        driver.compare_each(
            &format!("{name}, up to 12 steps"),
            small,
            |&(mapping, index)| direction.library(mapping, index),
            |&(mapping, index)| direction.original(mapping, index),
        )?;
        driver.compare(
            &format!("{name}, any steps"),
            2_000_000,
            any_mapping,
            |&(mapping, index)| direction.library(mapping, index),
            |&(mapping, index)| direction.original(mapping, index),
        )?;
    }
    driver.compare(
        "is_reverse",
        100_000,
        |random| any_mapping(random).0,
        |mapping| mapping.is_reverse(),
        |&mapping| to_original(mapping).is_reverse(),
    )
}

fn compare_searches(driver: &mut Driver) -> Compared {
    let letters = [[0.0, 0.0, 0.0], [1.0, 0.0, 0.0], [0.0, -2.0, 3.0]];
    search(
        driver,
        "rows of three letters, up to 6 points",
        small_rows(letters, 6),
    )?;
    let letters = [0.0, 0.6, 1.2].map(|x| [0.0, x * EPS, 0.0]);
    search(
        driver,
        "rows of letters that are close by turns",
        small_rows(letters, 6),
    )?;
    search(driver, "rows of up to 65,536 points", long_rows())?;
    driver.compare(
        "new_vector, planted",
        2_000_000,
        planted,
        library_search,
        original_search,
    )?;
    search(driver, "rows at the limits", limits())?;
    driver.compare(
        "new_vector, refusals",
        200_000,
        faulty,
        library_search,
        original_search,
    )
}

fn compare_searches_at_tolerances(driver: &mut Driver) -> Compared {
    search(
        driver,
        "at tolerances, rows of letters that are close by turns",
        close_by_turns(),
    )?;
    search(
        driver,
        "at tolerances, rows of all lengths",
        lengths_at_tolerances(),
    )?;
    driver.compare(
        "new_vector, at tolerances, planted",
        600_000,
        gaping,
        library_search,
        original_search,
    )?;
    driver.compare(
        "new_vector, at tolerances, refusals",
        100_000,
        faulty_at_tolerances,
        library_search,
        original_search,
    )
}

fn search(driver: &mut Driver, name: &str, rows: impl IntoIterator<Item = Rows>) -> Compared {
    driver.compare_each(
        &format!("new_vector, {name}"),
        rows,
        library_search,
        original_search,
    )
}

fn library_search(rows: &Rows) -> Result<Seam, Refusal> {
    Mapping::new_vector(&rows.a, &rows.b, rows.tolerance.unwrap_or(EPS))
}

fn original_search(rows: &Rows) -> Result<Seam, Refusal> {
    match rows.refusal() {
        Some(refusal) => Err(refusal),
        None => Ok(searched(&rows.a, &rows.b, rows.tolerance)),
    }
}

#[derive(Clone, Copy)]
enum Direction {
    AToB,
    BToA,
}

impl Direction {
    fn name(self) -> &'static str {
        match self {
            Self::AToB => "map_index",
            Self::BToA => "map_index_inv",
        }
    }

    fn library(self, mapping: Mapping, index: usize) -> Result<usize, Refusal> {
        match self {
            Self::AToB => mapping.map_index(index),
            Self::BToA => mapping.map_index_inv(index),
        }
    }

    fn original(self, mapping: Mapping, index: usize) -> Result<usize, Refusal> {
        let [offset, steps] = offset_and_steps(mapping);
        if steps == 0 || steps > 65_535 || offset >= steps || index > steps {
            return Err(Refusal::NotThere);
        }
        Ok(match self {
            Self::AToB => to_original(mapping).map_index(index),
            Self::BToA => to_original(mapping).map_index_inv(index),
        })
    }
}

/// A mapping and an index, often at the edge of what is there.
fn any_mapping(random: &mut Random) -> (Mapping, usize) {
    let steps = match random.below(8) {
        0 => whole(random),
        1 => 65_533 + random.below(5) as usize,
        2 => random.below(3) as usize,
        _ => 1 + random.below(65_535) as usize,
    };
    let offset = up_to(random, steps);
    let index = up_to(random, steps);
    (mapping(random.below(2) == 0, offset, steps), index)
}

/// A number that is mostly at most `top`, and often near 0 or near it.
fn up_to(random: &mut Random, top: usize) -> usize {
    match random.below(8) {
        0 => whole(random),
        1 => random.below(3) as usize,
        2 | 3 => top.saturating_add_signed(random.whole(-2, 2) as isize),
        _ => random.below((top as u64).saturating_add(1).max(1)) as usize,
    }
}

/// Each pair of rows of up to so many points over three letters, and shorter ones of different length.
fn small_rows(letters: [Point; 3], most: u32) -> impl Iterator<Item = Rows> {
    let different = (0..=3).flat_map(|a| (0..=3).map(move |b| (a, b)));
    let lengths = different.chain((4..=most).map(|n| (n, n)));
    lengths.flat_map(move |(a, b)| {
        (0..3u64.pow(a + b)).map(move |word| {
            Rows::new(
                spell(letters, word, a),
                spell(letters, word / 3u64.pow(a), b),
            )
        })
    })
}

/// The word's digits to the base 3 as letters, the lowest first.
fn spell(letters: [Point; 3], word: u64, length: u32) -> Vec<f64> {
    let digit = |place| letters[(word / 3u64.pow(place) % 3) as usize];
    (0..length).flat_map(digit).collect()
}

/// Each pair of rows of up to 5 points over three letters of which the second is less than the
/// tolerance from the others, and the third just as far as it from the first.
fn close_by_turns() -> impl Iterator<Item = Rows> {
    let tolerances = [5e-324, 1e-300, 0.25, 1.0];
    tolerances.into_iter().flat_map(|tolerance: f64| {
        let letters = [0.0, tolerance.next_down(), tolerance].map(|x| [0.0, 0.0, x]);
        small_rows(letters, 5).map(move |rows| rows.at(tolerance))
    })
}

/// Rows of few points and of too many, at each tolerance that is refused and at those that are just
/// not, with and without a coordinate that is refused.
fn lengths_at_tolerances() -> impl Iterator<Item = Rows> {
    let lengths = [0, 1, 3, 4, 6, 9];
    let short = lengths
        .into_iter()
        .flat_map(move |a| lengths.map(|b| (a, b)));
    let long = [(196_608, 0), (196_611, 0)];
    let tolerances = TOLERANCE_EDGES.into_iter().chain(TOLERANCE_FAULTS);
    tolerances.flat_map(move |tolerance| {
        short.clone().chain(long).flat_map(move |(a, b)| {
            [1.0, f64::NAN].map(|last| {
                let mut rows = Rows::new(vec![1.0; a], vec![1.0; b]).at(tolerance);
                rows.a.last_mut().into_iter().for_each(|x| *x = last);
                rows
            })
        })
    })
}

/// Rows that fit by a mapping, whole or but for one point that is moved about as far as closeness
/// reaches.
fn planted(random: &mut Random) -> Rows {
    let steps = match random.below(4) {
        0 => 1 + random.below(4) as usize,
        _ => 1 + random.below(40) as usize,
    };
    let points = pattern(random, steps + 1);
    let mut rows = fitting(
        &points,
        random.below(4) != 0,
        random.below(2) == 0,
        random.below(steps as u64) as usize,
    );
    if random.below(4) != 0 {
        let row = if random.below(2) == 0 {
            &mut rows.a
        } else {
            &mut rows.b
        };
        let place = random.below(row.len() as u64) as usize;
        row[place] = near(random, row[place]);
    }
    rows
}

/// Rows that fit by a mapping, but for some points, often ends, that are moved about as far as a
/// tolerance; at that one, at any, or at a distance that a search of the mapping asks about.
fn gaping(random: &mut Random) -> Rows {
    let steps = match random.below(4) {
        0 => 1 + random.below(4) as usize,
        _ => 1 + random.below(20) as usize,
    };
    let gap = any_tolerance(random);
    let scale = random.of(&[1.0, gap, 0.5 * gap, 1.0 / 1024.0]);
    let mut points = pattern(random, steps + 1);
    points
        .as_flattened_mut()
        .iter_mut()
        .for_each(|x| *x *= scale);
    let closed = random.below(4) != 0;
    let reverse = random.below(2) == 0;
    let offset = if closed {
        random.below(steps as u64) as usize
    } else {
        0
    };
    let mut rows = fitting(&points, closed, reverse, offset);
    for _ in 0..random.below(4) {
        let row = match random.below(2) {
            0 => &mut rows.a,
            _ => &mut rows.b,
        };
        let point = match random.below(2) {
            0 => random.of(&[0, steps]),
            _ => random.below(steps as u64 + 1) as usize,
        };
        let place = 3 * point + random.below(3) as usize;
        row[place] = about(random, row[place], gap);
    }
    let tolerance = match random.below(4) {
        0 => any_tolerance(random),
        1 => gap,
        _ => {
            let [a, b] = [&rows.a, &rows.b].map(|row| row.as_chunks().0);
            let distances = row_distances(a, b, mapping(reverse, offset, steps));
            tolerance_at(random, &distances)
        }
    };
    rows.at(tolerance)
}

/// Points that repeat often, now and then or never.
fn pattern(random: &mut Random, count: usize) -> Vec<Point> {
    let period = match random.below(3) {
        0 => 1 + random.below(3) as usize,
        1 => 1 + random.below(count as u64) as usize,
        _ => count,
    };
    let letters = random.of(&[2, 4, 1 << 20]);
    let mut number = || match random.below(4) {
        0 => random.unit(),
        _ => random.below(letters) as f64,
    };
    let one = (0..period)
        .map(|_| [number(), number(), number()])
        .collect::<Vec<_>>();
    (0..count).map(|j| one[j % period]).collect()
}

/// Row a of these points, the last the same as the first where it is closed, and the row b that it
/// fits.
fn fitting(points: &[Point], closed: bool, reverse: bool, offset: usize) -> Rows {
    let steps = points.len() - 1;
    let offset = if closed { offset } else { 0 };
    let mapping = to_original(mapping(reverse, offset, steps));
    let mut a = points.to_vec();
    if closed {
        a[steps] = a[0];
    }
    let mut b = a.clone();
    for (j, &point) in a.iter().enumerate() {
        b[mapping.map_index(j)] = point;
    }
    if closed {
        b[steps] = b[0];
    }
    Rows::new(a.into_flattened(), b.into_flattened())
}

/// The longest rows that are taken: a seam at the first, the second and the last offset, and none.
fn long_rows() -> impl Iterator<Item = Rows> {
    let points = || -> Vec<_> { (0..65_536).map(|j| [f64::from(j), 0.5, -1.0]).collect() };
    let found = [(true, 0), (true, 1), (true, 65_534), (false, 0)];
    let found = found.into_iter().flat_map(move |(closed, offset)| {
        [false, true].map(|reverse| fitting(&points(), closed, reverse, offset))
    });
    let none = move || {
        let mut rows = fitting(&points(), true, false, 65_534);
        rows.b[3 * 65_534] = -1.0;
        rows
    };
    found.chain(iter::once_with(none))
}

/// Rows as long as is allowed and longer, with each coordinate at an edge.
fn limits() -> impl Iterator<Item = Rows> {
    let lengths = [
        0, 1, 2, 3, 5, 6, 196_605, 196_608, 196_609, 196_610, 196_611,
    ];
    let pairs = lengths
        .into_iter()
        .flat_map(move |a| lengths.map(|b| (a, b)));
    let long = pairs.flat_map(|(a, b)| {
        [1.0, f64::NAN].map(|last| {
            let mut rows = Rows::new(vec![1.0; a], vec![1.0; b]);
            if let Some(x) = rows.b.last_mut() {
                *x = last;
            }
            rows
        })
    });
    let edges = COORDINATE_EDGES.into_iter().chain(COORDINATE_FAULTS);
    let at_edges = edges.flat_map(|edge| {
        (0..6).map(move |place| {
            let mut row = vec![edge; 6];
            row[place] = 2.0;
            Rows::new(row.clone(), row)
        })
    });
    long.chain(at_edges)
}

/// Rows with none, one or both of the faults that are refused, or with coordinates at their limits.
fn faulty(random: &mut Random) -> Rows {
    let rows = planted(random);
    spoiled(random, rows)
}

/// The same at a tolerance that may be refused too.
fn faulty_at_tolerances(random: &mut Random) -> Rows {
    let mut rows = gaping(random);
    match random.below(8) {
        0 => rows.b.truncate(3 * random.below(3) as usize),
        1 => {
            rows.a.truncate(3);
            rows.b.truncate(3);
        }
        _ => rows = spoiled(random, rows),
    }
    rows.at(faulty_tolerance(random))
}

fn spoiled(random: &mut Random, mut rows: Rows) -> Rows {
    for row in [&mut rows.a, &mut rows.b] {
        if random.below(3) == 0 {
            row.truncate(row.len() - 1 - random.below(2) as usize);
        }
        let place = random.below(row.len() as u64) as usize;
        match random.below(6) {
            0 => row[place] = random.of(&COORDINATE_FAULTS),
            1 => row[place] = random.of(&COORDINATE_EDGES),
            _ => {}
        }
    }
    rows
}

/// Mappings and rows for the record.
pub fn record(record: &mut Record) {
    for direction in [Direction::AToB, Direction::BToA] {
        let mut random = record.random();
        for _ in 0..40 {
            let (mapping, index) = any_mapping(&mut random);
            record.keep(direction.recorded(mapping, index));
        }
    }
    let x = |xs: &[f64]| xs.iter().flat_map(|&x| [x, 0.0, 0.0]).collect();
    let rows = |a: &[f64], b: &[f64]| Rows::new(x(a), x(b));
    let zeros = |a, b| Rows::new(vec![0.0; a], vec![0.0; b]);
    let apart = rows(&[0.0, 1.0, 2.0, 3.0], &[3.25, 2.25, 1.25, 0.25]);
    let closed = rows(&[0.0, 1.0, 2.0, 0.4], &[1.0, 2.0, 0.0, 1.4]);
    for rows in [
        rows(&[0.0, 1.0, 2.0, 3.0], &[3.0, 2.0, 1.0, 0.0]),
        rows(&[0.0, 1.0, 2.0, 0.0], &[1.0, 2.0, 0.0, 1.0]),
        rows(&[0.0, 1.0, 2.0], &[1.0, 2.0, 3.0]),
        apart.clone().at(0.25),
        apart.clone().at(0.25f64.next_up()),
        apart.at(1.0),
        closed.clone().at(0.5),
        closed.at(0.4),
        zeros(0, 0).at(-0.0),
        zeros(3, 3).at(f64::NAN),
        zeros(6, 9).at(1.0f64.next_up()),
        zeros(6, 6).at(5e-324),
        zeros(196_608, 3),
        zeros(196_611, 0),
        zeros(0, 0),
        zeros(3, 3),
        zeros(6, 9),
    ] {
        record.keep(rows.recorded());
    }
    let mut random = record.random();
    for _ in 0..10_000 {
        record.offer(planted(&mut random).recorded());
        record.offer(faulty(&mut random).recorded());
        record.offer(gaping(&mut random).recorded());
        record.offer(faulty_at_tolerances(&mut random).recorded());
    }
}

/// How a mapping is recorded: its direction, 0 where there is none, offset and steps.
pub fn words(mapping: Option<Mapping>) -> [u64; 3] {
    match mapping {
        None => [0; 3],
        Some(Mapping::Forward { offset, steps }) => [1, offset as u64, steps as u64],
        Some(Mapping::Reverse { offset, steps }) => [2, offset as u64, steps as u64],
    }
}

/// The name of a direction and an offset.
pub fn kind(mapping: Option<Mapping>) -> &'static str {
    match mapping {
        None => "none",
        Some(Mapping::Forward { offset: 0, .. }) => "forward at 0",
        Some(Mapping::Forward { .. }) => "forward at an offset",
        Some(Mapping::Reverse { offset: 0, .. }) => "reverse at 0",
        Some(Mapping::Reverse { .. }) => "reverse at an offset",
    }
}

/// How a seam is recorded: its mapping and the comparisons.
pub fn seam_words(seam: &Seam) -> Vec<u64> {
    [&words(seam.mapping)[..], &[seam.comparisons]].concat()
}

impl Direction {
    fn recorded(self, mapping: Mapping, index: usize) -> Recorded {
        let call = match self {
            Self::AToB => Call::MapIndex,
            Self::BToA => Call::MapIndexInv,
        };
        let told = self.original(mapping, index);
        let [direction, offset, steps] = words(Some(mapping));
        let numbers = [direction - 1, offset, steps, index as u64];
        Recorded::new(call, told.err(), &numbers).told(told.map(|index| [index, 0]))
    }
}

impl Rows {
    fn recorded(&self) -> Recorded {
        let told = original_search(self);
        let tolerance = self.tolerance.unwrap_or(EPS);
        let by_eps = Self::new(self.a.clone(), self.b.clone());
        let case = Recorded::new(Call::NewVector, told.err(), &[])
            .at_tolerances(&[tolerance], told.err(), by_eps.refusal())
            .floats(&self.a)
            .floats(&self.b)
            .told(told.map(|_| [0, 0]));
        match told {
            Ok(seam) => {
                let by_eps = searched(&self.a, &self.b, None).mapping;
                case.words(&seam_words(&seam))
                    .reaching(kind(seam.mapping))
                    .reaching_if(seam.mapping != by_eps, "another seam than by EPS")
            }
            Err(_) => case,
        }
    }
}

#[cfg(test)]
mod tests {
    use super::*;
    use crate::planted::found;

    #[test]
    fn planted_rows_fit_or_just_do_not() {
        let mut random = Random::new(1);
        let (mut forward, mut reverse, mut late, mut none) = (0, 0, 0, 0);
        for _ in 0..10_000 {
            match original_search(&planted(&mut random)).map(|seam| seam.mapping) {
                Ok(Some(Mapping::Forward { offset, .. })) => {
                    forward += 1;
                    late += u32::from(offset > 0);
                }
                Ok(Some(Mapping::Reverse { offset, .. })) => {
                    reverse += 1;
                    late += u32::from(offset > 0);
                }
                Ok(None) => none += 1,
                Err(refusal) => panic!("{refusal}"),
            }
        }
        assert!(
            [forward, reverse, late, none].iter().all(|&n| n > 1_000),
            "{forward} {reverse} {late} {none}"
        );
    }

    /// A search that gives up where the rows are closed and offset 0 does not fit.
    #[test]
    fn a_search_of_offset_0_alone_is_found() {
        let lazy = |rows: &Rows| {
            let mut seam = original_search(rows)?;
            if let Some(Mapping::Forward { offset, .. } | Mapping::Reverse { offset, .. }) =
                seam.mapping
                && offset > 0
            {
                seam.mapping = None;
            }
            Ok(seam)
        };
        let case = found(
            |driver| driver.compare("planted", 1_000, planted, lazy, original_search),
            |driver| driver.compare("planted", 1_000, planted, library_search, original_search),
        );
        assert_eq!(
            case,
            "a [ o 0.0 0.0 1.0 o ] b [ 0.0 0.0 1.0 o 0.0 0.0 1.0 ]"
        );
    }

    /// What a tolerance decides: seams that EPS does not find, and the other way round; whether rows
    /// are closed; and the next float finds another one.
    #[test]
    fn tolerances_decide_seams() {
        let mut random = Random::new(1);
        let (mut more, mut fewer, mut late, mut edges) = (0, 0, 0, 0);
        for _ in 0..10_000 {
            let rows = gaping(&mut random);
            let by = |tolerance: f64| searched(&rows.a, &rows.b, Some(tolerance)).mapping;
            let tolerance = rows.tolerance.expect("it has one");
            let (here, by_eps) = (by(tolerance), by(EPS));
            more += u32::from(here.is_some() && by_eps.is_none());
            fewer += u32::from(here.is_none() && by_eps.is_some());
            late += u32::from(kind(here).ends_with("an offset"));
            edges += u32::from(here != by(tolerance.next_up()));
        }
        let all = [more, fewer, late, edges];
        assert!(all.iter().all(|&count| count > 500), "{all:?}");
    }

    #[test]
    fn each_refusal_comes_beside_the_others() {
        let mut random = Random::new(1);
        let mut counts = [0; 14];
        for _ in 0..10_000 {
            let rows = faulty_at_tolerances(&mut random);
            counts[usize::from(rows.refusal().map_or(0, Refusal::number))] += 1;
        }
        let told = [0, 2, 13, 4].map(|number| counts[number]);
        assert!(told.iter().all(|&count| count > 500), "{counts:?}");
    }

    /// The smallest rows on which a wrong search is found to differ.
    fn found_rows(
        input: fn(&mut Random) -> Rows,
        wrong: impl Fn(&Rows) -> Result<Seam, Refusal>,
    ) -> String {
        found(
            |driver| driver.compare("planted", 10_000, input, &wrong, original_search),
            |driver| driver.compare("planted", 10_000, input, library_search, original_search),
        )
    }

    /// The search at another tolerance than the one that is given.
    fn searched_at(rows: &Rows, other: fn(f64) -> f64) -> Result<Seam, Refusal> {
        original_search(rows)?;
        let tolerance = rows.tolerance.map(other);
        Ok(searched(&rows.a, &rows.b, tolerance))
    }

    #[test]
    fn a_search_by_eps_is_found() {
        let case = found_rows(gaping, |rows| searched_at(rows, |_| EPS));
        assert_eq!(case, "a [ o o ] b [ o 0.5 0.0 0.0 ] tolerance 1.0");
    }

    /// Less or equal in the place of less.
    #[test]
    fn a_search_that_takes_the_tolerance_itself_is_found() {
        let case = found_rows(gaping, |rows| searched_at(rows, f64::next_up));
        assert_eq!(case, "a [ o o ] b [ 0.0 0.0 1.0 o ] tolerance 1.0");
    }

    /// Rows are closed by EPS, and the rest goes by the tolerance.
    #[test]
    fn rows_that_are_closed_by_eps_are_found() {
        let wrong = |rows: &Rows| {
            let mut seam = original_search(rows)?;
            let points = rows.a.len() / 3;
            let apart = |first: usize| rows.distance([first, first + points - 1]) >= EPS;
            if kind(seam.mapping).ends_with("an offset") && (apart(0) || apart(points)) {
                seam.mapping = None;
            }
            Ok(seam)
        };
        let b = "1.0 o 0.0 0.0 0.5 0.0 0.0";
        assert_eq!(
            found_rows(gaping, wrong),
            format!("a [ o 1.0 o 0.0 0.0 ] b [ {b} ] tolerance 1.0")
        );
    }

    /// A search that looks at its tolerance after the coordinates.
    #[test]
    fn a_tolerance_that_is_refused_too_late_is_found() {
        let wrong = |rows: &Rows| match original_search(rows) {
            Err(Refusal::Tolerance) => {
                original_search(&rows.clone().at(EPS)).and(Err(Refusal::Tolerance))
            }
            told => told,
        };
        let case = found_rows(faulty_at_tolerances, wrong);
        assert_eq!(case, "a [ 0.0 1099511627776.0002 0.0 ] b [ ] tolerance 0.0");
    }

    /// A search that looks at no tolerance where rows are too short to be searched.
    #[test]
    fn a_tolerance_that_is_refused_of_long_rows_alone_is_found() {
        let wrong = |rows: &Rows| match original_search(rows) {
            Err(Refusal::Tolerance) if rows.a.len() < 6 || rows.a.len() != rows.b.len() => {
                original_search(&rows.clone().at(EPS))
            }
            told => told,
        };
        let case = found_rows(faulty_at_tolerances, wrong);
        assert_eq!(case, "a [ ] b [ ] tolerance 0.0");
    }
}
