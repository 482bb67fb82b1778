//! Triangulation against what the original hands to its mesh builder.

mod edges;
mod found;
pub mod given;

use crate::case::{Smaller, case};
use crate::driver::{Compared, Driver};
use crate::inputs::grids::{Grid, Joining, any_grid, any_steps, gaping_grid, spoil};
use crate::inputs::lists::{fewer_cells, fill, length, numbers};
use crate::inputs::tolerances::faulty_tolerances;
use crate::inputs::{EPS, coordinates_fit};
use crate::layers::seams::{kind, seam_words};
use crate::mappings::{mapping, searched, to_edited};
use crate::random::Random;
use crate::record::{Call, Record, Recorded};
use merlontrispa::{Mapping, Refusal, Seams, Tolerances, Triangulation, triangulate_grid};
use original::{Surface, edited, vectors};

/// A grid and how long the lists are that are lent.
#[derive(Clone)]
struct Input {
    grid: Grid,
    /// Those of the library and of the edited original. Where none are given the library is given
    /// EPS three times, and held to the unchanged original.
    tolerances: Option<Tolerances>,
    triangles: usize,
    flipped: usize,
}

case!(Input { grid, tolerances, triangles, flipped }, first Input::simpler);

impl Input {
    fn new(grid: Grid, [triangles, flipped]: [usize; 2]) -> Self {
        Self {
            grid,
            tolerances: None,
            triangles,
            flipped,
        }
    }

    fn at(self, tolerances: Tolerances) -> Self {
        Self {
            tolerances: Some(tolerances),
            ..self
        }
    }

    /// The two lists before a call.
    fn lists(&self) -> [Vec<usize>; 2] {
        [self.triangles, self.flipped].map(numbers)
    }

    /// The two lists after these triangles and flipped pairs are written.
    fn written(&self, triangles: Vec<usize>, pairs: Vec<(usize, usize)>) -> [Vec<usize>; 2] {
        let mut lists = self.lists();
        fill(&mut lists[0], triangles);
        fill(&mut lists[1], pairs.into_iter().flat_map(|(a, b)| [a, b]));
        lists
    }

    /// Fewer cells, or the same at another scale.
    fn simpler(&self) -> Smaller<Self> {
        Box::new(self.fewer_cells().chain(self.scaled()))
    }

    /// At a scale at which one of the tolerances of seams is 1, where no coordinate is then refused.
    fn scaled(&self) -> impl Iterator<Item = Self> + use<> {
        let this = self.clone();
        let tolerances = self.tolerances.into_iter();
        let units = tolerances.flat_map(|Tolerances { u, v, .. }| [u, v]);
        let scaled = units
            .filter(|unit| (5e-324..1.0).contains(unit))
            .map(move |unit| {
                let mut input = this.clone();
                input.grid.numbers.iter_mut().for_each(|x| *x /= unit);
                if let Some(Tolerances { u, v, .. }) = &mut input.tolerances {
                    [*u, *v] = [*u, *v].map(|tolerance| (tolerance / unit).min(1.0));
                }
                input
            });
        scaled.filter(|input| coordinates_fit(&input.grid.numbers))
    }

    fn fewer_cells(&self) -> Smaller<Self> {
        let tolerances = self.tolerances;
        let fewer = fewer_cells(&self.grid, [self.triangles, self.flipped], least);
        Box::new(fewer.map(move |(grid, lengths)| Self {
            tolerances,
            ..Self::new(grid, lengths)
        }))
    }
}

/// The least lengths of the lists that are taken.
fn least(m: usize, n: usize) -> [usize; 2] {
    [6 * m * n, 2 * (m + n)]
}

/// An answer and the two lists after the call.
type Output = (Result<Triangulation, Refusal>, [Vec<usize>; 2]);

/// Makes inputs of a kind.
type Kind = fn(&mut Random) -> Input;

pub fn compare(driver: &mut Driver) -> Compared {
    let name = "triangulate_grid, each joining of up to 4 by 4 cells";
    driver.compare_each(name, joinings(), library, original)?;
    let name = "triangulate_grid, borders of two or three letters";
    driver.compare_each(name, borders(), library, original)?;
    driver.compare(
        "triangulate_grid, planted",
        200_000,
        planted,
        library,
        original,
    )?;
    driver.compare(
        "triangulate_grid, 255 by 255",
        60,
        |random| exact(any_grid(random, 255, 255)),
        library,
        original,
    )?;
    driver.compare(
        "triangulate_grid, refusals",
        200_000,
        faulty,
        library,
        original,
    )?;
    compare_at_tolerances(driver)
}

fn compare_at_tolerances(driver: &mut Driver) -> Compared {
    let name = "triangulate_grid, at tolerances, borders of letters that are close by turns";
    driver.compare_each(name, borders_at_tolerances(), library, original)?;
    driver.compare(
        "triangulate_grid, at tolerances, planted",
        100_000,
        gaping,
        library,
        original,
    )?;
    driver.compare(
        "triangulate_grid, at tolerances, 255 by 255",
        20,
        |random| gaping_cells(random, 255, 255),
        library,
        original,
    )?;
    driver.compare(
        "triangulate_grid, at tolerances, refusals",
        100_000,
        faulty_at_tolerances,
        library,
        original,
    )?;
    found::compare(driver)?;
    given::compare(driver)
}

fn library(input: &Input) -> Output {
    let mut lists = input.lists();
    let grid = &input.grid;
    let [triangles, flipped] = &mut lists;
    let told = triangulate_grid(
        &grid.numbers,
        grid.u_steps,
        grid.v_steps,
        input.tolerances.unwrap_or_default(),
        triangles,
        flipped,
    );
    (told, lists)
}

fn original(input: &Input) -> Output {
    match refusal(input) {
        None => answered(input),
        Some(refusal) => (Err(refusal), input.lists()),
    }
}

/// What the original answers of an input that is not refused.
fn answered(input: &Input) -> Output {
    let (triangles, flipped) = triangulated(&input.grid, input.tolerances);
    let told = Triangulation {
        seams: seams(&input.grid, input.tolerances),
        triangles: triangles.len() / 3,
        flipped: flipped.len(),
    };
    (Ok(told), input.written(triangles, flipped))
}

/// The triangles and flipped pairs of the original: the edited one's where tolerances are given.
fn triangulated(grid: &Grid, tolerances: Option<Tolerances>) -> (Vec<usize>, Vec<(usize, usize)>) {
    let (numbers, m, n) = (&grid.numbers, grid.u_steps, grid.v_steps);
    match tolerances {
        None => {
            let surface = Surface::from_grid(vectors(numbers), m, n);
            (surface.triangles().to_vec(), surface.flipped())
        }
        Some(tolerances) => {
            let points = edited::vectors(numbers);
            let surface = || edited::Surface::from_grid(points, m, n);
            let surface = edited::at(to_edited(tolerances), surface);
            (surface.triangles().to_vec(), surface.flipped())
        }
    }
}

/// The two seams that the original finds.
fn seams(grid: &Grid, tolerances: Option<Tolerances>) -> Seams {
    let [[u0, ue], [v0, ve]] = grid.edges().map(|lines| lines.map(Vec::into_flattened));
    Seams {
        u: searched(&u0, &ue, tolerances.map(|tolerances| tolerances.u)),
        v: searched(&v0, &ve, tolerances.map(|tolerances| tolerances.v)),
    }
}

/// The refusal that applies.
fn refusal(input: &Input) -> Option<Refusal> {
    let lengths = [input.triangles, input.flipped];
    let tolerances = input.tolerances;
    input.grid.refusal_with_lists(tolerances, lengths, least)
}

/// A grid with lists that are just long enough.
fn exact(grid: Grid) -> Input {
    let lengths = least(grid.u_steps, grid.v_steps);
    Input::new(grid, lengths)
}

/// The lists of an input made shorter or longer by turns.
fn other_room(turn: u64, input: Input) -> Input {
    let (short, long) = (|x: usize| x - 1, |x: usize| x + 7);
    let (triangles, flipped) = (input.triangles, input.flipped);
    let [triangles, flipped] = match turn % 8 {
        0 => [short(triangles), flipped],
        1 => [triangles, short(flipped)],
        2 => [long(triangles), short(flipped)],
        3 => [long(triangles), long(flipped)],
        4 => [triangles, long(flipped)],
        _ => [triangles, flipped],
    };
    Input {
        triangles,
        flipped,
        ..input
    }
}

/// None, and each mapping of rows of so many steps.
fn mappings(steps: usize) -> impl Iterator<Item = Option<Mapping>> {
    let offsets = (0..steps).flat_map(|offset| [(false, offset), (true, offset)]);
    let found = offsets.map(move |(reverse, offset)| Some(mapping(reverse, offset, steps)));
    [None].into_iter().chain(found)
}

/// Every joining of a grid of so many steps.
fn all_joinings(u_steps: usize, v_steps: usize) -> impl Iterator<Item = Joining> {
    let closed = [(false, false), (true, false), (false, true), (true, true)];
    mappings(v_steps).flat_map(move |u| {
        mappings(u_steps).flat_map(move |v| {
            closed.map(|(u_closed, v_closed)| Joining {
                u,
                v,
                u_closed,
                v_closed,
            })
        })
    })
}

/// All shapes of up to so many by as many cells.
fn shapes(most: usize) -> impl Iterator<Item = (usize, usize)> {
    (1..=most).flat_map(move |m| (1..=most).map(move |n| (m, n)))
}

/// A grid of each joining that up to 4 by 4 cells can have.
fn joined_grids() -> impl Iterator<Item = Grid> {
    shapes(4).flat_map(|(m, n)| {
        let grid = move |joining: Joining| joining.grid(m, n, |class| [class as f64, 0.0, -1.0]);
        all_joinings(m, n).map(grid)
    })
}

/// Every joining that a grid of up to 4 by 4 cells can have, each with short, exact and long lists.
fn joinings() -> impl Iterator<Item = Input> {
    joined_grids().flat_map(|grid| (0..6).map(move |turn| other_room(turn, exact(grid.clone()))))
}

/// Every grid of up to 4 by 4 cells whose outer points are each one of three letters, or of two where
/// M + N is above 6.
fn borders() -> impl Iterator<Item = Input> {
    shapes(4).flat_map(|(m, n)| {
        let letters = if m + n > 6 { 2 } else { 3 };
        let letters = (0..letters).map(f64::from).collect();
        bordered(m, n, letters)
    })
}

/// Every grid of so many cells whose outer points are each one of these letters.
fn bordered(m: usize, n: usize, letters: Vec<f64>) -> impl Iterator<Item = Input> {
    let outer = 2 * (m + n) as u32;
    let count = letters.len() as u64;
    (0..count.pow(outer)).map(move |word| {
        let mut rest = word;
        let grid = Grid::new(m, n, |i| {
            let (u, v) = (i / (n + 1), i % (n + 1));
            if u > 0 && u < m && v > 0 && v < n {
                return [9.0, u as f64, v as f64];
            }
            let letter = rest % count;
            rest /= count;
            [0.0, letters[letter as usize], 0.0]
        });
        other_room(word, exact(grid))
    })
}

/// Every grid of up to 4 cells whose outer points are each one of three letters: the second is less
/// than a quarter from the others, and the third a quarter from the first. The seams have this
/// tolerance, the one after it, or EPS, and all pairs of these.
fn borders_at_tolerances() -> impl Iterator<Item = Input> {
    let letters = [0.0, 0.25f64.next_down(), 0.25];
    let shapes = [(1, 1), (1, 2), (2, 1), (1, 3), (3, 1), (2, 2)];
    let tolerances = [0.25, 0.25f64.next_up(), EPS];
    let pairs = tolerances.into_iter().flat_map(move |u| {
        let line = 1.0;
        tolerances.map(|v| Tolerances { u, v, line })
    });
    pairs.flat_map(move |tolerances| {
        let all = shapes.into_iter();
        let all = all.flat_map(move |(m, n)| bordered(m, n, letters.to_vec()));
        all.map(move |input| input.at(tolerances))
    })
}

fn planted(random: &mut Random) -> Input {
    let (m, n) = (any_steps(random), any_steps(random));
    let grid = any_grid(random, m, n);
    other_room(random.below(16), exact(grid))
}

/// A grid whose seams are open about as far as their tolerances.
fn gaping(random: &mut Random) -> Input {
    let (m, n) = (any_steps(random), any_steps(random));
    let input = gaping_cells(random, m, n);
    other_room(random.below(16), input)
}

fn gaping_cells(random: &mut Random, m: usize, n: usize) -> Input {
    let (grid, tolerances) = gaping_grid(random, m, n);
    exact(grid).at(tolerances)
}

fn faulty(random: &mut Random) -> Input {
    let input = planted(random);
    spoiled(random, input)
}

/// The same with tolerances of which each may be refused.
fn faulty_at_tolerances(random: &mut Random) -> Input {
    let input = gaping(random);
    let input = spoiled(random, input);
    input.at(faulty_tolerances(random))
}

fn spoiled(random: &mut Random, mut input: Input) -> Input {
    input.triangles = length(random, input.triangles);
    input.flipped = length(random, input.flipped);
    spoil(random, &mut input.grid);
    input
}

/// Grids for the record.
pub fn record(record: &mut Record) {
    for input in joinings() {
        record.offer(input.recorded());
    }
    let mut random = record.random();
    for _ in 0..4_000 {
        record.offer(planted(&mut random).recorded());
        record.offer(faulty(&mut random).recorded());
        record.offer(gaping(&mut random).recorded());
        record.offer(faulty_at_tolerances(&mut random).recorded());
    }
    for _ in 0..2 {
        let many = exact(any_grid(&mut random, 12, 9));
        record.keep(many.recorded().reaching("many cells"));
    }
}

impl Input {
    fn recorded(&self) -> Recorded {
        let (told, [triangles, flipped]) = original(self);
        let Tolerances { u, v, line } = self.tolerances.unwrap_or_default();
        let by_eps = Self {
            tolerances: None,
            ..self.clone()
        };
        let case = Recorded::on_grid(Call::TriangulateGrid, told.err(), &self.grid).at_tolerances(
            &[u, v, line],
            told.err(),
            refusal(&by_eps),
        );
        let case = match told {
            Err(refusal) => case.told(Err(refusal)).words(&[]).words(&[]),
            Ok(told) => {
                let Seams { u, v } = told.seams;
                let by_eps = seams(&self.grid, None);
                let joined = format!("u {}, v {}", kind(u.mapping), kind(v.mapping));
                let most = 2 * self.grid.u_steps * self.grid.v_steps;
                let [other_u, other_v] =
                    [(u, by_eps.u), (v, by_eps.v)].map(|(a, b)| a.mapping != b.mapping);
                let case = case
                    .reaching_if(other_u, "another u seam than by EPS")
                    .reaching_if(other_v, "another v seam than by EPS");
                case.told(Ok([told.triangles, told.flipped]))
                    .words(&seam_words(&u))
                    .words(&seam_words(&v))
                    .reaching(&joined)
                    .reaching_if(told.triangles < most, "a triangle left out")
                    .reaching_if(told.flipped > 0, "flipped pairs")
            }
        };
        case.numbers(&triangles).numbers(&flipped)
    }
}

#[cfg(test)]
mod tests {
    use super::*;
    use crate::planted::found;
    use std::collections::HashSet;

    /// Direction and offset.
    fn way(mapping: Option<Mapping>) -> Option<(bool, usize)> {
        mapping.map(|mapping| match mapping {
            Mapping::Forward { offset, .. } => (false, offset),
            Mapping::Reverse { offset, .. } => (true, offset),
        })
    }

    #[test]
    fn small_grids_have_many_joinings() {
        let told = joinings().filter_map(|input| original(&input).0.ok());
        let ways =
            told.map(|Triangulation { seams, .. }| [seams.u, seams.v].map(|s| way(s.mapping)));
        let ways: HashSet<_> = ways.collect();
        assert!(ways.len() >= 40, "{}", ways.len());
    }

    #[test]
    fn refusals_and_answers_are_mixed() {
        let mut random = Random::new(1);
        let mut counts = [0; 5];
        for _ in 0..20_000 {
            let number = refusal(&faulty(&mut random)).map_or(0, Refusal::number);
            counts[usize::from(number)] += 1;
        }
        assert!(counts.iter().all(|&count| count > 500), "{counts:?}");
        let mut counts = [0; 14];
        for _ in 0..20_000 {
            let number = refusal(&faulty_at_tolerances(&mut random)).map_or(0, Refusal::number);
            counts[usize::from(number)] += 1;
        }
        let told = [0, 1, 2, 13, 3, 4].map(|number| counts[number]);
        assert!(told.iter().all(|&count| count > 200), "{counts:?}");
    }

    /// Tolerances find other seams than EPS, of u as of v, and do not find such as EPS does.
    #[test]
    fn tolerances_decide_seams() {
        let mut random = Random::new(1);
        let (mut more, mut fewer, mut both) = ([0; 2], [0; 2], 0);
        for _ in 0..10_000 {
            let input = gaping(&mut random);
            let found = |tolerances| {
                let Seams { u, v } = seams(&input.grid, tolerances);
                [u, v].map(|seam| seam.mapping.is_some())
            };
            let (here, by_eps) = (found(input.tolerances), found(None));
            for axis in [0, 1] {
                more[axis] += u32::from(here[axis] && !by_eps[axis]);
                fewer[axis] += u32::from(!here[axis] && by_eps[axis]);
            }
            both += u32::from(here == [true; 2]);
        }
        let all = [more[0], more[1], fewer[0], fewer[1], both];
        assert!(all.iter().all(|&count| count > 100), "{all:?}");
    }

    /// A triangulation that says of no pair that it is flipped.
    #[test]
    fn a_lost_flipped_pair_is_found() {
        let blind = |input: &Input| {
            let (mut told, mut lists) = original(input);
            if let Ok(told) = &mut told {
                told.flipped = 0;
                lists[1].fill(0);
            }
            (told, lists)
        };
        let case = found(
            |driver| driver.compare("planted", 1_000, planted, blind, original),
            |driver| driver.compare("planted", 1_000, planted, library, original),
        );
        let grid = "u_steps 1 v_steps 3 numbers [ o o 0.0 0.0 1.0 o o 0.0 0.0 1.0 o o ]";
        assert_eq!(case, format!("grid {grid} triangles 18 flipped 8"));
    }

    /// The smallest input on which a wrong triangulation is found to differ.
    fn found_input(input: fn(&mut Random) -> Input, wrong: impl Fn(&Input) -> Output) -> String {
        found(
            |driver| driver.compare("planted", 10_000, input, &wrong, original),
            |driver| driver.compare("planted", 10_000, input, library, original),
        )
    }

    /// The triangulation at other tolerances than those that are given.
    fn triangulated_at(input: &Input, other: fn(Tolerances) -> Tolerances) -> Output {
        match (refusal(input), input.tolerances) {
            (None, Some(tolerances)) => answered(&input.clone().at(other(tolerances))),
            _ => original(input),
        }
    }

    /// The words of a case on one cell whose last point alone is not zero.
    fn on_a_cell(last: &str, tolerances: [&str; 3], room: [usize; 2]) -> String {
        let grid = format!("grid u_steps 1 v_steps 1 numbers [ o o o {last} ]");
        let ([u, v, line], [triangles, flipped]) = (tolerances, room);
        let tolerances = format!("tolerances u {u} v {v} line {line}");
        format!("{grid} {tolerances} triangles {triangles} flipped {flipped}")
    }

    #[test]
    fn seams_by_eps_are_found() {
        let by_eps = |input: &Input| triangulated_at(input, |_| Tolerances::default());
        let case = on_a_cell("0.0 0.0 0.5", ["1.0"; 3], [6, 4]);
        assert_eq!(found_input(gaping, by_eps), case);
    }

    #[test]
    fn a_v_seam_by_the_tolerance_of_u_is_found() {
        let wrong = |input: &Input| {
            triangulated_at(input, |tolerances| Tolerances {
                v: tolerances.u,
                ..tolerances
            })
        };
        let case = on_a_cell("0.0 0.0 0.5", ["1.0", "0.5", "1.0"], [6, 4]);
        assert_eq!(found_input(gaping, wrong), case);
    }

    /// Less or equal in the place of less.
    #[test]
    fn seams_that_take_the_tolerance_itself_are_found() {
        let wrong = |input: &Input| {
            triangulated_at(input, |Tolerances { u, v, line }| Tolerances {
                u: u.next_up(),
                v: v.next_up(),
                line,
            })
        };
        let case = on_a_cell("0.0 1.0 0.0", ["1.0"; 3], [6, 4]);
        assert_eq!(found_input(gaping, wrong), case);
    }

    /// 13 after 3 in the place of 3 after 13.
    #[test]
    fn a_tolerance_that_is_refused_after_the_room_is_found() {
        let wrong = |input: &Input| match refusal(input) {
            Some(Refusal::Tolerance) => {
                let other = input.clone().at(Tolerances::default());
                match refusal(&other) {
                    Some(Refusal::Room) => original(&other),
                    _ => original(input),
                }
            }
            _ => original(input),
        };
        let case = on_a_cell("o", ["0.0"; 3], [0, 0]);
        assert_eq!(found_input(faulty_at_tolerances, wrong), case);
    }

    /// A triangulation that does not look at the tolerance of lines, which it has no use for.
    #[test]
    fn a_tolerance_without_use_that_is_not_refused_is_found() {
        let wrong = |input: &Input| {
            let mut other = input.clone();
            if let Some(tolerances) = &mut other.tolerances {
                tolerances.line = EPS;
            }
            original(&other)
        };
        let case = on_a_cell("o", ["1.0", "1.0", "0.0"], [0, 0]);
        assert_eq!(found_input(faulty_at_tolerances, wrong), case);
    }
}
