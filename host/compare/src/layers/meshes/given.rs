//! Triangulation with seams that are given, against the original in which they are given; and the two
//! calls, of which the first finds the seams that the second is given, against the one that does both.

use super::edges::Edges;
use super::found::{self, Searched};
use super::{
    Input, Kind, bordered, exact, faulty_at_tolerances, gaping, gaping_cells, joined_grids,
    joinings, mappings, other_room, planted, shapes, spoiled,
};
use crate::case::{Smaller, case};
use crate::driver::{Compared, Driver};
use crate::inputs::grids::{Grid, all_steps, any_grid, any_steps, even_grid, gaping_grid};
use crate::inputs::tolerances::faulty_tolerances;
use crate::inputs::{EPS, whole};
use crate::layers::seams::{kind, words};
use crate::mappings::{mapping, offset_and_steps, to_original};
use crate::random::Random;
use crate::record::{Call, Record, Recorded};
use merlontrispa::{Counts, Mapping, Refusal, Seams, Tolerances, Triangulation, triangulate_seams};
use original::{given, vectors};
use std::iter;

/// The u seam and the v seam.
type Pair = [Option<Mapping>; 2];

/// A grid with its lists, and the two seams that are given.
#[derive(Clone)]
struct Given {
    input: Input,
    u: Option<Mapping>,
    v: Option<Mapping>,
}

case!(Given { input, u, v }, first Given::simpler);

impl Given {
    fn new(input: Input, [u, v]: Pair) -> Self {
        Self { input, u, v }
    }

    fn seams(&self) -> Pair {
        [self.u, self.v]
    }

    fn tolerances(&self) -> Tolerances {
        self.input.tolerances.unwrap_or_default()
    }

    /// What the seams join, where the grid has as many numbers as its steps want.
    fn edges(&self) -> [Edges; 2] {
        Edges::both(&self.input.grid, self.tolerances())
    }

    /// Whether each seam is None or a mapping that fits (Rules 4.5).
    fn fits(&self) -> bool {
        self.accepted(Edges::fits)
    }

    /// The same, with these for the mappings that fit.
    fn accepted(&self, fits: impl Fn(&Edges, Mapping) -> bool) -> bool {
        let mut both = iter::zip(self.edges(), self.seams());
        both.all(|(edges, seam)| seam.is_none_or(|mapping| fits(&edges, mapping)))
    }

    /// The first of the refusals 1, 2, 13, 3, 4 and 14 that applies.
    fn refusal(&self) -> Option<Refusal> {
        let before = super::refusal(&self.input);
        before.or_else(|| (!self.fits()).then_some(Refusal::Mapping))
    }

    /// Whether a mapping has other steps than its row, or an offset that is not below them.
    fn has_other_numbers(&self) -> bool {
        let steps = [self.input.grid.v_steps, self.input.grid.u_steps];
        let mut mappings = iter::zip(self.seams(), steps);
        mappings.any(|(seam, wanted)| {
            let numbers = seam.map(offset_and_steps);
            numbers.is_some_and(|[offset, steps]| steps != wanted || offset >= steps)
        })
    }

    /// One seam less, or fewer cells and mappings of as many steps less.
    fn simpler(&self) -> Smaller<Self> {
        let (seams, input, this) = (self.seams(), self.input.clone(), self.clone());
        let fewer_seams = [[None, self.v], [self.u, None]].into_iter();
        let fewer_seams = fewer_seams.filter(move |&fewer| fewer != seams);
        let fewer_seams = fewer_seams.map(move |fewer| Self::new(input.clone(), fewer));
        let fewer_cells = self.input.fewer_cells().flat_map(move |input| {
            let (before, after) = (&this.input.grid, &input.grid);
            let u = shortened(this.u, before.v_steps, after.v_steps);
            let v = shortened(this.v, before.u_steps, after.u_steps);
            let pairs = u.into_iter().flat_map(move |u| v.map(|v| [u, v]));
            pairs.map(move |seams| Self::new(input.clone(), seams))
        });
        Box::new(fewer_seams.chain(fewer_cells))
    }
}

/// A seam on rows that have fewer steps than before: its steps are as many less, and its offset is as
/// it was, or as many less too.
fn shortened(seam: Option<Mapping>, before: usize, after: usize) -> [Option<Mapping>; 2] {
    let less = |number: usize| number.saturating_sub(before - after);
    [false, true].map(|moved| {
        seam.map(|seam| {
            let [offset, steps] = offset_and_steps(seam);
            let offset = if moved { less(offset) } else { offset };
            mapping(to_original(seam).is_reverse(), offset, less(steps))
        })
    })
}

/// An answer and the two lists after the call.
type Output = (Result<Counts, Refusal>, [Vec<usize>; 2]);

pub fn compare(driver: &mut Driver) -> Compared {
    compare_given(driver)?;
    compare_two_calls(driver)
}

fn compare_given(driver: &mut Driver) -> Compared {
    let name = "triangulate_seams, each pair of mappings on each joining of up to 4 by 4 cells";
    driver.compare_each(name, pairs_on_joinings(), library, original)?;
    let name = "triangulate_seams, each pair of mappings on equal points";
    driver.compare_each(name, pairs_on_equal_points(), library, original)?;
    let name = "triangulate_seams, each pair of mappings on letters that are close by turns";
    driver.compare_each(name, pairs_on_letters(), library, original)?;
    driver.compare(
        "triangulate_seams, given",
        500_000,
        given_seams,
        library,
        original,
    )?;
    driver.compare(
        "triangulate_seams, up to 255 by 255",
        1_000,
        |random| {
            let (m, n) = (all_steps(random), all_steps(random));
            given_on(random, m, n)
        },
        library,
        original,
    )?;
    driver.compare(
        "triangulate_seams, refusals",
        300_000,
        faulty_given,
        library,
        original,
    )
}

fn compare_two_calls(driver: &mut Driver) -> Compared {
    let name = "triangulate_grid beside its two calls, each joining of up to 4 by 4 cells";
    driver.compare_each(name, joinings(), super::library, two_calls)?;
    let kinds: [(_, Kind); 3] = [
        ("planted", planted),
        ("at tolerances, planted", gaping),
        ("at tolerances, refusals", faulty_at_tolerances),
    ];
    for (kind, input) in kinds {
        let name = format!("triangulate_grid beside its two calls, {kind}");
        driver.compare(&name, 100_000, input, super::library, two_calls)?;
    }
    Ok(())
}

fn library(input: &Given) -> Output {
    let mut lists = input.input.lists();
    let grid = &input.input.grid;
    let [triangles, flipped] = &mut lists;
    let told = triangulate_seams(
        &grid.numbers,
        grid.u_steps,
        grid.v_steps,
        input.tolerances(),
        input.u,
        input.v,
        triangles,
        flipped,
    );
    (told, lists)
}

fn original(input: &Given) -> Output {
    match input.refusal() {
        Some(refusal) => refused(input, refusal),
        None => answered(input),
    }
}

fn refused(input: &Given, refusal: Refusal) -> Output {
    (Err(refusal), input.input.lists())
}

/// What the original answers where the seams are joined that are given.
fn answered(input: &Given) -> Output {
    let grid = &input.input.grid;
    let [u, v] = input.seams().map(|seam| seam.map(to_original));
    let points = vectors(&grid.numbers);
    let (triangles, pairs) = given::triangulated(points, grid.u_steps, grid.v_steps, u, v);
    let told = Counts {
        triangles: triangles.len() / 3,
        flipped: pairs.len(),
    };
    (Ok(told), input.input.written(triangles, pairs))
}

/// What the library's two calls answer in turn: the seams that are found, None where they are refused,
/// are given.
fn two_calls(input: &Input) -> super::Output {
    let found = found::library(&input.clone().into());
    let seams = found.map_or([None; 2], |Seams { u, v }| [u.mapping, v.mapping]);
    let (told, lists) = library(&Given::new(input.clone(), seams));
    let told = told.and_then(|Counts { triangles, flipped }| {
        found.map(|seams| Triangulation {
            seams,
            triangles,
            flipped,
        })
    });
    (told, lists)
}

/// Each pair of seams on a grid: `seams` has those of rows of so many steps.
fn pairs(input: Input, seams: fn(usize) -> Vec<Option<Mapping>>) -> impl Iterator<Item = Given> {
    let [u, v] = [input.grid.v_steps, input.grid.u_steps].map(seams);
    let pairs = u
        .into_iter()
        .flat_map(move |u| v.clone().into_iter().map(move |v| [u, v]));
    pairs.map(move |seams| Given::new(input.clone(), seams))
}

fn pairs_on_joinings() -> impl Iterator<Item = Given> {
    joined_grids().flat_map(|grid| pairs(exact(grid), |steps| mappings(steps).collect()))
}

/// Each mapping of the rows fits here, and none that has other numbers.
fn pairs_on_equal_points() -> impl Iterator<Item = Given> {
    let with_others = |steps: usize| {
        let (less, more) = (steps - 1, steps + 1);
        let others = [
            [steps, steps],
            [more, steps],
            [steps, more],
            [0, more],
            [0, less],
            [0, 0],
        ];
        let others = others.into_iter().flat_map(|[offset, steps]| {
            [false, true].map(|reverse| Some(mapping(reverse, offset, steps)))
        });
        mappings(steps).chain(others).collect()
    };
    shapes(6).flat_map(move |(m, n)| {
        let grid = Grid::new(m, n, |_| [1.0, 0.0, 0.0]);
        pairs(exact(grid), with_others)
    })
}

/// Outer points of three letters, the second of them less than the tolerance from the others, and the
/// third just as far as it from the first.
fn pairs_on_letters() -> impl Iterator<Item = Given> {
    let tolerances = Tolerances {
        u: 0.25,
        v: 0.25,
        line: 1.0,
    };
    let letters = [0.0, 0.25f64.next_down(), 0.25];
    let shapes = [(1, 3), (3, 1), (2, 2)].into_iter();
    let grids = shapes.flat_map(move |(m, n)| bordered(m, n, letters.to_vec()));
    grids.flat_map(move |input| {
        let input = exact(input.grid).at(tolerances);
        pairs(input, |steps| mappings(steps).collect())
    })
}

/// A grid of any joining, nearly joined or of equal points, with seams that are found, fit, nearly
/// fit or do not, at the tolerances that found them or at finer ones.
fn given_seams(random: &mut Random) -> Given {
    let (m, n) = (any_steps(random), any_steps(random));
    let mut given = given_on(random, m, n);
    given.input = other_room(random.below(16), given.input);
    given
}

fn given_on(random: &mut Random, m: usize, n: usize) -> Given {
    let (grid, first) = match random.below(4) {
        0 => (any_grid(random, m, n), Tolerances::default()),
        1 => even_grid(random, m, n),
        _ => gaping_grid(random, m, n),
    };
    let tolerances = match random.below(4) {
        0 => Tolerances {
            u: finer(random, first.u),
            v: finer(random, first.v),
            line: first.line,
        },
        _ => first,
    };
    let [u, v] = Edges::both(&grid, tolerances);
    let u = any_seam(random, &u, first.u, v.steps());
    let v = any_seam(random, &v, first.v, n);
    Given::new(exact(grid).at(tolerances), [u, v])
}

/// A tolerance that is at most this one.
fn finer(random: &mut Random, tolerance: f64) -> f64 {
    let finer = match random.below(3) {
        0 => tolerance,
        1 => tolerance.next_down(),
        _ => tolerance * random.unit(),
    };
    finer.max(5e-324)
}

/// None, what a search of these rows finds at their tolerance or at the one of before, a mapping of
/// theirs of some kind, or one of other numbers; `other` are the steps of the other seam's rows.
fn any_seam(random: &mut Random, edges: &Edges, before: f64, other: usize) -> Option<Mapping> {
    let then = edges.at(before);
    let of_kind: &dyn Fn(Mapping) -> bool = match random.below(12) {
        0 | 1 => return None,
        2 => return edges.searched(),
        3 => return then.searched(),
        4 | 5 => &|mapping| edges.fits(mapping),
        6 => &|mapping| then.fits(mapping),
        7 | 8 => &|mapping| edges.apart(mapping).next().is_none() && !edges.fits(mapping),
        9 => &|mapping| edges.apart(mapping).count() == 1,
        10 => &|_| true,
        _ => return Some(of_other_numbers(random, edges.steps(), other)),
    };
    let all: Vec<_> = edges
        .mappings()
        .filter(|&mapping| of_kind(mapping))
        .collect();
    Some(match all[..] {
        [] => {
            let offset = random.below(edges.steps() as u64) as usize;
            mapping(random.below(2) == 0, offset, edges.steps())
        }
        _ => random.of(&all),
    })
}

/// A mapping whose steps are not these, or whose offset is not below them; now and then neither.
fn of_other_numbers(random: &mut Random, steps: usize, other: usize) -> Mapping {
    let reverse = random.below(2) == 0;
    let offset = random.below(steps as u64) as usize;
    let [offset, steps] = match random.below(6) {
        0 => [offset, other],
        1 => [offset, steps.saturating_add_signed(random.of(&[-1, 1]))],
        2 => [steps + random.below(3) as usize, steps],
        3 => [whole(random), steps],
        4 => [offset, whole(random)],
        _ => [whole(random), whole(random)],
    };
    mapping(reverse, offset, steps)
}

/// The same with any of the faults that are refused before the seams.
fn faulty_given(random: &mut Random) -> Given {
    let given = given_seams(random);
    spoiled_given(random, given)
}

fn spoiled_given(random: &mut Random, given: Given) -> Given {
    let input = spoiled(random, given.input);
    let input = match random.below(4) {
        0 => input.at(faulty_tolerances(random)),
        _ => input,
    };
    Given { input, ..given }
}

/// Seams that are found and given, for the record: known results, and what else has to be reached, on
/// few cells.
pub fn record(record: &mut Record) {
    for (input, pairs) in known() {
        record.keep(Searched::from(input.clone()).recorded());
        for seams in pairs {
            record.keep(Given::new(input.clone(), seams).recorded());
        }
    }
    let mut random = record.random();
    for _ in 0..4_000 {
        let (m, n) = random.of(&[(1, 2), (2, 1), (1, 3), (3, 1)]);
        let input = gaping_cells(&mut random, m, n);
        let faulty = spoiled(&mut random, input.clone()).at(faulty_tolerances(&mut random));
        for input in [input, faulty] {
            record.offer_below(3, Searched::from(input).recorded());
        }
        let (m, n) = random.of(&[(1, 1), (1, 2), (2, 1)]);
        let given = given_on(&mut random, m, n);
        let faulty = spoiled_given(&mut random, given.clone());
        for given in [given, faulty] {
            record.offer_below(3, given.recorded());
        }
    }
}

/// Grids with known results, of Rules 3 and 4, and the pairs of seams that each is given.
fn known() -> Vec<(Input, Vec<Pair>)> {
    let columns = |a: [f64; 4], b: [f64; 4], u| {
        let xs = [a, b].concat();
        let grid = Grid::new(1, 3, |i| [xs[i], 0.0, 0.0]);
        let eps = Tolerances::default();
        exact(grid).at(Tolerances { u, ..eps })
    };
    let forward = |offset, steps| Some(mapping(false, offset, steps));
    let reverse = |offset, steps| Some(mapping(true, offset, steps));
    let cell = Grid::new(1, 1, |i| [(i / 2) as f64, (i % 2) as f64, 0.0]);
    let equal = Grid::new(3, 3, |_| [0.0; 3]);
    let on_equal = vec![
        [reverse(0, 3), None],
        [reverse(1, 3), reverse(2, 3)],
        [forward(0, 4), None],
        [None, forward(0, 2)],
        [forward(3, 3), None],
        [None, reverse(usize::MAX, usize::MAX)],
    ];
    let closed = columns([0.0, 1.0, 2.0, 0.0], [1.0, 2.0, 0.0, 1.0], EPS);
    let turned = [forward(2, 3), None];
    let on_closed = vec![turned, [turned[0], forward(0, 1)], [forward(1, 3), None]];
    let b_open = columns([0.0, 1.0, 2.0, 0.0], [1.0, 2.0, 0.0, 9.0], EPS);
    let a_open = |u| columns([0.0, 2.0, 4.0, 0.8], [2.0, 4.0, 0.4, 2.0], u);
    let nearly = |u| columns([0.0, 1.0, 2.0, 0.4], [1.0, 2.0, 0.0, 1.4], u);
    vec![
        (exact(cell), vec![[None; 2]]),
        (exact(equal), on_equal),
        (closed, on_closed),
        (b_open, vec![turned]),
        (a_open(0.5), vec![turned]),
        (a_open(1.0), vec![turned]),
        (nearly(0.5), vec![turned]),
        (nearly(0.4), vec![turned]),
    ]
}

impl Given {
    fn recorded(&self) -> Recorded {
        let (told, [triangles, flipped]) = original(self);
        let Tolerances { u, v, line } = self.tolerances();
        let by_eps = Self {
            input: self.input.clone().at(Tolerances::default()),
            ..self.clone()
        };
        let grid = &self.input.grid;
        let case = Recorded::on_grid(Call::TriangulateSeams, told.err(), grid)
            .at_tolerances(&[u, v, line], told.err(), by_eps.refusal())
            .told(told.map(|counts| [counts.triangles, counts.flipped]))
            .words(&words(self.u))
            .words(&words(self.v))
            .numbers(&triangles)
            .numbers(&flipped);
        match told {
            Ok(counts) => self.reaching_answer(case, counts),
            Err(refusal) => self.reaching_refusal(case, refusal),
        }
    }

    fn reaching_answer(&self, case: Recorded, counts: Counts) -> Recorded {
        let found = self.edges().map(|edges| edges.searched());
        let [other_u, other_v] =
            [0, 1].map(|axis| self.seams()[axis].is_some_and(|seam| found[axis] != Some(seam)));
        let most = 2 * self.input.grid.u_steps * self.input.grid.v_steps;
        case.reaching(&format!("u {}", kind(self.u)))
            .reaching(&format!("v {}", kind(self.v)))
            .reaching_if(other_u, "another u seam than is found")
            .reaching_if(other_v, "another v seam than is found")
            .reaching_if(counts.triangles < most, "a triangle left out")
            .reaching_if(counts.flipped > 0, "flipped pairs")
    }

    /// What the refusal is given for, if it is 14, or comes before.
    fn reaching_refusal(&self, case: Recorded, refusal: Refusal) -> Recorded {
        let other = self.has_other_numbers();
        if refusal != Refusal::Mapping {
            let before = format!("{} before 14", refusal.number());
            return case.reaching_if(other && refusal != Refusal::Tolerance, &before);
        }
        let both = iter::zip(self.edges(), self.seams());
        both.fold(case, |case, (edges, seam)| match seam {
            Some(mapping) => reaching_misfit(case, &edges, mapping),
            None => case,
        })
    }
}

/// Why a mapping does not fit, where one thing alone tells.
fn reaching_misfit(case: Recorded, edges: &Edges, mapping: Mapping) -> Recorded {
    if !edges.has(mapping) {
        let other = offset_and_steps(mapping)[1] != edges.steps();
        let offset = "an offset that is not below the steps";
        return case.reaching(if other { "other steps" } else { offset });
    }
    let apart: Vec<_> = edges.apart(mapping).collect();
    let open = apart.is_empty() && !edges.tries(mapping);
    let [a_closed, b_closed] = edges.closed();
    case.reaching_if(open && b_closed, "an open row a")
        .reaching_if(open && a_closed, "an open row b")
        .reaching_if(apart == [edges.steps()], "the last point alone")
}

#[cfg(test)]
mod tests {
    use super::*;
    use crate::layers::meshes::{self, least, seams};
    use crate::planted;
    use original::edited;

    /// The rule of what fits is the original's search, every other mapping passed over; and the first
    /// mapping that fits is what it finds.
    #[test]
    fn the_rule_is_the_search_of_the_original() {
        let mut random = Random::new(1);
        let mut counts = [0; 2];
        for _ in 0..20_000 {
            let given = given_seams(&mut random);
            for (edges, seam) in iter::zip(given.edges(), given.seams()) {
                let first = edges.mappings().find(|&mapping| edges.fits(mapping));
                assert_eq!(first, edges.searched());
                let [a, b] = [&edges.a, &edges.b].map(|row| edited::vectors(row.as_flattened()));
                let finds = |mapping| edited::finds(&a, &b, to_original(mapping), edges.tolerance);
                let few = edges.mappings().take(12);
                for mapping in few.chain(seam) {
                    let fits = edges.fits(mapping);
                    assert_eq!(fits, finds(mapping), "{mapping:?}");
                    counts[usize::from(fits)] += 1;
                }
            }
        }
        assert!(counts.iter().all(|&count| count > 10_000), "{counts:?}");
    }

    /// Seams of every kind are given, of u as of v.
    #[test]
    fn seams_of_every_kind_are_given() {
        let mut random = Random::new(1);
        let mut counts = [[0; 10]; 2];
        for _ in 0..100_000 {
            let given = given_seams(&mut random);
            for (axis, (edges, seam)) in iter::zip(given.edges(), given.seams()).enumerate() {
                for (count, is_so) in iter::zip(&mut counts[axis], kinds(&edges, seam)) {
                    *count += u32::from(is_so);
                }
            }
        }
        let mut all = counts.as_flattened().iter();
        assert!(all.all(|&count| count > 150), "{counts:?}");
    }

    /// None where a seam is found, or other numbers; a mapping that fits: at 0, on open rows, at an
    /// offset, not the first; one that does not: a or b is open, one point is not close, the last is.
    fn kinds(edges: &Edges, seam: Option<Mapping>) -> [bool; 10] {
        let found = edges.searched();
        let Some(mapping) = seam.filter(|&mapping| edges.has(mapping)) else {
            let mut kinds = [false; 10];
            kinds[0] = seam.is_none() && found.is_some();
            kinds[1] = seam.is_some();
            return kinds;
        };
        let at_0 = offset_and_steps(mapping)[0] == 0;
        let fits = edges.fits(mapping);
        let apart: Vec<_> = edges.apart(mapping).collect();
        let open = !at_0 && apart.is_empty();
        let closed = edges.closed();
        [
            false,
            false,
            fits && at_0,
            fits && at_0 && closed != [true; 2],
            fits && !at_0,
            fits && found != seam,
            open && closed == [false, true],
            open && closed == [true, false],
            apart.len() == 1,
            apart == [edges.steps()],
        ]
    }

    /// What is found at a tolerance is accepted at it, and often not at a finer one.
    #[test]
    fn finer_tolerances_refuse_what_was_found() {
        let mut random = Random::new(1);
        let mut counts = [0; 2];
        for _ in 0..20_000 {
            let input = gaping(&mut random);
            let first = input.tolerances.expect("it has them");
            let Seams { u, v } = seams(&input.grid, Some(first));
            let given = Given::new(exact(input.grid).at(first), [u.mapping, v.mapping]);
            assert_eq!(given.refusal(), None);
            let finer = Tolerances {
                u: finer(&mut random, first.u),
                v: finer(&mut random, first.v),
                ..first
            };
            let refused = Given::new(given.input.at(finer), [given.u, given.v]).refusal();
            counts[usize::from(refused == Some(Refusal::Mapping))] += 1;
        }
        assert!(counts.iter().all(|&count| count > 1_000), "{counts:?}");
    }

    /// Each refusal comes without and with a mapping beside it that has not its row's numbers.
    #[test]
    fn each_refusal_comes_beside_a_mapping() {
        let mut random = Random::new(1);
        let mut counts = [[0; 15]; 2];
        for _ in 0..100_000 {
            let given = faulty_given(&mut random);
            let number = given.refusal().map_or(0, Refusal::number);
            let beside = usize::from(given.has_other_numbers());
            counts[beside][usize::from(number)] += 1;
        }
        let without = [0, 1, 2, 13, 3, 4, 14].map(|number| counts[0][number]);
        let beside = [1, 2, 13, 3, 4, 14].map(|number| counts[1][number]);
        let mut all = without.iter().chain(&beside);
        assert!(all.all(|&count| count > 200), "{counts:?}");
    }

    /// The smallest input on which a wrong triangulation is found to differ.
    fn found_given(input: fn(&mut Random) -> Given, wrong: impl Fn(&Given) -> Output) -> String {
        planted::found(
            |driver| driver.compare("given", 20_000, input, &wrong, original),
            |driver| driver.compare("given", 20_000, input, library, original),
        )
    }

    /// What is answered where the seams of `asked` are accepted so.
    fn accepting(input: &Given, asked: &Given, fits: impl Fn(&Edges, Mapping) -> bool) -> Output {
        match meshes::refusal(&input.input) {
            None if asked.accepted(fits) => answered(input),
            None => refused(input, Refusal::Mapping),
            Some(refusal) => refused(input, refusal),
        }
    }

    /// The words of a case with lists that are just long enough, and tolerances of 1.
    fn case(m: usize, n: usize, numbers: &str, seams: &str) -> String {
        let [triangles, flipped] = least(m, n);
        let grid = format!("input grid u_steps {m} v_steps {n} numbers [ {numbers} ]");
        let lists = format!("triangles {triangles} flipped {flipped}");
        format!("{grid} tolerances u 1.0 v 1.0 line 1.0 {lists} {seams}")
    }

    /// The smallest input on which a wrong test of what fits is found to differ.
    fn found_judged(fits: impl Fn(&Edges, Mapping) -> bool) -> String {
        found_given(given_seams, |input| accepting(input, input, &fits))
    }

    /// Whether each point is close to its image, on closed rows or not.
    fn meets(edges: &Edges, mapping: Mapping) -> bool {
        edges.has(mapping) && edges.apart(mapping).next().is_none()
    }

    #[test]
    fn closedness_that_is_not_asked_off_0_is_found() {
        let column = "-0.5 o 0.0 0.0 0.5 o o o 0.0 0.0";
        assert_eq!(found_judged(meets), case(1, 2, column, "u forward 1 2"));
    }

    #[test]
    fn closedness_that_is_asked_at_0_is_found() {
        let found =
            found_judged(|edges, mapping| edges.fits(mapping) && edges.closed() == [true; 2]);
        let columns = "o o 0.0 -0.5 0.0 0.0 0.5 0.0";
        assert_eq!(found, case(1, 1, columns, "u forward 0 1"));
    }

    /// Rows are closed where the ends of a are close, or where those of b are.
    #[test]
    fn closedness_of_one_row_is_found() {
        let closed_by = |edges: &Edges, mapping, row: usize| {
            let at_0 = offset_and_steps(mapping)[0] == 0;
            meets(edges, mapping) && (at_0 || edges.closed()[row])
        };
        let found =
            [0, 1].map(|row| found_judged(|edges: &Edges, mapping| closed_by(edges, mapping, row)));
        let columns = ["o o o o o 0.0 1.0 0.0", "-0.5 o 0.0 0.0 0.5 o o o 0.0 0.0"];
        assert_eq!(
            found,
            columns.map(|columns| case(1, 2, columns, "u forward 1 2"))
        );
    }

    #[test]
    fn a_first_fit_that_alone_is_accepted_is_found() {
        let found = found_judged(|edges, mapping| edges.searched() == Some(mapping));
        assert_eq!(found, case(1, 1, "o o o o", "u reverse 0 1"));
    }

    #[test]
    fn a_last_point_that_is_not_compared_is_found() {
        let found = found_judged(|edges, mapping| {
            let last = edges.steps();
            edges.has(mapping) && edges.tries(mapping) && edges.apart(mapping).all(|j| j == last)
        });
        assert_eq!(found, case(1, 1, "o o o 0.0 0.0 1.0", "v forward 0 1"));
    }

    #[test]
    fn an_inverse_image_for_an_image_is_found() {
        let found = found_judged(|edges, mapping| {
            let inverse = |j| edges.b[to_original(mapping).map_index_inv(j)];
            let mut points = 0..=edges.steps();
            edges.has(mapping)
                && edges.tries(mapping)
                && points.all(|j| edges.close(edges.a[j], inverse(j)))
        });
        let (p, q) = ("1.0 1.0 0.0", "1.0 0.0 0.0");
        let points = [p, p, q, p, p, q, p, p].join(" ");
        assert_eq!(found, case(3, 1, &points, "v forward 1 3"));
    }

    /// An offset that is the steps is taken for 0.
    #[test]
    fn an_offset_that_is_not_below_the_steps_is_found() {
        let found = found_judged(|edges, given| {
            let whole_turn = offset_and_steps(given) == [edges.steps(); 2];
            let at_0 = mapping(to_original(given).is_reverse(), 0, edges.steps());
            edges.fits(if whole_turn { at_0 } else { given })
        });
        assert_eq!(found, case(1, 1, "o o o o", "u forward 1 1"));
    }

    /// A u seam that is to have M steps, and a v seam that is to have N.
    #[test]
    fn m_for_n_is_found() {
        let found = found_given(given_seams, |input| {
            let grid = &input.input.grid;
            let wrong = grid.u_steps != grid.v_steps && input.seams() != [None; 2];
            match input.refusal() {
                None if wrong => refused(input, Refusal::Mapping),
                _ => original(input),
            }
        });
        assert_eq!(found, case(1, 2, "o o o o o o", "v forward 0 1"));
    }

    #[test]
    fn a_v_seam_by_the_tolerance_of_u_is_found() {
        let found = found_given(given_seams, |input| {
            let mut asked = input.clone();
            if let Some(tolerances) = &mut asked.input.tolerances {
                tolerances.v = tolerances.u;
            }
            accepting(input, &asked, Edges::fits)
        });
        let case = case(1, 1, "o o 0.0 0.0 0.5 o", "v forward 0 1");
        assert_eq!(found, case.replace("v 1.0", "v 0.5"));
    }

    #[test]
    fn none_that_is_refused_is_found() {
        let found = found_given(given_seams, |input| match input.refusal() {
            None if input.seams().contains(&None) => refused(input, Refusal::Mapping),
            _ => original(input),
        });
        assert_eq!(found, case(1, 1, "o o o o", "").trim_end());
    }

    /// 14 before 4, and 14 before 3.
    #[test]
    fn a_mapping_that_is_refused_too_early_is_found() {
        let before = |later| {
            found_given(faulty_given, move |input| match input.refusal() {
                Some(refusal) if refusal == later && !input.fits() => {
                    refused(input, Refusal::Mapping)
                }
                _ => original(input),
            })
        };
        let far = "0.0 0.0 8.98846567431158e307 o o o";
        let wanted = case(1, 1, far, "v forward 0 0");
        assert_eq!(before(Refusal::Coordinate), wanted);
        let wanted = case(1, 1, "o o o o", "u forward 0 0");
        let wanted = wanted.replace("triangles 6 flipped 4", "triangles 0 flipped 0");
        assert_eq!(before(Refusal::Room), wanted);
    }

    #[test]
    fn lists_that_are_cleared_where_a_mapping_is_refused_are_found() {
        let found = found_given(given_seams, |input| {
            let (told, mut lists) = original(input);
            if told == Err(Refusal::Mapping) {
                lists.iter_mut().for_each(|list| list.fill(0));
            }
            (told, lists)
        });
        assert_eq!(found, case(1, 1, "o o o o", "v forward 0 0"));
    }

    /// A triangulation that hands on the refusal of its search: 4 before 3.
    #[test]
    fn a_coordinate_that_is_refused_before_the_room_is_found() {
        let wrong = |input: &Input| match found::original(&input.clone().into()) {
            Err(refusal) => (Err(refusal), input.lists()),
            Ok(_) => meshes::original(input),
        };
        let input = faulty_at_tolerances;
        let found = planted::found(
            |driver| driver.compare("calls", 20_000, input, wrong, two_calls),
            |driver| driver.compare("calls", 20_000, input, meshes::library, two_calls),
        );
        let grid = "grid u_steps 1 v_steps 1 numbers [ o o o 8.98846567431158e307 0.0 0.0 ]";
        let lists = "triangles 0 flipped 0";
        assert_eq!(
            found,
            format!("{grid} tolerances u 1.0 v 1.0 line 1.0 {lists}")
        );
    }
}
