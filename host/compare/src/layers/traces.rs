//! The trace of flat samples against the original's, bit by bit, with the sides, fractions and sample
//! numbers of its points. The original hands out no such lists: they are kept beside its points as it
//! makes them.

pub mod curves;
mod walks;

use crate::driver::{Compared, Driver};
use crate::inputs::EPS;
use crate::inputs::grids::{Grid, all_steps};
use crate::inputs::lists::{fill, floats, numbers};
use crate::layers::lines::{coordinates, firsts};
use crate::random::Random;
use crate::record::{Call, Record, Recorded};
use crate::value::{Show, Value};
use curves::{
    FAR, Input, Room, Scene, Scenes, bent, faulty, faulty_at_tolerances, legs_between_edges, spare,
    traced, traced_at,
};
use merlontrispa::{Drawn, Refusal, Tolerances, TraceLists, trace_flat};
use original::{Made, Paths, Side};
use std::rc::Rc;
use walks::replay;

pub fn compare(driver: &mut Driver) -> Compared {
    for (m, n) in [(1, 1), (2, 1)] {
        let scene = Rc::new(Scene::new(bent(m, n)));
        driver.compare_each(
            &format!("trace_flat, each leg between edges of {m} by {n} cells"),
            legs_between_edges(&scene),
            library,
            original,
        )?;
    }
    let mut few = Scenes::new(200, |random| 1 + random.below(4) as usize);
    driver.compare(
        "trace_flat, few cells",
        2_000_000,
        |random| traced(random, &mut few),
        library,
        original,
    )?;
    let mut many = Scenes::new(60, all_steps);
    driver.compare(
        "trace_flat, up to 255 by 255 cells",
        100_000,
        |random| traced(random, &mut many),
        library,
        original,
    )?;
    let mut most = Scenes::new(20, |_| 255);
    driver.compare(
        "trace_flat, 255 by 255 cells",
        3_000,
        |random| traced(random, &mut most),
        library,
        original,
    )?;
    driver.compare("trace_flat, refusals", 200_000, faulty, library, original)?;
    compare_at_tolerances(driver)
}

fn compare_at_tolerances(driver: &mut Driver) -> Compared {
    let mut few = Scenes::dense(200, |random| 1 + random.below(4) as usize);
    driver.compare(
        "trace_flat, at tolerances, few cells",
        400_000,
        |random| traced_at(random, &mut few),
        library,
        original,
    )?;
    let mut many = Scenes::dense(40, all_steps);
    driver.compare(
        "trace_flat, at tolerances, up to 255 by 255 cells",
        10_000,
        |random| traced_at(random, &mut many),
        library,
        original,
    )?;
    driver.compare(
        "trace_flat, at tolerances, refusals",
        100_000,
        faulty_at_tolerances,
        library,
        original,
    )
}

/// An answer, the five lists after the call, the points made again from p, q and t, and the law that
/// the numbers of samples break, if any.
pub struct Output {
    told: Result<Drawn, Refusal>,
    points: Vec<f64>,
    starts: Vec<usize>,
    sides: Vec<usize>,
    fractions: Vec<f64>,
    samples: Vec<usize>,
    remade: Vec<f64>,
    broken: &'static str,
}

impl Output {
    /// The lists before a call.
    fn before(room: Room) -> Self {
        Self {
            told: Err(Refusal::Full),
            points: floats(room.points),
            starts: numbers(room.starts),
            sides: numbers(room.sides),
            fractions: floats(room.fractions),
            samples: numbers(room.samples),
            remade: Vec::new(),
            broken: "",
        }
    }

    fn clear(&mut self) {
        self.points.fill(0.0);
        self.starts.fill(0);
        self.sides.fill(0);
        self.fractions.fill(0.0);
        self.samples.fill(0);
    }

    /// The lists after the original drew these paths, whose points were made so.
    fn draw(&mut self, paths: &Paths<[f64; 3]>, kept: &[Made]) {
        self.told = Ok(Drawn {
            points: paths.total_len(),
            lines: paths.len(),
        });
        let numbers = paths.iter_paths().flat_map(<[_]>::as_flattened);
        self.remade = numbers.copied().collect();
        fill(&mut self.points, self.remade.iter().copied());
        fill(&mut self.starts, firsts(paths));
        let sides = kept.iter().map(|made| made.point.expect("it is drawn").1);
        let numbers = sides.clone().flat_map(|side| [side.p, side.q]);
        fill(&mut self.sides, numbers);
        fill(&mut self.fractions, sides.map(|side| side.t));
        fill(&mut self.samples, kept.iter().map(|made| made.sample));
    }
}

impl Show for Output {
    fn show(&self) -> String {
        let parts = [
            self.told.show(),
            self.points.show(),
            self.starts.show(),
            self.sides.show(),
            self.fractions.show(),
            self.samples.show(),
        ];
        let (parts, remade) = (parts.join("; "), self.remade.show());
        format!("{parts}; made again {remade}{}", self.broken)
    }
}

impl Value for Output {
    fn same(&self, other: &Self) -> bool {
        self.told.same(&other.told)
            && self.points.same(&other.points)
            && self.starts == other.starts
            && self.sides == other.sides
            && self.fractions.same(&other.fractions)
            && self.samples == other.samples
            && self.remade.same(&other.remade)
            && self.broken == other.broken
    }
}

/// What the library's trace of flat samples leaves.
pub fn library(input: &Input) -> Output {
    let (pairs, marks) = (&input.pairs, &input.marks);
    called(input, |grid, tolerances, lists| {
        trace_flat(
            &grid.numbers,
            grid.u_steps,
            grid.v_steps,
            tolerances,
            pairs,
            marks,
            lists,
        )
    })
}

/// What a call of the library leaves.
pub fn called(
    input: &Input,
    call: impl FnOnce(&Grid, Tolerances, TraceLists<'_>) -> Result<Drawn, Refusal>,
) -> Output {
    let Scene { grid, points, .. } = &*input.scene;
    let mut output = Output::before(input.room);
    let lists = TraceLists {
        points: &mut output.points,
        starts: &mut output.starts,
        sides: &mut output.sides,
        fractions: &mut output.fractions,
        samples: &mut output.samples,
    };
    output.told = call(grid, input.tolerances.unwrap_or_default(), lists);
    if let Ok(drawn) = output.told {
        let made = output.sides.as_chunks().0.iter().zip(&output.fractions);
        let made = made.take(drawn.points).map(|(&[p, q], &t)| {
            let (p, q) = (points[p], points[q]);
            p.mul_scalar(1.0 - t).add(q.mul_scalar(t))
        });
        let made: Vec<_> = made.collect();
        output.remade = coordinates(&made).collect();
        let numbers = output.samples.get(..drawn.points);
        output.broken = broken_law(numbers.unwrap_or(&output.samples), &input.marks);
    }
    output
}

/// The law that these numbers of samples break: each is that of a sample at the end of a leg, and none
/// is less than the one before it.
fn broken_law(numbers: &[usize], marks: &[u8]) -> &'static str {
    let ends_a_leg = |&number: &usize| {
        let before = number.checked_sub(1);
        before.and_then(|before| marks.get(before..=number)) == Some(&[1, 1])
    };
    match (numbers.iter().all(ends_a_leg), numbers.is_sorted()) {
        (false, _) => "; a number is of no leg",
        (_, false) => "; numbers fall",
        _ => "",
    }
}

/// What the original's trace leaves, in lists that are lent, and the refusals of Rules 11.
pub fn original(input: &Input) -> Output {
    let mut output = Output::before(input.room);
    let walk = match &input.walk {
        Ok(walk) => walk,
        Err(refusal) => {
            output.told = Err(*refusal);
            return output;
        }
    };
    let paths = input.scene.trace(input.tolerances, &input.samples());
    let stops = walk.made.iter().any(|made| made.point.is_none());
    assert_eq!(
        paths.is_none(),
        stops,
        "the original panics where its walk has no step"
    );
    match replay(&walk.made, input.room.for_points(), input.room.starts) {
        Err(refusal) => {
            output.told = Err(refusal);
            output.clear();
        }
        Ok(drawn) => {
            let paths = paths.expect("the walk has come to its end");
            let kept = [walk.kept.len(), paths.total_len()];
            assert_eq!(kept, [drawn; 2], "the original keeps these points");
            output.draw(&paths, &walk.kept);
        }
    }
    output
}

/// Traces for the record.
pub fn record(record: &mut Record) {
    record_known(record);
    let mut random = record.random();
    let mut few = Scenes::new(60, |random: &mut Random| 1 + random.below(4) as usize);
    for _ in 0..20_000 {
        record.offer(traced(&mut random, &mut few).recorded());
        record.offer(faulty(&mut random).recorded());
    }
    let mut dense = Scenes::dense(60, |random: &mut Random| 1 + random.below(4) as usize);
    for _ in 0..10_000 {
        record.offer(traced_at(&mut random, &mut dense).recorded());
        record.offer(faulty_at_tolerances(&mut random).recorded());
    }
    let mut many = Scenes::new(2, |random: &mut Random| 8 + random.below(4) as usize);
    for _ in 0..3 {
        record.keep(
            traced(&mut random, &mut many)
                .recorded()
                .reaching("many cells"),
        );
    }
}

/// The traces among the known results of Rules 6 and 7, on a bent cell; as many samples as there may
/// be, and one more.
fn record_known(record: &mut Record) {
    let cell = Rc::new(Scene::new(bent(1, 1)));
    let [from, to] = [[0.0, 0.25], [0.75, 0.25]];
    let apart = [[0.0, 0.75], [1.0, 0.75]];
    for (curve, marks) in [
        (vec![from, to], vec![1; 2]),
        (vec![[0.0, 0.0], [0.5, -0.5]], vec![1; 2]),
        (vec![[0.25, 0.25], [0.75, 0.75]], vec![1; 2]),
        (vec![[1.0, FAR], [1.0, 1.0 + EPS]], vec![1; 2]),
        (vec![from, to, [1.0, 0.25]], vec![1; 3]),
        (
            [&[from, to, [f64::NAN; 2]], &apart[..]].concat(),
            vec![1, 1, 0, 1, 1],
        ),
        (vec![from, from, to], vec![1; 3]),
        (vec![[0.0; 2]; 65_537], vec![0; 65_537]),
        (vec![[0.0; 2]; 65_538], vec![0; 65_538]),
    ] {
        let input = Input::new(&cell, None, curve.concat(), marks, |need| spare(need, 1));
        record.keep(input.recorded());
    }
    let room = |need| Room {
        samples: 1,
        ..spare(need, 1)
    };
    let full = Input::new(&cell, None, [from, to].concat(), vec![1, 1], room);
    record.keep(full.recorded());
    let square = [0.0, 0.0, 0.0, 0.0, 1.0, 0.0, 1.0, 0.0, 0.0, 1.0, 1.0, 0.0];
    let square = Rc::new(Scene::new(Grid {
        u_steps: 1,
        v_steps: 1,
        numbers: square.to_vec(),
    }));
    for line in [0.25, 0.5] {
        let tolerances = Tolerances {
            line,
            ..Tolerances::default()
        };
        let curve = [from, to, [1.0, 0.25]].concat();
        let room = |need| spare(need, 1);
        let input = Input::new(&square, Some(tolerances), curve, vec![1; 3], room);
        record.keep(input.recorded());
    }
}

impl Input {
    fn recorded(&self) -> Recorded {
        let output = original(self);
        let told = output.told;
        let Tolerances { u, v, line } = self.tolerances.unwrap_or_default();
        let case = Recorded::on_grid(Call::TraceFlat, told.err(), &self.scene.grid)
            .at_tolerances(&[u, v, line], told.err(), self.refusal_by_eps())
            .floats(&self.pairs)
            .bytes(&self.marks)
            .told(told.map(|drawn| [drawn.points, drawn.lines]))
            .floats(&output.points)
            .numbers(&output.starts)
            .numbers(&output.sides)
            .floats(&output.fractions)
            .numbers(&output.samples);
        match told {
            Ok(drawn) => {
                let case = self.reached_by_samples(self.reached(case, drawn));
                self.reached_by_tolerances(case)
            }
            Err(_) => case.reaching_if(self.full_of_samples(), "no room in the samples alone"),
        }
    }

    /// Whether it is refused with 12, and would not be so if the list of samples had room.
    fn full_of_samples(&self) -> bool {
        let mut roomy = self.clone();
        roomy.room.samples = roomy.need().points;
        let full = |input: &Self| original(input).told == Err(Refusal::Full);
        full(self) && !full(&roomy)
    }

    /// What a trace that is drawn reaches: the kinds of its events, by their sides, where they lie
    /// on a leg, and how its lines end.
    fn reached(&self, case: Recorded, drawn: Drawn) -> Recorded {
        let made = &self.walk.as_ref().expect("it is drawn").made;
        let sides: Vec<_> = made.iter().filter_map(|made| Some(made.point?.1)).collect();
        let event = |on: &dyn Fn(&Side) -> bool| sides.iter().any(on);
        let v_steps = self.scene.grid.v_steps;
        let samples = self.samples();
        let legs = samples.windows(2).filter_map(|s| Some([s[0]?, s[1]?]));
        let legs: Vec<Leg> = legs.collect();
        let leg = |of: fn(&Leg) -> bool| drawn.points > 0 && legs.iter().any(of);
        let kept = made.iter().filter(|made| made.close != Some(true)).count();
        case.reaching_if(event(&|side| side.q == side.p + 1), "a U event")
            .reaching_if(event(&|side| side.q == side.p + v_steps + 1), "a V event")
            .reaching_if(
                event(&|side| side.p == side.q + v_steps),
                "a diagonal event",
            )
            .reaching_if(leg(ends_on_a_line), "an event at an end")
            .reaching_if(leg(goes_down_from_a_line), "an event at -0")
            .reaching_if(kept < made.len(), "a point close to the last one")
            .reaching_if(drawn.points < kept, "a line of one point")
            .reaching_if(drawn.lines > 1, "several lines")
            .reaching_if(drawn.lines > 0 && self.marks.contains(&0), "a break")
    }

    /// What the sample numbers of a trace that is drawn reach: breaks that they count, and a point
    /// that is left out and does not change the number of the one before it.
    fn reached_by_samples(&self, case: Recorded) -> Recorded {
        let walk = self.walk.as_ref().expect("it is drawn");
        let last = walk.kept.last().map_or(0, |made| made.sample);
        let before = &self.marks[..last];
        let of_another_leg = |made: &[Made]| made[0].sample < made[1].sample;
        let left_out = |made: &[Made]| made[1].close == Some(true) && of_another_leg(made);
        case.reaching_if(before.starts_with(&[0]), "a break before all points")
            .reaching_if(before.windows(2).any(|m| m == [0, 0]), "breaks in a row")
            .reaching_if(
                last > 0 && walk.made.windows(2).any(left_out),
                "a point close to the last one of another leg",
            )
    }

    /// What the tolerance of the line reaches in a trace that is drawn: fewer or more points than EPS.
    fn reached_by_tolerances(&self, case: Recorded) -> Recorded {
        let kept = |tolerances| self.scene.walk(tolerances, &self.samples()).kept.len();
        let (here, by_eps) = (kept(self.tolerances), kept(None));
        case.reaching_if(0 < here && here < by_eps, "fewer points than by EPS")
            .reaching_if(here > by_eps, "more points than by EPS")
    }
}

/// Two samples that follow each other.
type Leg = [(f64, f64); 2];

fn whole(x: f64) -> bool {
    x == x.trunc()
}

/// Whether one of its ends is on a grid line or a diagonal.
fn ends_on_a_line(leg: &Leg) -> bool {
    let on_a_line = |&(u, v): &(f64, f64)| whole(u) || whole(v) || whole(u + v);
    leg.iter().any(on_a_line)
}

/// Whether it goes down from a grid line: lambda has the numerator 0 and a negative denominator.
fn goes_down_from_a_line(&[from, to]: &Leg) -> bool {
    whole(from.0) && to.0 < from.0 || whole(from.1) && to.1 < from.1
}

#[cfg(test)]
mod tests {
    use super::*;
    use crate::driver::{Amount, Ended, Task};
    use crate::planted::found;
    use std::collections::BTreeMap;
    use std::time::Duration;

    /// How often each refusal is told, and at 0 how often there is none.
    fn refusals(inputs: impl Iterator<Item = Input>) -> BTreeMap<u8, u32> {
        let mut counts = BTreeMap::new();
        for input in inputs {
            let number = original(&input).told.map_or_else(Refusal::number, |_| 0);
            *counts.entry(number).or_default() += 1;
        }
        counts
    }

    /// Whether each of these is told more often than so.
    fn more(counts: &BTreeMap<u8, u32>, least: &[(u8, u32)]) -> bool {
        let count = |number| counts.get(number).copied().unwrap_or_default();
        least.iter().all(|(number, least)| count(number) > *least)
    }

    #[test]
    fn walks_end_in_each_way() {
        let mut random = Random::new(1);
        let mut few = Scenes::new(50, |random| 1 + random.below(4) as usize);
        let counts = refusals((0..20_000).map(|_| traced(&mut random, &mut few)));
        assert!(
            more(&counts, &[(0, 5_000), (11, 50), (12, 1_000)]),
            "{counts:?}"
        );
    }

    #[test]
    fn the_list_of_samples_alone_is_often_full() {
        let mut random = Random::new(1);
        let mut few = Scenes::new(50, |random| 1 + random.below(4) as usize);
        let inputs = (0..20_000).map(|_| traced(&mut random, &mut few));
        let full = inputs.filter(Input::full_of_samples).count();
        assert!(full > 200, "{full}");
    }

    /// A leg that is walked alone makes the points that have its number in the walk of all samples.
    #[test]
    fn the_judge_numbers_each_point_by_its_leg() {
        let mut random = Random::new(1);
        let mut few = Scenes::new(50, |random| 1 + random.below(4) as usize);
        for _ in 0..5_000 {
            let input = traced(&mut random, &mut few);
            let walk = input.walk.as_ref().expect("it is not refused");
            let side = |made: &Made| made.point.map(|(_, side)| side);
            let mut count = 0;
            for (leg, number) in input.samples().windows(2).zip(1..) {
                let alone = input.scene.walk(None, leg).made;
                let numbered = walk.made.iter().filter(|made| made.sample == number);
                assert!(numbered.map(side).eq(alone.iter().map(side)), "{number}");
                count += alone.len();
            }
            assert_eq!(count, walk.made.len());
        }
    }

    #[test]
    fn the_judge_keeps_the_laws_of_the_numbers() {
        let mut random = Random::new(2);
        let mut few = Scenes::new(50, |random| 1 + random.below(4) as usize);
        for _ in 0..20_000 {
            let input = traced(&mut random, &mut few);
            let output = original(&input);
            let drawn = output.told.map_or(0, |drawn| drawn.points);
            assert_eq!(broken_law(&output.samples[..drawn], &input.marks), "");
        }
    }

    #[test]
    fn laws_that_numbers_break_are_told() {
        let marks = [1, 1, 0, 1, 1, 1];
        for numbers in [&[][..], &[1, 1, 4, 4, 5], &[5]] {
            assert_eq!(broken_law(numbers, &marks), "", "{numbers:?}");
        }
        // Of the first sample, a break, the one after it, and one that is not there.
        for number in [0, 2, 3, 6, usize::MAX] {
            let told = broken_law(&[1, number], &marks);
            assert_eq!(told, "; a number is of no leg", "{number}");
        }
        assert_eq!(broken_law(&[1, 5, 4], &marks), "; numbers fall");
    }

    #[test]
    fn each_refusal_comes_before_the_walk() {
        let mut random = Random::new(1);
        let counts = refusals((0..20_000).map(|_| faulty(&mut random)));
        let least = [0, 1, 2, 4, 9, 10].map(|number| (number, 500));
        assert!(more(&counts, &least), "{counts:?}");
    }

    /// A trace that mistakes the sides where N is at its limit and M is not.
    #[test]
    fn a_fault_at_the_limit_of_one_axis_is_found() {
        let wrong = |input: &Input| {
            let mut output = original(input);
            let grid = &input.scene.grid;
            if grid.v_steps == 255 && grid.u_steps < 255 {
                output.sides.iter_mut().for_each(|number| *number /= 2);
            }
            output
        };
        let mut scenes = Scenes::new(60, all_steps);
        let input = |random: &mut Random| traced(random, &mut scenes);
        let mut driver = Driver::new(Task::Run(Amount::Own), 1, Duration::ZERO);
        let told = driver.compare("planted", 1_000, input, wrong, original);
        assert!(matches!(told, Err(Ended::Difference(_))), "{told:?}");
    }

    /// Holds a library to the original on grids of up to so many steps.
    fn compare_up_to(
        steps: u64,
        driver: &mut Driver,
        library: impl Fn(&Input) -> Output,
    ) -> Compared {
        let mut scenes = Scenes::new(60, |random| 1 + random.below(steps) as usize);
        let input = |random: &mut Random| traced(random, &mut scenes);
        driver.compare("planted", 1_000, input, library, original)
    }

    /// The words of a case on one cell.
    fn on_a_cell(numbers: &str, curve: &str, room: &str) -> String {
        format!("grid u_steps 1 v_steps 1 numbers [ {numbers} ] {curve} room {room}")
    }

    /// Room for one line of two points.
    const TWO_POINTS: &str = "points 6 starts 1 sides 4 fractions 2 samples 2";

    /// A trace that forgets the last point of the last line.
    #[test]
    fn a_lost_point_is_found() {
        let short = |input: &Input| {
            let mut output = original(input);
            if let Ok(drawn) = &mut output.told {
                drawn.points = drawn.points.saturating_sub(1);
            }
            output
        };
        let case = found(
            |driver| compare_up_to(20, driver, short),
            |driver| compare_up_to(20, driver, library),
        );
        let curve = "pairs [ 0.0 0.0 1.0 1.0 ] marks [ 1 1 ]";
        assert_eq!(case, on_a_cell("o o o 0.0 0.0 1.0", curve, TWO_POINTS));
    }

    /// A trace that says 12 where one list has just the room.
    #[test]
    fn a_full_list_told_too_early_is_found() {
        let early = |input: &Input| {
            let mut output = original(input);
            if output.told.is_ok() && input.room.fractions == input.need().points {
                output.told = Err(Refusal::Full);
                output.clear();
                output.remade.clear();
            }
            output
        };
        let case = found(
            |driver| compare_up_to(4, driver, early),
            |driver| compare_up_to(4, driver, library),
        );
        let room = "points 0 starts 0 sides 0 fractions 0 samples 0";
        assert_eq!(case, on_a_cell("o o o o", "pairs [ ] marks [ ]", room));
    }

    /// The smallest case on which a library differs whose numbers of samples are other ones.
    fn found_numbers(other: impl Fn(&Input, usize) -> usize) -> String {
        let wrong = |input: &Input| {
            let mut output = original(input);
            let drawn = output.told.map_or(0, |drawn| drawn.points);
            for number in &mut output.samples[..drawn] {
                *number = other(input, *number);
            }
            output
        };
        found(
            |driver| compare_up_to(4, driver, wrong),
            |driver| compare_up_to(4, driver, library),
        )
    }

    /// A trace that numbers the points among the samples, and no breaks.
    #[test]
    fn breaks_that_are_not_counted_are_found() {
        let case = found_numbers(|input, number| {
            let before = &input.marks[..number];
            number - before.iter().filter(|&&mark| mark == 0).count()
        });
        let curve = "pairs [ 0.0 0.0 1.0 1.0 0.0 0.0 ] marks [ 0 1 1 ]";
        assert_eq!(case, on_a_cell("o o o 0.0 0.0 1.0", curve, TWO_POINTS));
    }

    /// A trace that hands out the number of a leg's first sample.
    #[test]
    fn the_number_of_the_earlier_sample_is_found() {
        let case = found_numbers(|_, number| number - 1);
        let curve = "pairs [ 0.0 0.0 1.0 0.0 ] marks [ 1 1 ]";
        assert_eq!(case, on_a_cell("o o 0.0 0.0 1.0 o", curve, TWO_POINTS));
    }

    /// The numbers of the points in lines, each that of the last point close to it.
    fn overwritten(made: &[Made]) -> Vec<usize> {
        let mut lines: Vec<Vec<usize>> = Vec::new();
        for point in made {
            match (point.close, lines.last_mut()) {
                (Some(close), Some(line)) => {
                    line.truncate(line.len() - usize::from(close));
                    line.push(point.sample);
                }
                _ => lines.push(vec![point.sample]),
            }
        }
        lines.retain(|line| line.len() > 1);
        lines.concat()
    }

    /// A trace in which a point that is left out changes the number of the one before it.
    #[test]
    fn a_number_of_a_point_that_is_left_out_is_found() {
        let wrong = |input: &Input| {
            let mut output = original(input);
            if let (Ok(_), Ok(walk)) = (output.told, &input.walk) {
                fill(&mut output.samples, overwritten(&walk.made));
            }
            output
        };
        let case = found(
            |driver| compare_up_to(4, driver, wrong),
            |driver| compare_up_to(4, driver, library),
        );
        // There and back, so that the second leg begins at the point where the first one ends.
        let curve = "pairs [ 0.0 0.0 1.0 o ] marks [ 1 1 1 ]";
        let room = "points 9 starts 1 sides 6 fractions 3 samples 3";
        assert_eq!(case, on_a_cell("o o 0.0 0.0 1.0 o", curve, room));
    }

    /// A trace that does not ask whether the list of samples has room.
    #[test]
    fn a_number_past_a_short_list_is_found() {
        let wrong = |input: &Input| {
            let mut roomy = input.clone();
            roomy.room.samples = input.room.samples.max(input.need().points);
            let mut output = original(&roomy);
            if output.told.is_ok() {
                output.samples.truncate(input.room.samples);
            } else {
                output.samples = original(input).samples;
            }
            output
        };
        let case = found(
            |driver| compare_up_to(4, driver, wrong),
            |driver| compare_up_to(4, driver, library),
        );
        let curve = "pairs [ o 0.0 ] marks [ 1 1 ]";
        let room = "points 3 starts 0 sides 2 fractions 1 samples 0";
        assert_eq!(case, on_a_cell("o o o o", curve, room));
    }

    /// A trace that leaves the list of samples as it was past the points that are drawn.
    #[test]
    fn a_tail_that_is_not_cleared_is_found() {
        let wrong = |input: &Input| {
            let mut output = original(input);
            if let Ok(drawn) = output.told {
                let before = numbers(input.room.samples);
                output.samples[drawn.points..].copy_from_slice(&before[drawn.points..]);
            }
            output
        };
        let case = found(
            |driver| compare_up_to(4, driver, wrong),
            |driver| compare_up_to(4, driver, library),
        );
        let room = "points 0 starts 0 sides 0 fractions 0 samples 1";
        assert_eq!(case, on_a_cell("o o o o", "pairs [ ] marks [ ]", room));
    }

    /// A trace that leaves the list of samples as it was where another one is full.
    #[test]
    fn a_list_that_is_not_cleared_is_found() {
        let wrong = |input: &Input| {
            let mut output = original(input);
            if output.told == Err(Refusal::Full) {
                output.samples = numbers(input.room.samples);
            }
            output
        };
        let case = found(
            |driver| compare_up_to(4, driver, wrong),
            |driver| compare_up_to(4, driver, library),
        );
        let curve = "pairs [ o 0.0 ] marks [ 1 1 ]";
        let room = "points 0 starts 0 sides 0 fractions 0 samples 1";
        assert_eq!(case, on_a_cell("o o o o", curve, room));
    }

    /// What the tolerance of the line decides: it leaves out some of the points that EPS keeps, or
    /// keeps some that EPS leaves out, and the next float leaves out more.
    #[test]
    fn tolerances_decide_points() {
        let mut random = Random::new(1);
        let mut few = Scenes::dense(50, |random| 1 + random.below(4) as usize);
        let (mut fewer, mut more, mut edges) = (0, 0, 0);
        for _ in 0..10_000 {
            let input = traced_at(&mut random, &mut few);
            let tolerances = input.tolerances.expect("it has them");
            let kept = |line: f64| {
                let tolerances = Some(Tolerances { line, ..tolerances });
                input.scene.walk(tolerances, &input.samples()).kept.len()
            };
            let (here, by_eps) = (kept(tolerances.line), kept(EPS));
            fewer += u32::from(0 < here && here < by_eps);
            more += u32::from(here > by_eps);
            edges += u32::from(here != kept(tolerances.line.next_up()));
        }
        let all = [fewer, more, edges];
        assert!(all.iter().all(|&count| count > 100), "{all:?}");
    }

    #[test]
    fn each_refusal_comes_before_the_walk_at_tolerances() {
        let mut random = Random::new(1);
        let counts = refusals((0..20_000).map(|_| faulty_at_tolerances(&mut random)));
        let least = [0, 1, 2, 13, 4, 9, 10].map(|number| (number, 200));
        assert!(more(&counts, &least), "{counts:?}");
    }

    /// Holds a library to the original on curves at tolerances.
    fn compare_at(driver: &mut Driver, library: impl Fn(&Input) -> Output) -> Compared {
        let mut scenes = Scenes::dense(60, |random| 1 + random.below(4) as usize);
        let input = |random: &mut Random| traced_at(random, &mut scenes);
        driver.compare("planted", 10_000, input, library, original)
    }

    impl Input {
        /// The same curve at other tolerances.
        fn at(&self, tolerances: Tolerances) -> Self {
            let Self {
                scene,
                pairs,
                marks,
                room,
                ..
            } = self.clone();
            Self::new(&scene, Some(tolerances), pairs, marks, |_| room)
        }
    }

    /// The trace at other tolerances than those that are given.
    fn traced_by(input: &Input, other: fn(Tolerances) -> Tolerances) -> Output {
        match (&input.walk, input.tolerances) {
            (Ok(_), Some(tolerances)) => original(&input.at(other(tolerances))),
            _ => original(input),
        }
    }

    /// The smallest curve on which a trace at other tolerances is found to differ.
    fn found_at(other: fn(Tolerances) -> Tolerances) -> String {
        found(
            |driver| compare_at(driver, |input| traced_by(input, other)),
            |driver| compare_at(driver, library),
        )
    }

    /// The words of a case at tolerances on one cell whose last point alone is not zero.
    fn at_tolerances(last: &str, tolerances: [&str; 3], curve: &str, room: &str) -> String {
        let [u, v, line] = tolerances;
        let grid = format!("grid u_steps 1 v_steps 1 numbers [ o o o {last} ]");
        let tolerances = format!("tolerances u {u} v {v} line {line}");
        format!("{grid} {tolerances} {curve} room {room}")
    }

    /// Room for one point and no line.
    const ONE_POINT: &str = "points 3 starts 0 sides 2 fractions 1 samples 1";

    #[test]
    fn a_line_by_eps_is_found() {
        let curve = "pairs [ 0.0 0.0 1.0 0.5 ] marks [ 1 1 ]";
        let case = at_tolerances("0.0 1.0 0.0", ["1.0"; 3], curve, ONE_POINT);
        assert_eq!(found_at(|_| Tolerances::default()), case);
    }

    #[test]
    fn a_line_by_the_tolerance_of_u_is_found() {
        let case = found_at(|tolerances| Tolerances {
            line: tolerances.u,
            ..tolerances
        });
        let curve = "pairs [ 0.5 1.0 0.0 0.0 ] marks [ 1 1 ]";
        let tolerances = ["0.5", "1.0", "1.0"];
        let wanted = at_tolerances("1.0 0.0 0.0", tolerances, curve, ONE_POINT);
        assert_eq!(case, wanted);
    }

    /// Less or equal in the place of less.
    #[test]
    fn a_line_that_takes_the_tolerance_itself_is_found() {
        let case = found_at(|tolerances| Tolerances {
            line: tolerances.line.next_up().min(1.0),
            ..tolerances
        });
        let curve = "pairs [ 1.0 0.5 0.0 0.0 ] marks [ 1 1 ]";
        let tolerances = ["1.0", "1.0", "0.5"];
        let wanted = at_tolerances("0.0 0.0 1.0", tolerances, curve, ONE_POINT);
        assert_eq!(case, wanted);
    }

    /// The smallest curve, one that is refused perhaps, on which a library is found to differ.
    fn found_refused(wrong: impl Fn(&Input) -> Output) -> String {
        let compare = |driver: &mut Driver, library: &dyn Fn(&Input) -> Output| {
            driver.compare("planted", 10_000, faulty_at_tolerances, library, original)
        };
        found(
            |driver| compare(driver, &wrong),
            |driver| compare(driver, &library),
        )
    }

    /// 13 for the tolerance of the line alone, which is the one that a trace has a use for.
    #[test]
    fn tolerances_without_use_that_are_not_refused_are_found() {
        let case = found_refused(|input| match (&input.walk, input.tolerances) {
            (Err(Refusal::Tolerance), Some(Tolerances { line, .. })) => {
                original(&input.at(Tolerances {
                    line,
                    ..Tolerances::default()
                }))
            }
            _ => original(input),
        });
        let room = "points 0 starts 0 sides 0 fractions 0 samples 0";
        let curve = "pairs [ ] marks [ ]";
        let wanted = at_tolerances("o", ["0.0", "0.0", "1.0"], curve, room);
        assert_eq!(case, wanted);
    }

    /// 13 that leaves the lists zero, as 11 and 12 do.
    #[test]
    fn lists_that_are_cleared_for_a_tolerance_are_found() {
        let case = found_refused(|input| {
            let mut output = original(input);
            if output.told == Err(Refusal::Tolerance) {
                output.clear();
            }
            output
        });
        let room = "points 0 starts 0 sides 0 fractions 0 samples 1";
        let curve = "pairs [ ] marks [ ]";
        let wanted = at_tolerances("o", ["0.0"; 3], curve, room);
        assert_eq!(case, wanted);
    }
}
