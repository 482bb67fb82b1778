//! The trace of samples that are records: against the original's, and against the trace of flat
//! samples.

use crate::case::{Case, Smaller};
use crate::driver::{Compared, Driver};
use crate::inputs::grids::all_steps;
use crate::layers::traces::curves::{
    self, Scene, Scenes, bent, faulty, faulty_at_tolerances, spare, traced, traced_at,
};
use crate::layers::traces::{self, Output, called};
use crate::random::Random;
use crate::text::{Text, Words};
use merlontrispa::{ParamPoint, Sample, trace_samples};
use std::rc::Rc;

/// How many samples: none, the fewest, and around the most that are taken.
const COUNTS: [usize; 6] = [0, 1, 2, 65_536, 65_537, 65_538];

pub fn compare(driver: &mut Driver) -> Compared {
    compare_beside(driver, "the original", |input| traces::original(&input.0))?;
    compare_beside(driver, "trace_flat", |input| traces::library(&input.0))
}

fn compare_beside(driver: &mut Driver, name: &str, other: fn(&Input) -> Output) -> Compared {
    driver.compare_each(
        &format!("trace_samples beside {name}, 0 to 65,538 samples"),
        counted(),
        library,
        other,
    )?;
    let mut few = Scenes::new(200, |random| 1 + random.below(4) as usize);
    driver.compare(
        &format!("trace_samples beside {name}, few cells"),
        50_000,
        |random| Input(traced(random, &mut few)),
        library,
        other,
    )?;
    let mut many = Scenes::new(60, all_steps);
    driver.compare(
        &format!("trace_samples beside {name}, up to 255 by 255 cells"),
        10_000,
        |random| Input(traced(random, &mut many)),
        library,
        other,
    )?;
    driver.compare(
        &format!("trace_samples beside {name}, refusals"),
        50_000,
        |random| records(random, faulty),
        library,
        other,
    )?;
    let mut few = Scenes::dense(200, |random| 1 + random.below(4) as usize);
    driver.compare(
        &format!("trace_samples beside {name}, at tolerances, few cells"),
        20_000,
        |random| Input(traced_at(random, &mut few)),
        library,
        other,
    )?;
    driver.compare(
        &format!("trace_samples beside {name}, at tolerances, refusals"),
        20_000,
        |random| records(random, faulty_at_tolerances),
        library,
        other,
    )
}

/// An input of the flat trace that has as many pairs as marks.
#[derive(Clone)]
struct Input(curves::Input);

impl Input {
    fn of(flat: curves::Input) -> Option<Self> {
        (flat.pairs.len() == 2 * flat.marks.len()).then_some(Self(flat))
    }

    /// The pairs and marks as records.
    fn records(&self) -> Vec<Sample> {
        let samples = self.0.pairs.as_chunks().0.iter().zip(&self.0.marks);
        samples
            .map(|(&[u, v], &mark)| Sample {
                mark,
                point: ParamPoint { u, v },
            })
            .collect()
    }
}

impl Case for Input {
    fn write(&self, text: &mut Text) {
        self.0.write(text);
    }

    fn read(words: &mut Words<'_>) -> Result<Self, String> {
        Self::of(curves::Input::read(words)?).ok_or_else(|| "pairs are not twice the marks".into())
    }

    fn smaller(&self) -> Smaller<Self> {
        Box::new(self.0.smaller().filter_map(Self::of))
    }
}

fn library(input: &Input) -> Output {
    let records = input.records();
    called(&input.0, |grid, tolerances, lists| {
        let (m, n) = (grid.u_steps, grid.v_steps);
        trace_samples(&grid.numbers, m, n, tolerances, &records, lists)
    })
}

/// Each of the counts on grids that are taken and on ones that are not, with lists of several lengths.
fn counted() -> impl Iterator<Item = Input> {
    let mut grids = vec![bent(1, 1), bent(2, 3), bent(255, 255)];
    let wrong_steps = [(0, 1), (1, 0), (256, 1), (1, 256)];
    grids.extend(wrong_steps.map(|(u_steps, v_steps)| bent(u_steps, v_steps)));
    let mut short = bent(2, 3);
    short.numbers.pop();
    let mut far = bent(2, 3);
    far.numbers[4] = f64::INFINITY;
    grids.extend([short, far]);
    let scenes = grids.into_iter().map(|grid| Rc::new(Scene::new(grid)));
    scenes.flat_map(|scene| {
        COUNTS.into_iter().flat_map(move |count| {
            let scene = Rc::clone(&scene);
            (0..5).map(move |more| around(&scene, count, more))
        })
    })
}

/// So many samples on a circle around the first cells, with a break now and then. The lists have up
/// to two places more than are needed; at 3 the fractions have one too few, at 4 the samples.
fn around(scene: &Rc<Scene>, count: usize, more: usize) -> Input {
    let pairs = (0..count).flat_map(|i| {
        let angle = i as f64 * 0.7;
        [1.0 + angle.cos(), 1.0 + angle.sin()]
    });
    let marks = (0..count).map(|i| u8::from(i % 1_000 != 999));
    let (pairs, marks) = (pairs.collect(), marks.collect());
    Input(curves::Input::new(scene, None, pairs, marks, |need| {
        let mut room = spare(need, more % 3);
        match more {
            3 => room.fractions = need.points.saturating_sub(1),
            4 => room.samples = need.points.saturating_sub(1),
            _ => {}
        }
        room
    }))
}

/// Faults, but for a number of pairs that is not the number of marks, which records cannot have.
fn records(random: &mut Random, faulty: fn(&mut Random) -> curves::Input) -> Input {
    loop {
        if let Some(input) = Input::of(faulty(random)) {
            return input;
        }
    }
}

#[cfg(test)]
mod tests {
    use super::*;
    use merlontrispa::{Refusal, Tolerances, TraceLists};

    /// What a trace of so many samples across one cell answers, drawing into lists of one number each.
    fn told(count: usize) -> Result<usize, Refusal> {
        let scene = Scene::new(bent(1, 1));
        let (mut points, mut starts) = ([7.0], [7]);
        let (mut sides, mut fractions, mut samples) = ([7], [7.0], [7]);
        let lists = TraceLists {
            points: &mut points,
            starts: &mut starts,
            sides: &mut sides,
            fractions: &mut fractions,
            samples: &mut samples,
        };
        let records = vec![Sample::BREAK; count];
        let tolerances = Tolerances::default();
        trace_samples(&scene.grid.numbers, 1, 1, tolerances, &records, lists)
            .map(|drawn| drawn.points)
    }

    #[test]
    fn the_most_samples_are_taken_and_one_more_is_not() {
        assert_eq!(told(65_537), Ok(0));
        assert_eq!(told(65_538), Err(Refusal::Length));
    }

    #[test]
    fn a_stack_of_1150_kib_is_enough() {
        let thread = std::thread::Builder::new().stack_size(1_150 * 1_024);
        let told = thread.spawn(|| told(65_537)).expect("a thread starts");
        assert_eq!(told.join().expect("it ends"), Ok(0));
    }
}
