//! Grid lines against the original's, and lines read back against its `Paths`.

use crate::case::{Smaller, case};
use crate::driver::{Compared, Driver};
use crate::inputs::grids::{Grid, any_grid, any_steps, spoil};
use crate::inputs::lists::{fewer_cells, fill, floats, length, numbers};
use crate::inputs::whole;
use crate::random::Random;
use crate::record::{Call, Record, Recorded};
use merlontrispa::{Drawn, Lines, Refusal, grid_paths};
use original::{ParametricSurfaceTexture, Paths, Surface, Vector, vectors};

/// A grid and how long the lists are that are lent.
#[derive(Clone)]
struct Input {
    grid: Grid,
    points: usize,
    starts: usize,
}

case!(Input { grid, points, starts }, first Input::fewer_cells);

impl Input {
    fn new(grid: Grid, [points, starts]: [usize; 2]) -> Self {
        Self {
            grid,
            points,
            starts,
        }
    }

    fn fewer_cells(&self) -> Smaller<Self> {
        let fewer = fewer_cells(&self.grid, [self.points, self.starts], least);
        Box::new(fewer.map(|(grid, lengths)| Self::new(grid, lengths)))
    }
}

/// The least lengths of the lists that are taken.
fn least(m: usize, n: usize) -> [usize; 2] {
    [6 * (m + 1) * (n + 1), m + n + 2]
}

/// An answer and the two lists after the call.
type Output = (Result<Drawn, Refusal>, (Vec<f64>, Vec<usize>));

pub fn compare(driver: &mut Driver) -> Compared {
    driver.compare("grid_paths", 200_000, drawable, library, original)?;
    driver.compare("grid_paths, refusals", 200_000, faulty, library, original)?;
    let name = "grid_paths, 255 by 255";
    driver.compare(name, 60, largest, library, original)?;
    driver.compare("get, every grid line", 20_000, drawable, read, walked)?;
    let name = "get, every grid line of 255 by 255 cells";
    driver.compare(name, 20, largest, read, walked)?;
    driver.compare(
        "get, any lists",
        2_000_000,
        any_lists,
        Listed::get,
        Listed::part,
    )?;
    driver.compare(
        "line_span, any lists",
        2_000_000,
        any_lists,
        Listed::line_span,
        Listed::span,
    )
}

fn library(input: &Input) -> Output {
    let (mut points, mut starts) = (floats(input.points), numbers(input.starts));
    let grid = &input.grid;
    let drawn = grid_paths(
        &grid.numbers,
        grid.u_steps,
        grid.v_steps,
        &mut points,
        &mut starts,
    );
    (drawn, (points, starts))
}

fn original(input: &Input) -> Output {
    let (mut points, mut starts) = (floats(input.points), numbers(input.starts));
    let lengths = [input.points, input.starts];
    if let Some(refusal) = input.grid.refusal_with_lists(None, lengths, least) {
        return (Err(refusal), (points, starts));
    }
    let paths = paths(&input.grid);
    let drawn = Drawn {
        points: paths.total_len(),
        lines: paths.len(),
    };
    fill(&mut points, paths.iter_paths().flat_map(coordinates));
    fill(&mut starts, firsts(&paths));
    (Ok(drawn), (points, starts))
}

/// The grid lines of the original.
fn paths(grid: &Grid) -> Paths<Vector> {
    let mut surface = Surface::from_grid(vectors(&grid.numbers), grid.u_steps, grid.v_steps);
    let paths = surface.paths(ParametricSurfaceTexture::Grid);
    paths.expect("grid lines do not panic")
}

/// The numbers of a line's points.
pub fn coordinates(line: &[Vector]) -> impl Iterator<Item = f64> {
    line.iter().flat_map(|p| [p.x, p.y, p.z])
}

/// The number of the first point of each line.
pub fn firsts<T>(paths: &Paths<T>) -> Vec<usize> {
    let lengths = paths.iter_paths().map(<[T]>::len);
    lengths
        .scan(0, |next, length| {
            let first = *next;
            *next += length;
            Some(first)
        })
        .collect()
}

/// Every line of a grid by `get`, one past the last included.
fn read(input: &Input) -> Vec<Vec<f64>> {
    let (told, (points, starts)) = library(input);
    let Ok(drawn) = told else {
        return Vec::new();
    };
    let lines = Lines {
        points: &points,
        starts: &starts,
        drawn,
    };
    (0..=drawn.lines).map(|i| lines.get(i).to_vec()).collect()
}

/// Every line of a grid by the original's `get`.
fn walked(input: &Input) -> Vec<Vec<f64>> {
    if original(input).0.is_err() {
        return Vec::new();
    }
    let paths = paths(&input.grid);
    let line = |i| paths.get(i).unwrap_or_default();
    (0..=paths.len())
        .map(|i| coordinates(line(i)).collect())
        .collect()
}

/// The largest grid, and room for its lines.
fn largest(random: &mut Random) -> Input {
    let room = least(255, 255).map(|least| least + random.below(3) as usize);
    Input::new(any_grid(random, 255, 255), room)
}

fn drawable(random: &mut Random) -> Input {
    let (m, n) = (any_steps(random), any_steps(random));
    let grid = any_grid(random, m, n);
    Input::new(grid, least(m, n).map(|least| length(random, least)))
}

fn faulty(random: &mut Random) -> Input {
    let mut input = drawable(random);
    spoil(random, &mut input.grid);
    input
}

/// Lists, counts and an index that may or may not fit each other.
#[derive(Clone)]
struct Listed {
    points: Vec<f64>,
    starts: Vec<usize>,
    drawn: Drawn,
    index: usize,
}

case!(Listed {
    points,
    starts,
    drawn,
    index
});

impl Listed {
    fn lines(&self) -> Lines<'_> {
        Lines {
            points: &self.points,
            starts: &self.starts,
            drawn: self.drawn,
        }
    }

    fn get(&self) -> Vec<f64> {
        self.lines().get(self.index).to_vec()
    }

    fn line_span(&self) -> Result<[usize; 2], Refusal> {
        let span = self.lines().line_span(self.index)?;
        Ok([span.start, span.end])
    }

    /// Where the line lies, by Rules 9.2.
    fn span(&self) -> Result<[usize; 2], Refusal> {
        let Drawn { points, lines } = self.drawn;
        if self.index >= lines || points > self.points.len() / 3 || lines > self.starts.len() {
            return Err(Refusal::NotThere);
        }
        let starts = &self.starts[..lines];
        let start = starts[self.index];
        let end = starts.get(self.index + 1).copied().unwrap_or(points);
        if start <= end && end <= points {
            Ok([start, end])
        } else {
            Err(Refusal::NotThere)
        }
    }

    fn part(&self) -> Vec<f64> {
        match self.span() {
            Ok([start, end]) => self.points[3 * start..3 * end].to_vec(),
            Err(_) => Vec::new(),
        }
    }
}

fn any_lists(random: &mut Random) -> Listed {
    let (points, lines) = (random.below(8) as usize, random.below(6) as usize);
    let mut starts: Vec<_> = (0..length(random, lines))
        .map(|_| random.below(points as u64 + 1) as usize)
        .collect();
    if random.below(4) != 0 {
        starts.sort_unstable();
    }
    if let Some(last) = starts.last_mut()
        && random.below(8) == 0
    {
        *last = whole(random);
    }
    let (points, lines) = match random.below(16) {
        0 => (whole(random), lines),
        1 => (points, whole(random)),
        _ => (points, lines),
    };
    let index = match random.below(8) {
        0 => whole(random),
        _ => random.below(starts.len() as u64 + 1) as usize,
    };
    Listed {
        points: floats(length(random, 3 * points.min(8))),
        starts,
        drawn: Drawn { points, lines },
        index,
    }
}

/// Grids, and lines of any lists, for the record.
pub fn record(record: &mut Record) {
    let mut random = record.random();
    for _ in 0..4_000 {
        record.offer(drawable(&mut random).recorded());
        record.offer(faulty(&mut random).recorded());
    }
    let many = Input::new(any_grid(&mut random, 12, 9), [6 * 13 * 10 + 2, 24]);
    record.keep(many.recorded().reaching("many cells"));
    for _ in 0..40 {
        record.keep(any_lists(&mut random).recorded());
    }
}

impl Input {
    fn recorded(&self) -> Recorded {
        let (told, (points, starts)) = original(self);
        Recorded::on_grid(Call::GridPaths, told.err(), &self.grid)
            .told(told.map(|drawn| [drawn.points, drawn.lines]))
            .floats(&points)
            .numbers(&starts)
    }
}

impl Listed {
    fn recorded(&self) -> Recorded {
        let Drawn { points, lines } = self.drawn;
        let numbers = [points, lines, self.index].map(|n| n as u64);
        let told = self.span();
        let last = told.is_ok() && self.index + 1 == lines;
        Recorded::new(Call::Line, told.err(), &numbers)
            .held_to_rules()
            .floats(&self.points)
            .numbers(&self.starts)
            .told(told)
            .floats(&self.part())
            .reaching_if(last, "the last line")
            .reaching_if(told.is_ok_and(|[start, end]| start == end), "an empty line")
    }
}

#[cfg(test)]
mod tests {
    use super::*;
    use crate::planted::found;

    #[test]
    fn many_lines_are_there_and_many_are_not() {
        let mut random = Random::new(1);
        let there = (0..10_000).filter(|_| any_lists(&mut random).span().is_ok());
        let there = there.count();
        assert!((2_000..8_000).contains(&there), "{there}");
    }

    /// A line that is there only if it is not empty.
    #[test]
    fn a_refused_empty_line_is_found() {
        let strict = |listed: &Listed| match listed.span()? {
            [start, end] if start == end => Err(Refusal::NotThere),
            span => Ok(span),
        };
        let case = found(
            |driver| driver.compare("planted", 1_000, any_lists, strict, Listed::span),
            |driver| driver.compare("planted", 1_000, any_lists, Listed::line_span, Listed::span),
        );
        assert_eq!(
            case,
            "points [ ] starts [ 0 ] drawn points 0 lines 1 index 0"
        );
    }
}
