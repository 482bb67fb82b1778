use crate::boundary;
use crate::lines::{Drawn, Lines, OwnedLines};
use crate::refusal::Refusal;
use crate::tolerance::Tolerances;

/// The lists that a trace is written to. A point takes three numbers of `points`, two of `sides`,
/// one of `fractions` and one of `samples`; an end of a list that is too short for one more point
/// holds none (Rules 8.1).
#[derive(Debug, Default)]
pub struct TraceLists<'a> {
    /// x, y and z of each point.
    pub points: &'a mut [f64],
    /// The number of the first point of each line.
    pub starts: &'a mut [usize],
    /// The numbers of the two grid points p and q that each point was made from.
    pub sides: &'a mut [usize],
    /// How far each point lies from p to q: t in `(1 - t) * p + t * q`.
    pub fractions: &'a mut [f64],
    /// The number of the later sample of the leg that each point was made from, a leg being what
    /// lies between a sample and the next; samples are counted from 0, breaks too.
    pub samples: &'a mut [usize],
}

impl TraceLists<'_> {
    /// The same lists, lent for a shorter time.
    pub fn reborrow(&mut self) -> TraceLists<'_> {
        TraceLists {
            points: self.points,
            starts: self.starts,
            sides: self.sides,
            fractions: self.fractions,
            samples: self.samples,
        }
    }
}

/// What a trace drew into lists that were lent.
#[derive(Debug, Clone, Copy)]
pub struct Trace<'a> {
    /// The lines.
    pub lines: Lines<'a>,
    /// The numbers of the two grid points p and q that each point was made from.
    pub sides: &'a [[usize; 2]],
    /// How far each point lies from p to q: t in `(1 - t) * p + t * q`.
    pub fractions: &'a [f64],
    /// The number of the later sample of the leg that each point was made from, counted from 0,
    /// breaks too.
    ///
    /// Numbers never fall from a point to the next, on into the next line too. Each is at least 1
    /// and less than the count of samples; for a number k, samples k - 1 and k are points. A point
    /// that is left out, because it is close to the last one of its line by [`Tolerances::line`],
    /// leaves that one's number as it is: where a leg begins at the point at which the one before it
    /// ended, the number of the earlier leg stands.
    pub samples: &'a [usize],
}

impl<'a> Trace<'a> {
    /// What was drawn into these lists.
    pub(crate) fn new(lists: TraceLists<'a>, drawn: Drawn) -> Self {
        Self {
            lines: Lines {
                points: lists.points,
                starts: lists.starts,
                drawn,
            },
            sides: &lists.sides.as_chunks().0[..drawn.points],
            fractions: &lists.fractions[..drawn.points],
            samples: &lists.samples[..drawn.points],
        }
    }
}

/// What a trace drew, in lists of its own, with no place past what is drawn.
#[derive(Debug, Clone, PartialEq, Default)]
pub struct OwnedTrace {
    /// The lines.
    pub lines: OwnedLines,
    /// The numbers of the two grid points p and q that each point was made from.
    pub sides: Vec<[usize; 2]>,
    /// How far each point lies from p to q: t in `(1 - t) * p + t * q`.
    pub fractions: Vec<f64>,
    /// The number of the later sample of the leg that each point was made from, as
    /// [`Trace::samples`] says.
    pub samples: Vec<usize>,
}

impl OwnedTrace {
    /// Lists of zeros, for as many points and as many lines.
    pub(crate) fn with_room(room: usize) -> Self {
        Self {
            lines: OwnedLines {
                points: vec![[0.0; 3]; room],
                starts: vec![0; room],
            },
            sides: vec![[0; 2]; room],
            fractions: vec![0.0; room],
            samples: vec![0; room],
        }
    }

    /// The lists, lent to a trace.
    pub(crate) fn lists(&mut self) -> TraceLists<'_> {
        TraceLists {
            points: self.lines.points.as_flattened_mut(),
            starts: &mut self.lines.starts,
            sides: self.sides.as_flattened_mut(),
            fractions: &mut self.fractions,
            samples: &mut self.samples,
        }
    }

    /// Gives up the places past what was drawn.
    pub(crate) fn truncate(&mut self, drawn: Drawn) {
        self.lines.points.truncate(drawn.points);
        self.lines.starts.truncate(drawn.lines);
        self.sides.truncate(drawn.points);
        self.fractions.truncate(drawn.points);
        self.samples.truncate(drawn.points);
    }
}

/// The lines that a curve draws where it crosses the sides of a grid's triangles (Rules 6 and 7).
///
/// The curve is a list of samples: `pairs` has u and v of each, and `marks` is 1 for a point and 0 for
/// a break, whose pair is not looked at. A point that is close to the last one of its line, by the
/// tolerance of lines, is left out; the other two are tested and not used. All places of the lists
/// past what is drawn become zero.
///
/// # Errors
/// 1, 2, 13, 4, 9 and 10, tested in this order, which leave the lists as they were; 11 and 12, which
/// leave them all zero.
///
/// ```
/// use merlontrispa::{Tolerances, TraceLists, trace_flat};
///
/// let grid = [0.0, 0.0, 0.0, 0.0, 1.0, 0.0, 1.0, 0.0, 0.0, 1.0, 1.0, 5.0];
/// let (mut points, mut starts) = ([0.0; 6], [0; 1]);
/// let (mut sides, mut fractions, mut samples) = ([0; 4], [0.0; 2], [0; 2]);
/// let lists = TraceLists {
///     points: &mut points,
///     starts: &mut starts,
///     sides: &mut sides,
///     fractions: &mut fractions,
///     samples: &mut samples,
/// };
/// let (tolerances, pairs) = (Tolerances::default(), [0.0, 0.25, 0.75, 0.25]);
/// let drawn = trace_flat(&grid, 1, 1, tolerances, &pairs, &[1, 1], lists)?;
/// assert_eq!((drawn.points, drawn.lines), (2, 1));
/// assert_eq!((sides, fractions), ([0, 1, 2, 1], [0.25, 0.25]));
/// // Both points were made from the leg that ends at sample 1.
/// assert_eq!(samples, [1, 1]);
/// # Ok::<(), merlontrispa::Refusal>(())
/// ```
pub fn trace_flat(
    grid: &[f64],
    u_steps: usize,
    v_steps: usize,
    tolerances: Tolerances,
    pairs: &[f64],
    marks: &[u8],
    lists: TraceLists<'_>,
) -> Result<Drawn, Refusal> {
    boundary::trace_flat(grid, u_steps, v_steps, tolerances, pairs, marks, lists).into()
}

/// A point of the parameter plane.
#[repr(C)]
#[derive(Debug, Clone, Copy, PartialEq)]
pub struct ParamPoint {
    /// Steps along u.
    pub u: f64,
    /// Steps along v.
    pub v: f64,
}

/// A sample of a curve.
#[repr(C)]
#[derive(Debug, Clone, Copy, PartialEq)]
pub struct Sample {
    /// 1 for a point, 0 for a break.
    pub mark: u8,
    /// The point; that of a break is not looked at.
    pub point: ParamPoint,
}

impl Sample {
    /// The end of a line: nothing is drawn between the samples around it.
    pub const BREAK: Self = Self {
        mark: 0,
        point: ParamPoint { u: 0.0, v: 0.0 },
    };

    /// The curve goes through the point at u and v.
    #[must_use]
    pub const fn at(u: f64, v: f64) -> Self {
        Self {
            mark: 1,
            point: ParamPoint { u, v },
        }
    }
}

/// What [`trace_flat`] draws of the records' points and marks, with the same refusals. A number in
/// the list of samples is that of a record.
///
/// # Stack
/// The call needs 1.1 MB of the caller's stack, whatever the number of records: it flattens them
/// into lists of its own, of 1,114,129 bytes. A thread with less than 1,150 KiB calls
/// [`trace_flat`], which needs 14 KB; a thread that Rust starts has 2 MiB unless it asks for less.
///
/// # Errors
/// 1, 2 (more than 65,537 records), 13, 4, 9 and 10, tested in this order, which leave the lists as
/// they were; 11 and 12, which leave them all zero.
///
/// ```
/// use merlontrispa::{Sample, Tolerances, TraceLists, trace_samples};
///
/// let grid = [0.0, 0.0, 0.0, 0.0, 1.0, 0.0, 1.0, 0.0, 0.0, 1.0, 1.0, 5.0];
/// let records = [Sample::BREAK, Sample::at(0.0, 0.25), Sample::at(0.75, 0.25)];
/// let (mut points, mut starts) = ([0.0; 6], [0; 1]);
/// let (mut sides, mut fractions, mut samples) = ([0; 4], [0.0; 2], [0; 2]);
/// let lists = TraceLists {
///     points: &mut points,
///     starts: &mut starts,
///     sides: &mut sides,
///     fractions: &mut fractions,
///     samples: &mut samples,
/// };
/// let drawn = trace_samples(&grid, 1, 1, Tolerances::default(), &records, lists)?;
/// assert_eq!((drawn.points, drawn.lines), (2, 1));
/// assert_eq!((sides, fractions), ([0, 1, 2, 1], [0.25, 0.25]));
/// // The break is counted too.
/// assert_eq!(samples, [2, 2]);
/// # Ok::<(), merlontrispa::Refusal>(())
/// ```
pub fn trace_samples(
    grid: &[f64],
    u_steps: usize,
    v_steps: usize,
    tolerances: Tolerances,
    records: &[Sample],
    lists: TraceLists<'_>,
) -> Result<Drawn, Refusal> {
    boundary::trace_samples(grid, u_steps, v_steps, tolerances, records, lists).into()
}
