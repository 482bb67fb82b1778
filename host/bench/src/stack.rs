//! The most stack that each call takes.
//!
//! A thread with a stack of fixed size goes down through frames of one size, and makes the call
//! from the deepest. The stack overflows, which ends the process, where the frames and the call
//! together are more than it has; so each depth is tried in a process of its own, and the deepest
//! that ends well is found by halving. What a call takes is the depth that it costs against a call
//! of nothing, in bytes.

use crate::inputs::{Lists, TOLERANCES, circle, klein};
use merlontrispa::{
    Drawn, EPS, Lines, Mapping, Refusal, Sample, Texture, TraceLists, find_seams, grid_paths,
    trace_flat, trace_samples, triangulate_grid, triangulate_seams,
};
use std::env;
use std::hint::black_box;
use std::process::{Command, ExitCode, Stdio};
use std::thread;

/// The stack of the thread.
const STACK: usize = 1 << 22;

/// More frames than fit.
const TOO_DEEP: usize = STACK / 16;

/// Cells along u and along v.
const STEPS: usize = 255;

const MAPPING: Mapping = Mapping::Reverse {
    offset: 65_534,
    steps: 65_535,
};

const TEXTURE: Texture = Texture::Spiral {
    spacing: 8.0,
    arms: 64,
};

/// The word that has this program try one depth.
pub const CHILD: &str = "--stack-child";

/// A call, and whether it was not refused.
type Call = Box<dyn FnMut() -> bool + Send>;

/// The name of a call, and what makes it ready.
type Named = (&'static str, fn() -> Call);

/// The calls that are measured, each on its largest inputs.
const CALLS: [Named; 13] = [
    ("new_vector", search),
    ("map_index", || {
        Box::new(|| MAPPING.map_index(65_535).is_ok())
    }),
    ("map_index_inv", || {
        Box::new(|| MAPPING.map_index_inv(65_535).is_ok())
    }),
    ("find_seams", seams),
    ("triangulate_seams", given_triangulation),
    ("triangulate_grid", triangulation),
    ("grid_paths", grid_lines),
    ("line_span and get", line),
    ("trace_flat", flat_trace),
    ("trace_samples", trace_of_records),
    ("plan", || Box::new(|| TEXTURE.plan(STEPS, STEPS).is_ok())),
    ("angle", || {
        Box::new(|| TEXTURE.angle(STEPS, STEPS, 63, 1).is_ok())
    }),
    ("sample_point", sample_point),
];

/// The call that the others are measured against.
const NOTHING: Named = ("nothing", || Box::new(|| true));

/// Prints the stack of each call.
pub fn run() -> ExitCode {
    match print() {
        Some(()) => ExitCode::SUCCESS,
        None => {
            println!("bench: the depth of the stack cannot be found");
            ExitCode::FAILURE
        }
    }
}

fn print() -> Option<()> {
    let (empty, frame) = deepest(NOTHING.0)?;
    println!("{:24} {:>12}", "stack, most", "bytes");
    for (call, _) in CALLS {
        let (depth, _) = deepest(call)?;
        println!("{call:24} {:12}", empty.saturating_sub(depth) * frame);
    }
    println!("in steps of {frame} bytes");
    Some(())
}

/// The most frames above a call, and the size of one.
fn deepest(call: &str) -> Option<(usize, usize)> {
    let (mut fits, mut over) = (0, TOO_DEEP);
    let mut size = tried(call, 2)?;
    while over - fits > 1 {
        let middle = usize::midpoint(fits, over);
        match tried(call, middle) {
            Some(frame) => (fits, size) = (middle, frame),
            None => over = middle,
        }
    }
    Some((fits, size))
}

/// The size of a frame, where the stack holds so many and the call.
fn tried(call: &str, depth: usize) -> Option<usize> {
    let output = Command::new(env::current_exe().ok()?)
        .args([CHILD, call, &depth.to_string()])
        .stderr(Stdio::null())
        .output()
        .ok()?;
    let told = String::from_utf8(output.stdout).ok()?;
    output.status.success().then(|| told.trim().parse().ok())?
}

/// Makes the call below so many frames, and prints the size of one.
pub fn child(mut words: impl Iterator<Item = String>) -> ExitCode {
    let call = words.next().and_then(|name| named(&name));
    let depth = words.next().and_then(|depth| depth.parse().ok());
    let (Some(mut call), Some(depth)) = (call, depth) else {
        return ExitCode::FAILURE;
    };
    let thread = thread::Builder::new()
        .stack_size(STACK)
        .spawn(move || descend(depth, 0, &mut *call));
    match thread.map(thread::JoinHandle::join) {
        Ok(Ok(frame)) => {
            println!("{frame}");
            ExitCode::SUCCESS
        }
        _ => ExitCode::FAILURE,
    }
}

fn named(name: &str) -> Option<Call> {
    let mut calls = CALLS.into_iter().chain([NOTHING]);
    calls.find(|call| call.0 == name).map(|(_, make)| make())
}

/// Goes down so many frames, makes the call, and hands back how far apart two frames are.
#[inline(never)]
fn descend(depth: usize, above: usize, call: &mut dyn FnMut() -> bool) -> usize {
    let place = black_box(0u8);
    let here = &raw const place as usize;
    if depth == 0 {
        assert!(call(), "the call is not refused");
        return above - here;
    }
    let frame = descend(depth - 1, here, call);
    black_box(&place);
    frame
}

/// Closed rows that fit at the last offset, their points far enough apart to be told apart.
fn search() -> Call {
    let steps = 65_535;
    let [a, b] = [0, 1].map(|shift| -> Vec<_> {
        let points = (0..=steps).flat_map(|j| circle(j + shift, steps));
        points.map(|x| 1e3 * x).collect()
    });
    Box::new(move || Mapping::new_vector(&a, &b, EPS).is_ok())
}

fn seams() -> Call {
    let grid = klein(STEPS);
    Box::new(move || find_seams(&grid, STEPS, STEPS, TOLERANCES).is_ok())
}

/// With the seams of the Klein bottle.
fn given_triangulation() -> Call {
    let (offset, steps) = (0, STEPS);
    let u = Some(Mapping::Reverse { offset, steps });
    let v = Some(Mapping::Forward { offset, steps });
    triangulated(move |grid, triangles, flipped| {
        triangulate_seams(grid, STEPS, STEPS, TOLERANCES, u, v, triangles, flipped).is_ok()
    })
}

fn triangulation() -> Call {
    triangulated(|grid, triangles, flipped| {
        triangulate_grid(grid, STEPS, STEPS, TOLERANCES, triangles, flipped).is_ok()
    })
}

/// A call that triangulates, with lists of its own.
fn triangulated(
    triangulate: impl Fn(&[f64], &mut [usize], &mut [usize]) -> bool + Send + 'static,
) -> Call {
    let (grid, mut triangles) = (klein(STEPS), vec![0; 6 * STEPS * STEPS]);
    let mut flipped = vec![0; 4 * STEPS];
    Box::new(move || triangulate(&grid, &mut triangles, &mut flipped))
}

fn grid_lines() -> Call {
    let points = 2 * (STEPS + 1) * (STEPS + 1);
    let (grid, mut points) = (klein(STEPS), vec![0.0; 3 * points]);
    let mut starts = vec![0; 2 * STEPS + 2];
    Box::new(move || grid_paths(&grid, STEPS, STEPS, &mut points, &mut starts).is_ok())
}

fn line() -> Call {
    let (points, starts) = (klein(STEPS), [0, 100]);
    Box::new(move || {
        let (points, starts) = (&points[..], &starts[..]);
        let drawn = Drawn {
            points: points.len() / 3,
            lines: 2,
        };
        let lines = Lines {
            points,
            starts,
            drawn,
        };
        lines.line_span(1).is_ok() && !lines.get(1).is_empty()
    })
}

fn flat_trace() -> Call {
    let (samples, marks) = (across(), vec![1; 100]);
    drawing(move |grid, lists| {
        let pairs = samples.as_flattened();
        trace_flat(grid, STEPS, STEPS, TOLERANCES, pairs, &marks, lists)
    })
}

fn trace_of_records() -> Call {
    let records = across().into_iter().map(|[u, v]| Sample::at(u, v));
    let records: Vec<_> = records.collect();
    drawing(move |grid, lists| trace_samples(grid, STEPS, STEPS, TOLERANCES, &records, lists))
}

/// 100 samples from corner to corner and back.
fn across() -> Vec<[f64; 2]> {
    let top = STEPS as f64;
    let ends = [[0.0, 0.1], [top, top - 0.2]];
    ends.into_iter().cycle().take(100).collect()
}

/// A call that traces these samples, with lists of its own.
fn drawing(
    trace: impl Fn(&[f64], TraceLists<'_>) -> Result<Drawn, Refusal> + Send + 'static,
) -> Call {
    let (grid, mut lists) = (klein(STEPS), Lists::new(1_024 * 100));
    Box::new(move || trace(&grid, lists.lend()).is_ok())
}

fn sample_point() -> Call {
    Box::new(|| {
        let point = TEXTURE.sample_point(STEPS, STEPS, 63, 1, [0.5, 0.5]);
        point.is_ok()
    })
}
