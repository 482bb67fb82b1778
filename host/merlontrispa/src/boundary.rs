//! The functions of `crates/merlontrispa`, as C sees them. All `unsafe` of this workspace is here.
//!
//! A `safe fn` takes and hands back numbers only, so that no argument can break it. A function that
//! takes a slice takes its pointer and its length, and has its safe form below the declarations.
//!
//! `tests/declarations.rs` holds the structs and the functions to `crates`, from which the library is
//! built, as it does `include/merlontrispa.h`.

use crate::{Counts, Drawn, Lines, Mapping, Refusal, Sample, Tolerances, TraceLists, Vector};

/// An index, or the number of a refusal.
#[repr(C)]
pub struct IndexAnswer {
    pub refusal: u8,
    pub index: usize,
}

/// A seam's mapping, all zero where none was found, and the comparisons made.
#[repr(C)]
pub struct FoundSeam {
    pub found: bool,
    pub reverse: bool,
    pub offset: usize,
    pub steps: usize,
    pub comparisons: u64,
}

/// A seam, or the number of a refusal.
#[repr(C)]
pub struct RowsAnswer {
    pub refusal: u8,
    pub seam: FoundSeam,
}

/// Both seams, or the number of a refusal.
#[repr(C)]
pub struct SeamsAnswer {
    pub refusal: u8,
    pub u: FoundSeam,
    pub v: FoundSeam,
}

/// The counts of triangles and flipped pairs, or the number of a refusal.
#[repr(C)]
pub struct CountsAnswer {
    pub refusal: u8,
    pub triangles: usize,
    pub pairs: usize,
}

impl From<CountsAnswer> for Result<Counts, Refusal> {
    fn from(answer: CountsAnswer) -> Self {
        Refusal::check(answer.refusal)?;
        Ok(Counts {
            triangles: answer.triangles,
            flipped: answer.pairs,
        })
    }
}

/// Both seams and the counts of triangles and flipped pairs, or the number of a refusal.
#[repr(C)]
pub struct MeshAnswer {
    pub refusal: u8,
    pub u: FoundSeam,
    pub v: FoundSeam,
    pub triangles: usize,
    pub pairs: usize,
}

/// The counts of points and lines, or the number of a refusal.
#[repr(C)]
pub struct PathsAnswer {
    pub refusal: u8,
    pub points: usize,
    pub lines: usize,
}

impl From<PathsAnswer> for Result<Drawn, Refusal> {
    fn from(answer: PathsAnswer) -> Self {
        Refusal::check(answer.refusal)?;
        Ok(Drawn {
            points: answer.points,
            lines: answer.lines,
        })
    }
}

/// The point numbers at which a line starts and ends, or the number of a refusal.
#[repr(C)]
pub struct SpanAnswer {
    pub refusal: u8,
    pub start: usize,
    pub end: usize,
}

/// A part of a list: where it begins and how long it is, in numbers.
#[repr(C)]
pub struct Part {
    pub offset: usize,
    pub length: usize,
}

/// Rays and samples per ray, or the number of a refusal.
#[repr(C)]
pub struct RayCounts {
    pub refusal: u8,
    pub rays: usize,
    pub samples: usize,
}

/// The angle of a sample, or the number of a refusal.
#[repr(C)]
pub struct RayAngle {
    pub refusal: u8,
    pub angle: f64,
}

/// The point of a sample, or the number of a refusal.
#[repr(C)]
pub struct RayPoint {
    pub refusal: u8,
    pub u: f64,
    pub v: f64,
}

/// A Vector as C sees it.
#[repr(C)]
pub struct Components {
    pub x: f64,
    pub y: f64,
    pub z: f64,
}

impl From<Components> for Vector {
    fn from(Components { x, y, z }: Components) -> Self {
        Self { x, y, z }
    }
}

unsafe extern "C" {
    pub safe fn mt_plan(
        kind: u8,
        spacing: f64,
        twist: f64,
        arms: usize,
        m: usize,
        n: usize,
    ) -> RayCounts;
    pub safe fn mt_angle(
        kind: u8,
        spacing: f64,
        twist: f64,
        arms: usize,
        m: usize,
        n: usize,
        ray: usize,
        sample: usize,
    ) -> RayAngle;
    pub safe fn mt_sample_point(
        kind: u8,
        spacing: f64,
        twist: f64,
        arms: usize,
        m: usize,
        n: usize,
        ray: usize,
        sample: usize,
        cosine: f64,
        sine: f64,
    ) -> RayPoint;

    pub safe fn mt_abs(x: f64) -> f64;
    pub safe fn mt_is_finite(x: f64) -> bool;
    pub safe fn mt_at_most(x: f64, top: f64) -> bool;
    pub safe fn mt_max(x: f64, y: f64) -> f64;
    pub safe fn mt_clamp(x: f64, lo: f64, hi: f64) -> f64;
    pub safe fn mt_total_cmp(x: f64, y: f64) -> i32;
    pub safe fn mt_floor_i64(x: f64) -> i64;
    pub safe fn mt_ceil_i64(x: f64) -> i64;
    pub safe fn mt_round(x: f64) -> f64;
    pub safe fn mt_ceil(x: f64) -> f64;
    pub safe fn mt_to_usize(x: f64) -> usize;
    pub safe fn mt_to_f64(n: usize) -> f64;

    pub safe fn mt_vector_add(ax: f64, ay: f64, az: f64, bx: f64, by: f64, bz: f64) -> Components;
    pub safe fn mt_vector_sub(ax: f64, ay: f64, az: f64, bx: f64, by: f64, bz: f64) -> Components;
    pub safe fn mt_vector_mul_scalar(ax: f64, ay: f64, az: f64, s: f64) -> Components;
    pub safe fn mt_vector_all_close(
        ax: f64,
        ay: f64,
        az: f64,
        bx: f64,
        by: f64,
        bz: f64,
        tolerance: f64,
    ) -> bool;

    pub safe fn mt_is_reverse(reverse: bool, offset: usize, steps: usize) -> bool;
    pub safe fn mt_map_index(
        reverse: bool,
        offset: usize,
        steps: usize,
        a_idx: usize,
    ) -> IndexAnswer;
    pub safe fn mt_map_index_inv(
        reverse: bool,
        offset: usize,
        steps: usize,
        b_idx: usize,
    ) -> IndexAnswer;
    fn mt_new_vector(
        a: *const f64,
        a_len: usize,
        b: *const f64,
        b_len: usize,
        tolerance: f64,
    ) -> RowsAnswer;

    fn mt_grid_paths(
        grid: *const f64,
        grid_len: usize,
        m: usize,
        n: usize,
        points: *mut f64,
        points_len: usize,
        starts: *mut usize,
        starts_len: usize,
    ) -> PathsAnswer;
    fn mt_line_span(
        points: *const f64,
        points_len: usize,
        starts: *const usize,
        starts_len: usize,
        point_count: usize,
        line_count: usize,
        index: usize,
    ) -> SpanAnswer;
    fn mt_get(
        points: *const f64,
        points_len: usize,
        starts: *const usize,
        starts_len: usize,
        point_count: usize,
        line_count: usize,
        index: usize,
    ) -> Part;

    fn mt_find_seams(
        grid: *const f64,
        grid_len: usize,
        m: usize,
        n: usize,
        u_tolerance: f64,
        v_tolerance: f64,
        line_tolerance: f64,
    ) -> SeamsAnswer;
    fn mt_triangulate_seams(
        grid: *const f64,
        grid_len: usize,
        m: usize,
        n: usize,
        u_tolerance: f64,
        v_tolerance: f64,
        line_tolerance: f64,
        u_found: bool,
        u_reverse: bool,
        u_offset: usize,
        u_steps: usize,
        v_found: bool,
        v_reverse: bool,
        v_offset: usize,
        v_steps: usize,
        triangles: *mut usize,
        triangles_len: usize,
        flipped: *mut usize,
        flipped_len: usize,
    ) -> CountsAnswer;
    fn mt_triangulate_grid(
        grid: *const f64,
        grid_len: usize,
        m: usize,
        n: usize,
        u_tolerance: f64,
        v_tolerance: f64,
        line_tolerance: f64,
        triangles: *mut usize,
        triangles_len: usize,
        flipped: *mut usize,
        flipped_len: usize,
    ) -> MeshAnswer;

    fn mt_trace_flat(
        grid: *const f64,
        grid_len: usize,
        m: usize,
        n: usize,
        u_tolerance: f64,
        v_tolerance: f64,
        line_tolerance: f64,
        pairs: *const f64,
        pairs_len: usize,
        marks: *const u8,
        marks_len: usize,
        points: *mut f64,
        points_len: usize,
        starts: *mut usize,
        starts_len: usize,
        sides: *mut usize,
        sides_len: usize,
        fractions: *mut f64,
        fractions_len: usize,
        samples: *mut usize,
        samples_len: usize,
    ) -> PathsAnswer;

    fn mt_trace_samples(
        grid: *const f64,
        grid_len: usize,
        m: usize,
        n: usize,
        u_tolerance: f64,
        v_tolerance: f64,
        line_tolerance: f64,
        records: *const Sample,
        records_len: usize,
        points: *mut f64,
        points_len: usize,
        starts: *mut usize,
        starts_len: usize,
        sides: *mut usize,
        sides_len: usize,
        fractions: *mut f64,
        fractions_len: usize,
        samples: *mut usize,
        samples_len: usize,
    ) -> PathsAnswer;
}

/// Calls a function of the library with lists that it reads, numbers, lists that it reads, and
/// lists that it writes, in this order; each list goes in as its pointer and its length.
macro_rules! call {
    ($function:ident(
        $($read:ident),*
        $(; $($number:expr),* $(; $($then_read:ident),*; $($written:ident),*)?)?
    )) => {
        // SAFETY: each pointer and length are those of one slice, which is lent for the call. A
        // slice that is written is a mutable one, so that no other overlaps it. The elements are
        // numbers, or structs that are laid out as C lays out their fields.
        unsafe {
            $function(
                $($read.as_ptr(), $read.len(),)*
                $($($number,)* $(
                    $($then_read.as_ptr(), $then_read.len(),)*
                    $($written.as_mut_ptr(), $written.len(),)*
                )?)?
            )
        }
    };
}

pub fn new_vector(a: &[f64], b: &[f64], tolerance: f64) -> RowsAnswer {
    call!(mt_new_vector(a, b; tolerance))
}

pub fn grid_paths(
    grid: &[f64],
    m: usize,
    n: usize,
    points: &mut [f64],
    starts: &mut [usize],
) -> PathsAnswer {
    call!(mt_grid_paths(grid; m, n; ; points, starts))
}

pub fn line_span(lines: Lines<'_>, index: usize) -> SpanAnswer {
    let (points, starts, drawn) = (lines.points, lines.starts, lines.drawn);
    call!(mt_line_span(points, starts; drawn.points, drawn.lines, index))
}

pub fn get(lines: Lines<'_>, index: usize) -> Part {
    let (points, starts, drawn) = (lines.points, lines.starts, lines.drawn);
    call!(mt_get(points, starts; drawn.points, drawn.lines, index))
}

pub fn find_seams(grid: &[f64], m: usize, n: usize, tolerances: Tolerances) -> SeamsAnswer {
    let Tolerances { u, v, line } = tolerances;
    call!(mt_find_seams(grid; m, n, u, v, line))
}

/// A seam as it goes in: whether there is one, its direction, offset and steps.
fn given(seam: Option<Mapping>) -> (bool, bool, usize, usize) {
    let (reverse, offset, steps) = seam.map_or((false, 0, 0), Mapping::parts);
    (seam.is_some(), reverse, offset, steps)
}

pub fn triangulate_seams(
    grid: &[f64],
    m: usize,
    n: usize,
    tolerances: Tolerances,
    seams: [Option<Mapping>; 2],
    triangles: &mut [usize],
    flipped: &mut [usize],
) -> CountsAnswer {
    let Tolerances { u, v, line } = tolerances;
    let [
        (u_found, u_reverse, u_offset, u_steps),
        (v_found, v_reverse, v_offset, v_steps),
    ] = seams.map(given);
    call!(mt_triangulate_seams(
        grid;
        m, n, u, v, line,
        u_found, u_reverse, u_offset, u_steps, v_found, v_reverse, v_offset, v_steps;
        ; triangles, flipped
    ))
}

pub fn triangulate_grid(
    grid: &[f64],
    m: usize,
    n: usize,
    tolerances: Tolerances,
    triangles: &mut [usize],
    flipped: &mut [usize],
) -> MeshAnswer {
    let Tolerances { u, v, line } = tolerances;
    call!(mt_triangulate_grid(grid; m, n, u, v, line; ; triangles, flipped))
}

pub fn trace_flat(
    grid: &[f64],
    m: usize,
    n: usize,
    tolerances: Tolerances,
    pairs: &[f64],
    marks: &[u8],
    lists: TraceLists<'_>,
) -> PathsAnswer {
    let Tolerances { u, v, line } = tolerances;
    let TraceLists {
        points,
        starts,
        sides,
        fractions,
        samples,
    } = lists;
    call!(mt_trace_flat(
        grid; m, n, u, v, line; pairs, marks; points, starts, sides, fractions, samples
    ))
}

pub fn trace_samples(
    grid: &[f64],
    m: usize,
    n: usize,
    tolerances: Tolerances,
    records: &[Sample],
    lists: TraceLists<'_>,
) -> PathsAnswer {
    let Tolerances { u, v, line } = tolerances;
    let TraceLists {
        points,
        starts,
        sides,
        fractions,
        samples,
    } = lists;
    call!(mt_trace_samples(
        grid; m, n, u, v, line; records; points, starts, sides, fractions, samples
    ))
}

#[cfg(test)]
mod tests {
    use super::*;
    use crate::EPS;

    fn is_zero(seam: FoundSeam) -> bool {
        let numbers = (seam.offset, seam.steps, seam.comparisons);
        !seam.found && !seam.reverse && numbers == (0, 0, 0)
    }

    /// All corners are one point, so that both seams would be found.
    #[test]
    fn a_refused_answer_has_zero_seams() {
        let far = [f64::NAN; 12];
        for (number, grid, steps, line, room) in [
            (1, &[0.0; 12][..], 256, EPS, 6),
            (2, &[0.0; 11], 1, EPS, 6),
            (13, &[0.0; 12], 1, 0.0, 6),
            (3, &[0.0; 12], 1, EPS, 5),
            (4, &far, 1, EPS, 6),
        ] {
            let (mut triangles, mut flipped) = (vec![7; room], [7; 4]);
            let (t, f) = (&mut triangles, &mut flipped);
            let tolerances = Tolerances {
                line,
                ..Tolerances::default()
            };
            let answer = triangulate_grid(grid, steps, 1, tolerances, t, f);
            assert_eq!(answer.refusal, number);
            assert!(is_zero(answer.u) && is_zero(answer.v), "{number}");
            assert_eq!((answer.triangles, answer.pairs), (0, 0), "{number}");
            let counts = triangulate_seams(grid, steps, 1, tolerances, [None; 2], t, f);
            assert_eq!(counts.refusal, number);
            assert_eq!((counts.triangles, counts.pairs), (0, 0), "{number}");
            let seams = find_seams(grid, steps, 1, tolerances);
            // It asks for no room.
            if number != 3 {
                assert_eq!(seams.refusal, number);
                assert!(is_zero(seams.u) && is_zero(seams.v), "{number}");
            }
        }
        let (offset, steps) = (0, 2);
        let other = Some(Mapping::Forward { offset, steps });
        let (triangles, flipped) = (&mut [7; 6], &mut [7; 4]);
        for seams in [[other, None], [None, other]] {
            let tolerances = Tolerances::default();
            let counts = triangulate_seams(&[0.0; 12], 1, 1, tolerances, seams, triangles, flipped);
            assert_eq!((counts.refusal, counts.triangles, counts.pairs), (14, 0, 0));
        }
        for (number, row, tolerance) in [
            (2, &[0.0; 7][..], EPS),
            (13, &[0.0; 12], 0.0),
            (4, &far, EPS),
        ] {
            let answer = new_vector(&[0.0; 12], row, tolerance);
            assert_eq!(answer.refusal, number);
            assert!(is_zero(answer.seam), "{number}");
        }
    }
}
