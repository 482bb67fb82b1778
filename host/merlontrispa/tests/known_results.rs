//! The known results of Rules 3, 4, 6 and 7, on the library: each that an open call can show. Of
//! `host/original/tests`, `known_results.rs` and `given.rs` have the same ones on the original. Those
//! of Rules 2, on tolerances, are in `tolerances.rs`; of Rules 12 the order of 12.2 is here.

use merlontrispa::Mapping::{Forward, Reverse};
use merlontrispa::{
    Drawn, EPS, Mapping, Refusal, Seam, Surface, Tolerances, TraceLists, float, trace_flat,
};
use std::cmp::Ordering;

/// One cell, flat, so that nothing joins.
const CELL: [f64; 12] = [0.0, 0.0, 0.0, 0.0, 1.0, 0.0, 1.0, 0.0, 0.0, 1.0, 1.0, 0.0];

/// The seam of two rows on the x axis.
fn search(a: &[f64], b: &[f64]) -> Seam {
    let [a, b] = [a, b].map(|xs| xs.iter().flat_map(|&x| [x, 0.0, 0.0]).collect::<Vec<_>>());
    Mapping::new_vector(&a, &b, EPS).expect("two rows")
}

#[test]
fn mappings() {
    let (offset, steps) = (1, 4);
    assert_eq!(Forward { offset, steps }.map_index(4), Ok(1));
    assert_eq!(Forward { offset, steps }.map_index_inv(0), Ok(3));
    assert_eq!(Reverse { offset: 0, steps }.map_index_inv(1), Ok(3));
    assert_eq!(Reverse { offset, steps }.map_index_inv(2), Ok(3));
    assert_eq!(Reverse { offset, steps }.map_index_inv(4), Ok(1));
}

#[test]
fn searches() {
    let steps = 3;
    let reversed = search(&[0.0, 1.0, 2.0, 3.0], &[3.0, 2.0, 1.0, 0.0]);
    assert_eq!(reversed.mapping, Some(Reverse { offset: 0, steps }));
    let turned = search(&[0.0, 1.0, 2.0, 0.0], &[1.0, 2.0, 0.0, 1.0]);
    assert_eq!(turned.mapping, Some(Forward { offset: 2, steps }));
    assert_eq!(turned.comparisons, 10);
    let open = search(&[0.0, 1.0, 2.0], &[1.0, 2.0, 3.0]);
    assert_eq!((open.mapping, open.comparisons), (None, 3));
}

#[test]
fn triangles_of_a_cell() {
    let mesh = Surface::new(&CELL, 1, 1).expect("a grid").triangulate();
    assert_eq!(mesh.triangles, [[0, 2, 1], [2, 3, 1]]);
    assert_eq!(mesh.flipped, [[0; 2]; 0]);
}

#[test]
fn flipped_pairs_of_a_twisted_band() {
    // Column u = 3 runs against column u = 0; rows v = 0 and v = 3 have nothing in common.
    let point = |u: usize, v: usize| match u {
        0 => [v as f64, 0.0, 0.0],
        3 => [3.0 - v as f64, 0.0, 0.0],
        _ => [v as f64, u as f64, 1.0],
    };
    let grid: Vec<_> = (0..16).flat_map(|i| point(i / 4, i % 4)).collect();
    let mesh = Surface::new(&grid, 3, 3).expect("a grid").triangulate();
    let (offset, steps) = (0, 3);
    assert_eq!(mesh.seams.u.mapping, Some(Reverse { offset, steps }));
    assert_eq!(mesh.seams.v.mapping, None);
    assert_eq!(mesh.flipped, [[0, 17], [2, 15], [4, 13]]);
}

/// Whether the columns of a grid of M = 1 and N = 3, on the x axis, are joined by Forward(2, 3).
fn joined(a: [f64; 4], b: [f64; 4], tolerance: f64) -> Result<(), Refusal> {
    let grid = [a, b].map(|xs| xs.map(|x| [x, 0.0, 0.0]));
    let surface = Surface::new(grid.as_flattened().as_flattened(), 1, 3).expect("a grid");
    let tolerances = Tolerances {
        u: tolerance,
        ..Tolerances::default()
    };
    let surface = surface.with_tolerances(tolerances).expect("tolerances");
    let (offset, steps) = (2, 3);
    let mesh = surface.triangulate_with(Some(Forward { offset, steps }), None);
    mesh.map(|_| ())
}

#[test]
fn given_seams() {
    let cell = Surface::new(&CELL, 1, 1).expect("a grid");
    let mesh = cell.triangulate_with(None, None).expect("no seams");
    assert_eq!(mesh.triangles, [[0, 2, 1], [2, 3, 1]]);

    // All points are one, so that all that has the steps of its row fits.
    let one_point = Surface::new(&[0.0; 48], 3, 3).expect("a grid");
    let (offset, steps) = (0, 3);
    let mesh = one_point.triangulate_with(Some(Reverse { offset, steps }), None);
    let mesh = mesh.expect("a mapping that fits");
    assert_eq!(mesh.flipped, [[0, 17], [2, 15], [4, 13]]);
    for no_mapping in [Forward { offset, steps: 4 }, Forward { offset: 3, steps }] {
        for (u, v) in [(Some(no_mapping), None), (None, Some(no_mapping))] {
            let refused = one_point.triangulate_with(u, v);
            assert_eq!(refused.map_err(Refusal::number), Err(14), "{no_mapping:?}");
        }
    }
}

#[test]
fn given_seams_off_0_are_of_closed_rows() {
    let ring = [0.0, 1.0, 2.0, 0.0];
    assert_eq!(joined(ring, [1.0, 2.0, 0.0, 1.0], EPS), Ok(()));
    // Each point fits, since the last one of b is none's partner; but b is open.
    assert_eq!(
        joined(ring, [1.0, 2.0, 0.0, 9.0], EPS),
        Err(Refusal::Mapping)
    );
    // Each point fits, the ends of a both 0.4 from theirs; but a is open.
    let b = [2.0, 4.0, 0.4, 2.0];
    assert_eq!(joined([0.0, 2.0, 4.0, 0.8], b, 0.5), Err(Refusal::Mapping));
    assert_eq!(joined([0.0, 2.0, 4.0, 0.4], b, 0.5), Ok(()));
}

#[test]
fn sides_of_a_trace() {
    let surface = Surface::new(&CELL, 1, 1).expect("a grid");
    let trace = surface.trace(&[Some([0.0, 0.25]), Some([0.75, 0.25])]);
    let trace = trace.expect("a trace");
    assert_eq!(trace.sides, [[0, 1], [2, 1]]);
    assert_eq!(trace.fractions, [0.25, 0.25]);
}

#[test]
fn samples_of_a_trace() {
    let surface = Surface::new(&CELL, 1, 1).expect("a grid");
    let samples = |curve: &[_]| surface.trace(curve).expect("a trace").samples;
    let (from, to) = (Some([0.0, 0.25]), Some([0.75, 0.25]));
    assert_eq!(samples(&[from, to, Some([1.0, 0.25])]), [1, 1, 2]);
    // A break has a number too.
    let (next_from, next_to) = (Some([0.0, 0.75]), Some([1.0, 0.75]));
    let curve = [from, to, None, next_from, next_to];
    assert_eq!(samples(&curve), [1, 1, 4, 4, 4]);
    // The second leg makes the first point again, which is left out.
    assert_eq!(samples(&[from, from, to]), [1, 2]);
}

/// What a curve from one point to another answers and leaves in lists for so many points, which had a 9
/// in each place; the list of samples has room of its own.
fn traced_with(
    from: [f64; 2],
    to: [f64; 2],
    room: usize,
    samples_room: usize,
) -> (Result<Drawn, Refusal>, Vec<f64>) {
    let (mut points, mut starts) = (vec![9.0; 3 * room], vec![9; room]);
    let (mut sides, mut fractions) = (vec![9; 2 * room], vec![9.0; room]);
    let mut samples = vec![9; samples_room];
    let lists = TraceLists {
        points: &mut points,
        starts: &mut starts,
        sides: &mut sides,
        fractions: &mut fractions,
        samples: &mut samples,
    };
    let (tolerances, pairs) = (Tolerances::default(), [from, to]);
    let answer = trace_flat(
        &CELL,
        1,
        1,
        tolerances,
        pairs.as_flattened(),
        &[1, 1],
        lists,
    );
    let numbers = starts.iter().chain(&sides).chain(&samples);
    let numbers = numbers.map(|&number| number as f64);
    let left = points.iter().chain(&fractions).copied().chain(numbers);
    (answer, left.collect())
}

/// The same where each list has room for so many points.
fn traced(from: [f64; 2], to: [f64; 2], room: usize) -> (Result<Drawn, Refusal>, Vec<f64>) {
    traced_with(from, to, room, room)
}

#[test]
fn a_full_list_of_samples_leaves_all_five_zero() {
    let (from, to) = ([0.0, 0.25], [0.75, 0.25]);
    let full = traced_with(from, to, 8, 1);
    assert_eq!(full, (Err(Refusal::Full), vec![0.0; 8 * 7 + 1]));
    let drawn = Drawn {
        points: 2,
        lines: 1,
    };
    assert_eq!(traced_with(from, to, 8, 2).0, Ok(drawn));
}

#[test]
fn one_event_is_no_line() {
    let (from, to) = ([0.25, 0.25], [0.75, 0.75]);
    let drawn = Drawn {
        points: 0,
        lines: 0,
    };
    // One point is pushed: it asks for room, and more than it is not asked for.
    assert_eq!(traced(from, to, 0), (Err(Refusal::Full), vec![]));
    assert_eq!(traced(from, to, 1), (Ok(drawn), vec![0.0; 8]));
}

#[test]
fn a_step_that_is_not_there_is_refused() {
    let (from, to) = ([1.0, 1_048_576.0], [1.0, 1.0 + EPS]);
    assert_eq!(
        traced(from, to, 8),
        (Err(Refusal::NoStep), vec![0.0; 8 * 8])
    );
    let surface = Surface::new(&CELL, 1, 1).expect("a grid");
    let refused = surface.trace(&[Some(from), Some(to)]);
    assert_eq!(refused.map_err(Refusal::number), Err(11));
}

#[test]
fn so_many_steps_and_no_more() {
    let flat = |m: usize, n: usize| vec![0.0; 3 * (m + 1) * (n + 1)];
    for [m, n] in [[255, 1], [1, 255], [255, 255]] {
        assert!(Surface::new(&flat(m, n), m, n).is_ok(), "{m} by {n}");
    }
    for [m, n] in [[256, 1], [1, 256], [256, 255]] {
        let refused = Surface::new(&flat(m, n), m, n).map(|_| ());
        assert_eq!(refused.map_err(Refusal::number), Err(1), "{m} by {n}");
    }
}

#[test]
fn numbers_in_the_total_order() {
    let rising = [0.0, 5e-324, f64::MIN_POSITIVE, 1.0, f64::MAX, f64::INFINITY];
    let falling = rising.map(|x| -x);
    let ordered: Vec<f64> = falling.into_iter().rev().chain(rising).collect();
    for (i, &x) in ordered.iter().enumerate() {
        for (j, &y) in ordered.iter().enumerate() {
            assert_eq!(float::total_cmp(x, y), i.cmp(&j), "{x} and {y}");
        }
    }
}

/// Of a NaN there is an answer, which makes no order.
#[test]
fn a_nan_counts_as_positive_in_the_total_order() {
    for x in [0.0, 1.0, f64::INFINITY, f64::NAN] {
        assert_eq!(float::total_cmp(f64::NAN, x), Ordering::Equal, "{x}");
        assert_eq!(float::total_cmp(x, f64::NAN), Ordering::Equal, "{x}");
    }
    for x in [-0.0, -1.0, f64::NEG_INFINITY] {
        assert_eq!(float::total_cmp(f64::NAN, x), Ordering::Greater, "{x}");
        assert_eq!(float::total_cmp(x, f64::NAN), Ordering::Less, "{x}");
    }
}
