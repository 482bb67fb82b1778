//! The known results of Rules 3, 4, 6 and 7, on the original.
#![cfg(larnt)]

use original::CyclicMapping::{Forward, Reverse};
use original::{CyclicMapping, Sample, Side, Surface, Vector, step_index};

const EPS: f64 = 1e-9;

fn row(xs: &[f64]) -> Vec<Vector> {
    xs.iter().map(|&x| Vector::new(x, 0.0, 0.0)).collect()
}

fn search(a: &[f64], b: &[f64]) -> (Option<(char, usize, usize)>, u64) {
    let (found, comparisons) = original::search(&row(a), &row(b));
    let found = found.map(|mapping| match mapping {
        CyclicMapping::Forward(offset, steps) => ('F', offset, steps),
        CyclicMapping::Reverse(offset, steps) => ('R', offset, steps),
    });
    (found, comparisons)
}

/// One cell, flat, so that nothing joins.
fn cell() -> Surface {
    let grid = (0..4).map(|i| Vector::new((i / 2) as f64, (i % 2) as f64, 0.0));
    Surface::from_grid(grid.collect(), 1, 1)
}

#[test]
fn steps() {
    assert_eq!(step_index(4.0, 4), Some((3, 1.0)));
    assert_eq!(step_index(-EPS, 4), Some((0, 0.0)));
    assert_eq!(step_index(0.0, 0), None);
}

#[test]
fn mappings() {
    assert_eq!(Forward(1, 4).map_index(4), 1);
    assert_eq!(Forward(1, 4).map_index_inv(0), 3);
    assert_eq!(Reverse(0, 4).map_index_inv(1), 3);
    assert_eq!(Reverse(1, 4).map_index_inv(2), 3);
    assert_eq!(Reverse(1, 4).map_index_inv(4), 1);
}

#[test]
fn searches() {
    let reversed = search(&[0.0, 1.0, 2.0, 3.0], &[3.0, 2.0, 1.0, 0.0]);
    assert_eq!(reversed.0, Some(('R', 0, 3)));
    let turned = search(&[0.0, 1.0, 2.0, 0.0], &[1.0, 2.0, 0.0, 1.0]);
    assert_eq!(turned, (Some(('F', 2, 3)), 10));
    let open = search(&[0.0, 1.0, 2.0], &[1.0, 2.0, 3.0]);
    assert_eq!(open, (None, 3));
}

#[test]
fn triangles_of_a_cell() {
    assert_eq!(cell().triangles(), [0, 2, 1, 2, 3, 1]);
    assert_eq!(cell().flipped(), []);
}

#[test]
fn flipped_pairs_of_a_twisted_band() {
    // Column u = 3 runs against column u = 0; rows v = 0 and v = 3 have nothing in common.
    let point = |u: usize, v: usize| match u {
        0 => Vector::new(v as f64, 0.0, 0.0),
        3 => Vector::new(3.0 - v as f64, 0.0, 0.0),
        _ => Vector::new(v as f64, u as f64, 1.0),
    };
    let grid = (0..16).map(|i| point(i / 4, i % 4)).collect();
    let flipped = Surface::from_grid(grid, 3, 3).flipped();
    assert_eq!(flipped, [(0, 17), (2, 15), (4, 13)]);
}

/// p, q and t of each event of a walk.
fn sides(samples: &[Sample]) -> Vec<(usize, usize, f64)> {
    let sides = cell().walk(samples).made.into_iter().map(|made| {
        let (_, side) = made.point.expect("no panic");
        (side.p, side.q, side.t)
    });
    sides.collect()
}

#[test]
fn sides_of_a_trace() {
    let samples: [Sample; 2] = [Some((0.0, 0.25)), Some((0.75, 0.25))];
    assert_eq!(sides(&samples), [(0, 1, 0.25), (2, 1, 0.25)]);
    assert_eq!(
        cell().trace(&samples).map(|paths| paths.total_len()),
        Some(2)
    );
}

/// The numbers of the samples at the ends of the legs that made the points of a trace.
fn numbers(samples: &[Sample]) -> Vec<usize> {
    let kept = cell().walk(samples).kept;
    kept.iter().map(|made| made.sample).collect()
}

#[test]
fn samples_of_a_trace() {
    let [from, to] = [Some((0.0, 0.25)), Some((0.75, 0.25))];
    assert_eq!(numbers(&[from, to, Some((1.0, 0.25))]), [1, 1, 2]);
    let [next_from, next_to] = [Some((0.0, 0.75)), Some((1.0, 0.75))];
    let curve = [from, to, None, next_from, next_to];
    assert_eq!(numbers(&curve), [1, 1, 4, 4, 4]);
    assert_eq!(numbers(&[from, from, to]), [1, 2]);
}

/// A point has the number of the leg that makes it where it is alone: the walk of that leg.
#[test]
fn each_leg_makes_the_points_of_its_number() {
    let curve: [Sample; 8] = [
        None,
        Some((0.0, 0.25)),
        Some((0.0, 0.25)),
        Some((0.75, 0.25)),
        None,
        None,
        Some((-0.5, 0.5)),
        Some((1.5, 0.75)),
    ];
    let sides = |samples: &[Sample], number: Option<usize>| -> Vec<Option<Side>> {
        let made = cell().walk(samples).made.into_iter();
        let made = made.filter(|made| number.is_none_or(|number| made.sample == number));
        made.map(|made| Some(made.point?.1)).collect()
    };
    for number in 1..curve.len() {
        let leg = &curve[number - 1..=number];
        assert_eq!(sides(&curve, Some(number)), sides(leg, None), "{number}");
    }
}

/// V(0) at -0 comes before U(0) at 0, which is less than EPS from it and dropped.
#[test]
fn an_event_at_minus_zero_is_the_first() {
    let samples: [Sample; 2] = [Some((0.0, 0.0)), Some((0.5, -0.5))];
    assert_eq!(sides(&samples), [(0, 2, 0.0)]);
}

#[test]
fn one_event_is_no_line() {
    let samples: [Sample; 2] = [Some((0.25, 0.25)), Some((0.75, 0.75))];
    assert_eq!(cell().trace(&samples).map(|paths| paths.len()), Some(0));
}

#[test]
fn a_step_that_is_not_there_panics() {
    let samples: [Sample; 2] = [Some((1.0, 1048576.0)), Some((1.0, 1.0 + EPS))];
    assert!(cell().trace(&samples).is_none());
    let walk = cell().walk(&samples);
    assert!(walk.made.iter().any(|made| made.point.is_none()));
}
