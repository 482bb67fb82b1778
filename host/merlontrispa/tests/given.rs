//! Seams that are given: which are taken, and what is refused when. The known results of Rules 3.5
//! and 4.5 are in `known_results.rs`; that each seam goes by its own tolerance is in `tolerances.rs`.

use merlontrispa::Mapping::{Forward, Reverse};
use merlontrispa::{
    EPS, Mapping, Refusal, Surface, Tolerances, find_seams, triangulate_grid, triangulate_seams,
};

/// Whether a surface takes these seams; if not, it says 14.
fn takes(surface: Surface<'_>, u: Option<Mapping>, v: Option<Mapping>) -> bool {
    match surface.triangulate_with(u, v) {
        Ok(_) => true,
        Err(refusal) => {
            assert_eq!(refusal, Refusal::Mapping);
            false
        }
    }
}

/// The same of a surface of M = 3 and N = 2 on which all points are one.
fn one_point_takes(u: Option<Mapping>, v: Option<Mapping>) -> bool {
    takes(Surface::new(&[0.0; 36], 3, 2).expect("a grid"), u, v)
}

/// The same of a u seam between columns of three steps on the x axis.
fn columns_take(a: [f64; 4], b: [f64; 4], mapping: Mapping) -> bool {
    let grid = [a, b].map(|xs| xs.map(|x| [x, 0.0, 0.0]));
    let surface = Surface::new(grid.as_flattened().as_flattened(), 1, 3).expect("a grid");
    takes(surface, Some(mapping), None)
}

fn both_ways(offset: usize, steps: usize) -> [Mapping; 2] {
    [Forward { offset, steps }, Reverse { offset, steps }]
}

#[test]
fn all_that_fit_are_taken_and_not_the_first_alone() {
    let [u_seams, v_seams] = [2, 3].map(|steps| {
        let mappings = (0..steps).flat_map(|offset| both_ways(offset, steps));
        mappings.map(Some).chain([None]).collect::<Vec<_>>()
    });
    for &u in &u_seams {
        for &v in &v_seams {
            assert!(one_point_takes(u, v), "{u:?} and {v:?}");
        }
    }
}

#[test]
fn steps_are_those_of_the_row_and_the_offset_is_below_them() {
    for steps in [0, 1, 2, 3, 4, 65_535, usize::MAX] {
        for offset in [0, 1, 2, 3, 4, usize::MAX] {
            for mapping in both_ways(offset, steps) {
                let u = one_point_takes(Some(mapping), None);
                let v = one_point_takes(None, Some(mapping));
                assert_eq!(u, steps == 2 && offset < 2, "{mapping:?} in u");
                assert_eq!(v, steps == 3 && offset < 3, "{mapping:?} in v");
            }
        }
    }
}

#[test]
fn each_point_is_compared_from_the_first_to_the_last() {
    let a = [0.0, 1.0, 2.0, 3.0];
    let [forward, reverse] = both_ways(0, 3);
    let turned = [3.0, 2.0, 1.0, 0.0];
    for (b, fits, other) in [(a, forward, reverse), (turned, reverse, forward)] {
        assert!(columns_take(a, b, fits));
        assert!(!columns_take(a, b, other));
        for j in 0..4 {
            let mut apart = b;
            apart[j] = 9.0;
            assert!(!columns_take(a, apart, fits), "{fits:?}, point {j} of b");
        }
    }
}

#[test]
fn off_0_the_rows_are_closed() {
    let a = [0.0, 1.0, 2.0, 0.0];
    for mapping in [1, 2].into_iter().flat_map(|offset| both_ways(offset, 3)) {
        let mut b = [0.0; 4];
        for j in 0..3 {
            b[mapping.map_index(j).expect("an index of a")] = a[j];
        }
        // No point of a is laid on the last one of b.
        b[3] = b[0];
        assert!(columns_take(a, b, mapping), "{mapping:?}");
        b[3] = 9.0;
        assert!(!columns_take(a, b, mapping), "{mapping:?}");
    }
}

#[test]
fn none_is_taken_where_a_seam_would_be_found() {
    let surface = Surface::new(&[0.0; 48], 3, 3).expect("a grid");
    let seams = surface.seams();
    assert!(seams.u.mapping.is_some() && seams.v.mapping.is_some());
    let mesh = surface.triangulate_with(None, None).expect("no seams");
    assert_eq!(mesh.triangles.len(), 18);
    assert_eq!(mesh.triangles.last(), Some(&[14, 15, 11]));
    assert_eq!(mesh.flipped, [[0; 2]; 0]);
}

/// What a triangulation into lists of so many places refuses with, and whether it left a 9 in each
/// place, as there was.
fn refused<T>(
    room: [usize; 2],
    triangulate: impl FnOnce(&mut [usize], &mut [usize]) -> Result<T, Refusal>,
) -> (Option<Refusal>, bool) {
    let [mut triangles, mut flipped] = room.map(|room| vec![9; room]);
    let answer = triangulate(&mut triangles, &mut flipped);
    let untouched = [triangles, flipped].concat().iter().all(|&n| n == 9);
    (answer.err(), untouched)
}

/// All refusals apply at first; then, one after the other, they do not.
#[test]
fn refusals_come_in_their_order() {
    let (zero, far) = ([0.0; 12], [f64::NAN; 12]);
    let eps = Tolerances::default();
    let no_line = Tolerances { line: 0.0, ..eps };
    let [four_steps, _] = both_ways(0, 4).map(Some);
    // The number, and then those of the two calls that take no seams.
    for (number, searched, in_turn, grid, m, tolerances, room, seam) in [
        (1, 1, 1, &far[..11], 256, no_line, [5, 3], four_steps),
        (2, 2, 2, &far[..11], 1, no_line, [5, 3], four_steps),
        (13, 13, 13, &far, 1, no_line, [5, 3], four_steps),
        (3, 4, 3, &far, 1, eps, [5, 4], four_steps),
        (3, 4, 3, &far, 1, eps, [6, 3], four_steps),
        (4, 4, 4, &far, 1, eps, [6, 4], four_steps),
        (14, 0, 0, &zero, 1, eps, [6, 4], four_steps),
        (0, 0, 0, &zero, 1, eps, [6, 4], None),
    ] {
        for (u, v) in [(seam, None), (None, seam), (seam, seam)] {
            let left = refused(room, |triangles, flipped| {
                triangulate_seams(grid, m, 1, tolerances, u, v, triangles, flipped)
            });
            assert_eq!(left, (Refusal::from_number(number), number != 0));
        }
        let seams = find_seams(grid, m, 1, tolerances);
        assert_eq!(seams.err(), Refusal::from_number(searched), "{number}");
        let left = refused(room, |triangles, flipped| {
            triangulate_grid(grid, m, 1, tolerances, triangles, flipped)
        });
        assert_eq!(left, (Refusal::from_number(in_turn), in_turn != 0));
    }
}

#[test]
fn a_finer_tolerance_refuses_what_was_found() {
    let columns = [0.0, 2.0, 4.0, 0.4, 2.0, 4.0, 0.4, 2.0].map(|x| [x, 0.0, 0.0]);
    let by = |u| Tolerances {
        u,
        ..Tolerances::default()
    };
    let grid = columns.as_flattened();
    let seams = find_seams(grid, 1, 3, by(0.5)).expect("seams");
    let (u, v) = (seams.u.mapping, seams.v.mapping);
    let [turned, _] = both_ways(2, 3);
    assert_eq!((u, v), (Some(turned), None));
    // The ends of a, and its first point and b's third, are 0.4 apart.
    for (tolerance, refusal) in [
        (0.5, None),
        (0.4_f64.next_up(), None),
        (0.4, Some(Refusal::Mapping)),
        (EPS, Some(Refusal::Mapping)),
    ] {
        let left = refused([18, 8], |triangles, flipped| {
            triangulate_seams(grid, 1, 3, by(tolerance), u, v, triangles, flipped)
        });
        assert_eq!(left, (refusal, refusal.is_some()), "{tolerance}");
    }
}
