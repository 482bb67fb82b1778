//! The original with seams that are given: the known results of Rules 3 and 4, and with the seams that
//! it finds what the unchanged one answers.
#![cfg(larnt)]

use original::CyclicMapping::{Forward, Reverse};
use original::edited::{self, finds};
use original::given::triangulated;
use original::{CyclicMapping, Surface, search, vectors};

/// Whether a mapping fits rows of these x at a tolerance.
fn fits(a: &[f64], b: &[f64], mapping: CyclicMapping, tolerance: f64) -> bool {
    let [a, b] = [a, b].map(|xs| {
        let numbers: Vec<_> = xs.iter().flat_map(|&x| [x, 0.0, 0.0]).collect();
        edited::vectors(&numbers)
    });
    finds(&a, &b, mapping, tolerance)
}

#[test]
fn mappings_that_fit() {
    let (a, b) = ([0.0, 1.0, 2.0, 0.0], [1.0, 2.0, 0.0, 1.0]);
    assert!(fits(&a, &b, Forward(2, 3), 1e-9));
    for other in [Forward(0, 3), Forward(1, 3), Reverse(2, 3), Forward(2, 4)] {
        assert!(!fits(&a, &b, other, 1e-9), "{other:?}");
    }
    // Each point is close to its image, and row b is open; then row a is.
    assert!(!fits(&a, &[1.0, 2.0, 0.0, 9.0], Forward(2, 3), 1e-9));
    let (a, b) = ([0.0, 2.0, 4.0, 0.8], [2.0, 4.0, 0.4, 2.0]);
    assert!(!fits(&a, &b, Forward(2, 3), 0.5));
    assert!(fits(&a, &b, Forward(2, 3), 1.0));
}

/// Where all points are equal each mapping of the rows fits, and no other does.
#[test]
fn mappings_of_equal_points() {
    let row = [0.0; 4];
    for offset in 0..3 {
        assert!(fits(&row, &row, Forward(offset, 3), 1e-9), "{offset}");
        assert!(fits(&row, &row, Reverse(offset, 3), 1e-9), "{offset}");
    }
    for other in [
        Forward(3, 3),
        Forward(0, 4),
        Reverse(0, 2),
        Forward(0, 0),
        Reverse(usize::MAX, usize::MAX),
    ] {
        assert!(!fits(&row, &row, other, 1e-9), "{other:?}");
    }
}

#[test]
fn triangles_and_pairs() {
    let zeros = |points: usize| vectors(&vec![0.0; 3 * points]);
    let cell = triangulated(zeros(4), 1, 1, None, None);
    assert_eq!(cell, (vec![0, 2, 1, 2, 3, 1], vec![]));
    let (triangles, flipped) = triangulated(zeros(16), 3, 3, Some(Reverse(0, 3)), None);
    assert_eq!(triangles.len(), 3 * 18);
    assert_eq!(flipped, [(0, 17), (2, 15), (4, 13)]);
}

/// Grids over two letters: many have seams, at offsets too.
#[test]
fn seams_that_are_found_make_the_unchanged_triangulation() {
    let mut joined = 0;
    for word in 0..1u32 << 12 {
        for (m, n) in [(2, 3), (3, 2)] {
            let letter = |place: usize| f64::from(word >> place & 1);
            let grid: Vec<_> = (0..12).flat_map(|i| [letter(i), 0.0, 0.0]).collect();
            let points = vectors(&grid);
            let column = |u: usize| points[u * (n + 1)..][..=n].to_vec();
            let row = |v: usize| -> Vec<_> { points[v..].iter().step_by(n + 1).copied().collect() };
            let (u, _) = search(&column(0), &column(m));
            let (v, _) = search(&row(0), &row(n));
            let unchanged = Surface::from_grid(points.clone(), m, n);
            let (triangles, flipped) = triangulated(points, m, n, u, v);
            assert_eq!(triangles, unchanged.triangles());
            assert_eq!(flipped, unchanged.flipped());
            joined += u32::from(u.is_some() && v.is_some());
        }
    }
    assert!(joined > 100, "{joined}");
}
