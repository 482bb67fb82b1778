//! The edited original: the known results of Rules 3 and 7 at tolerances, and at EPS three times what
//! the unchanged one answers.
#![cfg(larnt)]

use original::edited::{self, Tolerances, at};
use original::{CyclicMapping, Paths, Sample, Surface, vectors};

const EPS: f64 = 1e-9;

const EVERY_EPS: Tolerances = Tolerances {
    u: EPS,
    v: EPS,
    line: EPS,
};

/// A mapping as whether it is reversed, its offset and its steps.
type Found = Option<(bool, usize, usize)>;

fn parts(mapping: Option<CyclicMapping>) -> Found {
    mapping.map(|mapping| match mapping {
        CyclicMapping::Forward(offset, steps) => (false, offset, steps),
        CyclicMapping::Reverse(offset, steps) => (true, offset, steps),
    })
}

/// What is found between rows of these x at a tolerance, and the comparisons.
fn search(a: &[f64], b: &[f64], tolerance: f64) -> (Found, u64) {
    let [a, b] = [a, b].map(|xs| {
        let numbers: Vec<_> = xs.iter().flat_map(|&x| [x, 0.0, 0.0]).collect();
        edited::vectors(&numbers)
    });
    let (found, comparisons) = edited::search(&a, &b, tolerance);
    let alone = edited::new_vector(&a, &b, tolerance);
    assert_eq!(parts(alone), parts(found), "the same search");
    (parts(found), comparisons)
}

#[test]
fn searches() {
    let (a, b) = ([0.0, 1.0, 2.0, 3.0], [3.25, 2.25, 1.25, 0.25]);
    assert_eq!(search(&a, &b, 0.25), (None, 3));
    for tolerance in [0.25f64.next_up(), 1.0] {
        assert_eq!(search(&a, &b, tolerance), (Some((true, 0, 3)), 6));
    }
    let (a, b) = ([0.0, 1.0, 2.0, 0.4], [1.0, 2.0, 0.0, 1.4]);
    assert_eq!(search(&a, &b, 0.5), (Some((false, 2, 3)), 10));
    assert_eq!(search(&a, &b, 0.4), (None, 3));
}

#[test]
fn closeness_takes_any_tolerance() {
    let [p, q] = [0.0, 0.25].map(|x| edited::Vector::new(x, 0.0, 0.0));
    for (tolerance, close) in [(0.25, false), (0.25f64.next_up(), true)] {
        assert_eq!(p.all_close(q, tolerance), close);
    }
    for tolerance in [0.0, -0.0, -1.0, f64::NEG_INFINITY, f64::NAN] {
        assert!(!p.all_close(p, tolerance), "{tolerance}");
    }
    assert!(p.all_close(p, 5e-324) && p.all_close(q, f64::INFINITY));
}

fn samples(curve: &[[f64; 2]]) -> Vec<Sample> {
    curve.iter().map(|&[u, v]| Some((u, v))).collect()
}

/// How many points a trace on the unit square has at a line tolerance; the other two are no part
/// of it.
fn drawn(curve: &[[f64; 2]], line: f64) -> usize {
    let square = [0.0, 0.0, 0.0, 0.0, 1.0, 0.0, 1.0, 0.0, 0.0, 1.0, 1.0, 0.0];
    let tolerances = Tolerances {
        line,
        u: f64::NAN,
        v: f64::NAN,
    };
    at(tolerances, || {
        let surface = edited::Surface::from_grid(edited::vectors(&square), 1, 1);
        let paths = surface.trace(&samples(curve)).expect("no panic");
        assert_eq!(surface.walk(&samples(curve)).kept.len(), paths.total_len());
        paths.total_len()
    })
}

#[test]
fn points_of_a_line() {
    let curve = [[0.0, 0.25], [0.75, 0.25], [1.0, 0.25]];
    assert_eq!(drawn(&curve, 0.25), 3);
    assert_eq!(drawn(&curve, 0.5), 2);
}

/// Each seam has its own tolerance: a square whose opposite sides are a half apart in u, a quarter in
/// v.
#[test]
fn seams_of_a_surface() {
    let grid = [0.0, 0.0, 0.0, 0.0, 0.25, 0.0, 0.5, 0.0, 0.0, 0.5, 0.25, 0.0];
    let triangles = |u, v| {
        let tolerances = Tolerances { u, v, line: 1.0 };
        at(tolerances, || {
            let surface = edited::Surface::from_grid(edited::vectors(&grid), 1, 1);
            surface.triangles().to_vec()
        })
    };
    assert_eq!(triangles(0.5, 0.25), [0, 2, 1, 2, 3, 1]);
    // Where a seam joins on one cell, two corners of each triangle are the same.
    assert_eq!(triangles(0.5f64.next_up(), 0.25), []);
    assert_eq!(triangles(0.5, 0.25f64.next_up()), []);
}

/// Numbers that look random: SplitMix64.
struct Random(u64);

impl Random {
    fn below(&mut self, n: u64) -> u64 {
        self.0 = self.0.wrapping_add(0x9E37_79B9_7F4A_7C15);
        let mut z = self.0;
        z = (z ^ (z >> 30)).wrapping_mul(0xBF58_476D_1CE4_E5B9);
        z = (z ^ (z >> 27)).wrapping_mul(0x94D0_49BB_1331_11EB);
        (z ^ (z >> 31)) % n
    }

    /// 0 or 1, or about as far from it as EPS reaches.
    fn letter(&mut self) -> f64 {
        let gap = [0.0, 0.0, 0.0, 0.0, 0.5, -0.5, 1.0, 2.0][self.below(8) as usize];
        self.below(2) as f64 + gap * EPS
    }

    /// A number on a line of the grid, near one, between two or outside.
    fn coordinate(&mut self, steps: usize) -> f64 {
        let gap = [0.0, 0.5, 0.25, 0.5 * EPS, EPS, -EPS][self.below(6) as usize];
        self.below(steps as u64 + 3) as f64 - 1.0 + gap
    }
}

#[test]
fn every_eps_is_the_unchanged_original() {
    let mut random = Random(19);
    let (mut joined, mut left_out) = (0, 0);
    for _ in 0..600 {
        let [m, n] = [(); 2].map(|()| 1 + random.below(3) as usize);
        let points = (m + 1) * (n + 1);
        let grid: Vec<_> = (0..points)
            .flat_map(|_| [0.0, random.letter(), 0.0])
            .collect();
        let curve: Vec<_> = (0..random.below(12))
            .map(|_| [random.coordinate(m), random.coordinate(n)])
            .collect();
        let samples = samples(&curve);
        let unchanged = Surface::from_grid(vectors(&grid), m, n);
        at(EVERY_EPS, || {
            let edited = edited::Surface::from_grid(edited::vectors(&grid), m, n);
            assert_eq!(edited.triangles(), unchanged.triangles());
            assert_eq!(edited.flipped(), unchanged.flipped());
            let walk = edited.walk(&samples);
            assert_eq!(walk, unchanged.walk(&samples));
            let traced = edited.trace(&samples).map(|paths| lines(&paths));
            let wanted = unchanged.trace(&samples).map(|paths| lines(&paths));
            assert_eq!(traced, wanted);
            left_out += walk
                .made
                .iter()
                .filter(|made| made.close == Some(true))
                .count();
        });
        let (a, b) = (&grid[..3 * (n + 1)], &grid[3 * m * (n + 1)..]);
        let (found, comparisons) = original::search(&vectors(a), &vectors(b));
        let at_eps = edited::search(&edited::vectors(a), &edited::vectors(b), EPS);
        assert_eq!((parts(at_eps.0), at_eps.1), (parts(found), comparisons));
        joined += u32::from(found.is_some());
    }
    assert!(joined > 30 && left_out > 500, "{joined} {left_out}");
}

/// The points of each line.
fn lines<V: Copy + Into<[f64; 3]>>(paths: &Paths<V>) -> Vec<Vec<[f64; 3]>> {
    let line = |line: &[V]| line.iter().map(|&point| point.into()).collect();
    paths.iter_paths().map(line).collect()
}
