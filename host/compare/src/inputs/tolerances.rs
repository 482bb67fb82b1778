//! Tolerances of closeness: of every size, at the distances that an input has, and such as are
//! refused.

use super::{EPS, step};
use crate::mappings::to_original;
use crate::random::Random;
use merlontrispa::{Mapping, Tolerances};
use original::Vector;
use std::iter;

/// A point of a grid or of a row.
pub type Point = [f64; 3];

/// Tolerances that are just allowed, and EPS with its neighbours.
pub const TOLERANCE_EDGES: [f64; 9] = [
    5e-324,
    f64::MIN_POSITIVE,
    EPS.next_down(),
    EPS,
    EPS.next_up(),
    0.25,
    0.5,
    1.0f64.next_down(),
    1.0,
];

/// Tolerances that are refused.
pub const TOLERANCE_FAULTS: [f64; 12] = [
    0.0,
    -0.0,
    -5e-324,
    -EPS,
    -1.0,
    1.0f64.next_up(),
    2.0,
    f64::MAX,
    f64::INFINITY,
    f64::NEG_INFINITY,
    f64::NAN,
    -f64::NAN,
];

/// Whether a tolerance is allowed (Rules 11.1, refusal 13).
pub fn tolerance_fits(tolerance: f64) -> bool {
    tolerance.is_finite() && tolerance > 0.0 && tolerance <= 1.0
}

/// Whether all three are.
pub fn tolerances_fit(tolerances: Tolerances) -> bool {
    let Tolerances { u, v, line } = tolerances;
    [u, v, line].into_iter().all(tolerance_fits)
}

/// A tolerance that is allowed: any float from 5e-324 to 1, or a larger one among them.
pub fn any_tolerance(random: &mut Random) -> f64 {
    let tolerance = match random.below(4) {
        0 => random.of(&TOLERANCE_EDGES),
        1 => f64::from_bits(1 + random.below(1.0f64.to_bits())),
        2 => 2f64.powf(-40.0 * random.unit()),
        _ => random.unit(),
    };
    tolerance.max(5e-324)
}

/// One of these distances or the float before or after it, often of the largest; any tolerance where
/// that is refused.
pub fn tolerance_at(random: &mut Random, distances: &[f64]) -> f64 {
    let distance = match random.below(2) {
        _ if distances.is_empty() => f64::NAN,
        0 => distances.iter().copied().fold(0.0, f64::max),
        _ => random.of(distances),
    };
    let tolerance = step(distance, random.whole(-1, 1));
    if tolerance_fits(tolerance) {
        tolerance
    } else {
        any_tolerance(random)
    }
}

/// Three tolerances of which each may be refused.
pub fn faulty_tolerances(random: &mut Random) -> Tolerances {
    let [u, v, line] = [(); 3].map(|()| faulty_tolerance(random));
    Tolerances { u, v, line }
}

/// A tolerance that may be refused.
pub fn faulty_tolerance(random: &mut Random) -> f64 {
    match random.below(4) {
        0 => random.of(&TOLERANCE_FAULTS),
        1 => random.of(&TOLERANCE_EDGES),
        _ => any_tolerance(random),
    }
}

/// How far apart two points are: what closeness holds a tolerance to, by the original's own steps.
pub fn distance(a: Point, b: Point) -> f64 {
    let [a, b] = [a, b].map(Vector::from);
    a.sub(b).map(f64::abs).max_component()
}

/// How far apart the points are that a search asks about to find this mapping: the ends of both rows,
/// and each point of a and its image in b.
pub fn row_distances(a: &[Point], b: &[Point], mapping: Mapping) -> Vec<f64> {
    let ends = [a, b].into_iter().filter_map(|row| {
        let (first, last) = (row.first()?, row.last()?);
        Some(distance(*first, *last))
    });
    let mapping = to_original(mapping);
    let images = iter::zip(a, 0..).map(|(&p, j)| distance(p, b[mapping.map_index(j)]));
    ends.chain(images).collect()
}

#[cfg(test)]
mod tests {
    use super::*;

    #[test]
    fn edges_and_faults_are_such() {
        assert!(TOLERANCE_EDGES.into_iter().all(tolerance_fits));
        assert!(!TOLERANCE_FAULTS.into_iter().any(tolerance_fits));
    }

    #[test]
    fn tolerances_have_all_sizes() {
        let mut random = Random::new(1);
        let (mut tiny, mut around, mut large) = (0, 0, 0);
        for _ in 0..10_000 {
            let tolerance = any_tolerance(&mut random);
            assert!(tolerance_fits(tolerance), "{tolerance}");
            tiny += u32::from(tolerance < 1e-100);
            around += u32::from((1e-12..1e-6).contains(&tolerance));
            large += u32::from(tolerance > 1e-3);
        }
        assert!(
            [tiny, around, large].iter().all(|&count| count > 1_000),
            "{tiny} {around} {large}"
        );
    }

    #[test]
    fn a_distance_is_reached_from_both_sides() {
        let mut random = Random::new(1);
        let all: Vec<_> = (0..100)
            .map(|_| tolerance_at(&mut random, &[0.25]))
            .collect();
        for wanted in [0.25f64.next_down(), 0.25, 0.25f64.next_up()] {
            assert!(all.contains(&wanted), "{wanted}");
        }
        assert!(tolerance_fits(tolerance_at(&mut random, &[2.0])));
        assert!(tolerance_fits(tolerance_at(&mut random, &[])));
    }
}
