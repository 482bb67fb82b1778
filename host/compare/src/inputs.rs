//! What the comparisons run on: here floats that are likely to lie at an edge of something.

pub mod grids;
pub mod lists;
pub mod tolerances;

use crate::random::Random;

pub const EPS: f64 = 1e-9;

const TWO_52: f64 = 4_503_599_627_370_496.0;
const TWO_63: f64 = 9_223_372_036_854_775_808.0;
const TWO_64: f64 = 18_446_744_073_709_551_616.0;

/// Values at which a helper changes its way, without sign.
const EDGES: [f64; 37] = [
    0.0,
    5e-324,
    f64::MIN_POSITIVE.next_down(),
    f64::MIN_POSITIVE,
    f64::EPSILON,
    EPS.next_down(),
    EPS,
    EPS.next_up(),
    0.25,
    0.5f64.next_down(),
    0.5,
    0.5f64.next_up(),
    1.0f64.next_down(),
    1.0,
    1.0f64.next_up(),
    1.5,
    2.0,
    2.5f64.next_down(),
    2.5,
    255.0,
    1_048_576.0,
    TWO_52 / 2.0 - 0.5,
    TWO_52 - 1.5,
    TWO_52 - 0.5,
    TWO_52,
    TWO_52 + 1.0,
    2.0 * TWO_52 - 1.0,
    2.0 * TWO_52,
    2.0 * TWO_52 + 2.0,
    4.0 * TWO_52,
    TWO_63.next_down(),
    TWO_63,
    TWO_64.next_down(),
    TWO_64,
    f64::MAX,
    f64::INFINITY,
    f64::NAN,
];

/// The largest magnitude that a coordinate of a grid or a row may have.
const TWO_40: f64 = 1_099_511_627_776.0;

/// Coordinates that are just allowed.
pub const COORDINATE_EDGES: [f64; 6] = [TWO_40, -TWO_40, TWO_40.next_down(), 0.0, -0.0, 5e-324];

/// Coordinates that are refused.
pub const COORDINATE_FAULTS: [f64; 7] = [
    TWO_40.next_up(),
    -TWO_40.next_up(),
    f64::MAX,
    f64::INFINITY,
    f64::NEG_INFINITY,
    f64::NAN,
    -f64::NAN,
];

/// Whether all coordinates of a grid or a row are allowed.
pub fn coordinates_fit(numbers: &[f64]) -> bool {
    numbers.iter().all(|x| x.is_finite() && x.abs() <= TWO_40)
}

/// Any float, a NaN among them.
pub fn any(random: &mut Random) -> f64 {
    let magnitude = match random.below(10) {
        0 | 1 => random.of(&EDGES),
        2 => f64::from_bits(random.bits()),
        3 => f64::from_bits(random.bits() >> 12),
        4 => power_of_two(random),
        5 => halves(random),
        6 => TWO_52 * 2f64.powf(2.0 * random.unit()),
        7 => TWO_63 * (1.0 + random.whole(-4096, 4096) as f64 * f64::EPSILON),
        8 => near(random, 0.0),
        _ => 300.0 * random.unit(),
    };
    if random.below(2) == 0 {
        magnitude
    } else {
        -magnitude
    }
}

/// Any float that is no NaN.
pub fn number(random: &mut Random) -> f64 {
    loop {
        let x = any(random);
        if !x.is_nan() {
            return x;
        }
    }
}

/// Both signs of each number at which a helper changes its way.
pub fn signed_edges() -> impl Iterator<Item = f64> {
    let numbers = EDGES.into_iter().filter(|x| !x.is_nan());
    numbers.flat_map(|x| [x, -x])
}

/// A whole number with any count of leading zeros, or next to a power of two.
pub fn whole(random: &mut Random) -> usize {
    let shift = random.below(64);
    let n = match random.below(2) {
        0 => random.bits() >> shift,
        _ => (1u64 << shift).wrapping_add_signed(random.whole(-3, 3)),
    };
    n as usize
}

/// A value about as far from `x` as EPS.
pub fn near(random: &mut Random, x: f64) -> f64 {
    about(random, x, EPS)
}

/// A value about so far from `x`.
pub fn about(random: &mut Random, x: f64, distance: f64) -> f64 {
    match random.below(4) {
        0 => x,
        1 => x + random.of(&[-distance, distance]),
        2 => {
            let there = x + random.of(&[-distance, distance]);
            step(there, random.whole(-2, 2))
        }
        _ => x + distance * (4.0 * random.unit() - 2.0),
    }
}

/// A power of two or one of its neighbours.
fn power_of_two(random: &mut Random) -> f64 {
    let power = match random.whole(-1074, 1023) {
        k if k < -1022 => 1 << (k + 1074),
        k => ((k + 1023) as u64) << 52,
    };
    step(f64::from_bits(power), random.whole(-2, 2))
}

/// A multiple of a half or one of its neighbours.
fn halves(random: &mut Random) -> f64 {
    let bits = random.below(54);
    let half = random.below(1 << bits) as f64 / 2.0;
    step(half, random.whole(-1, 1))
}

/// The float that stands `steps` places further up.
fn step(x: f64, steps: i64) -> f64 {
    (0..steps.abs()).fold(x, |x, _| {
        if steps < 0 {
            x.next_down()
        } else {
            x.next_up()
        }
    })
}
