//! The float helpers against Rust's methods on f64 and its casts.

use crate::driver::{Compared, Driver};
use crate::inputs::{any, number, signed_edges, whole};
use crate::random::Random;
use crate::value::Value;
use merlontrispa::float;
use std::cmp::Ordering;

const COUNT: u64 = 10_000_000;

pub fn compare(driver: &mut Driver) -> Compared {
    unary(driver, "abs", float::abs, f64::abs)?;
    unary(driver, "is_finite", float::is_finite, f64::is_finite)?;
    binary(driver, "at_most", float::at_most, |x, top| x.abs() <= top)?;
    binary(
        driver,
        "max",
        |x, y| settled(x, y, float::max),
        |x, y| settled(x, y, f64::max),
    )?;
    driver.compare(
        "clamp",
        COUNT,
        |random| [any(random), number(random), number(random)],
        |&[x, a, b]| clamped(x, a, b, float::clamp),
        |&[x, a, b]| clamped(x, a, b, f64::clamp),
    )?;
    let edges = signed_edges().flat_map(|x| signed_edges().map(move |y| [x, y]));
    driver.compare_each("total_cmp at the edges", edges, library_order, rust_order)?;
    driver.compare("total_cmp", COUNT, to_order, library_order, rust_order)?;
    unary(driver, "floor_i64", float::floor_i64, |x| x.floor() as i64)?;
    unary(driver, "ceil_i64", float::ceil_i64, |x| x.ceil() as i64)?;
    unary(driver, "round", float::round, f64::round)?;
    unary(driver, "ceil", float::ceil, f64::ceil)?;
    unary(driver, "to_usize", float::to_usize, |x| x as usize)?;
    driver.compare("to_f64", COUNT, whole, |&n| float::to_f64(n), |&n| n as f64)
}

fn unary<O: Value>(
    driver: &mut Driver,
    name: &str,
    library: impl Fn(f64) -> O,
    original: impl Fn(f64) -> O,
) -> Compared {
    driver.compare(name, COUNT, any, |&x| library(x), |&x| original(x))
}

fn binary<O: Value>(
    driver: &mut Driver,
    name: &str,
    library: impl Fn(f64, f64) -> O,
    original: impl Fn(f64, f64) -> O,
) -> Compared {
    driver.compare(
        name,
        COUNT,
        |random| [any(random), any(random)],
        |&[x, y]| library(x, y),
        |&[x, y]| original(x, y),
    )
}

/// Two numbers: any two, or one and itself, its opposite or a neighbour.
fn to_order(random: &mut Random) -> [f64; 2] {
    let x = number(random);
    let y = match random.below(8) {
        0 => x,
        1 => -x,
        2 => x.next_up(),
        3 => x.next_down(),
        _ => number(random),
    };
    [x, y]
}

fn library_order(&[x, y]: &[f64; 2]) -> Ordering {
    float::total_cmp(x, y)
}

fn rust_order(&[x, y]: &[f64; 2]) -> Ordering {
    x.total_cmp(&y)
}

/// The larger of two. Which of two zeros of different sign it is Rust leaves open.
fn settled(x: f64, y: f64, max: impl Fn(f64, f64) -> f64) -> f64 {
    let larger = max(x, y);
    if x == 0.0 && y == 0.0 && x.is_sign_negative() != y.is_sign_negative() {
        larger.abs()
    } else {
        larger
    }
}

/// A value clamped to two ends in order: where they are not, `f64::clamp` panics.
fn clamped(x: f64, a: f64, b: f64, clamp: impl Fn(f64, f64, f64) -> f64) -> f64 {
    if a <= b {
        clamp(x, a, b)
    } else {
        clamp(x, b, a)
    }
}

#[cfg(test)]
mod tests {
    use super::*;
    use crate::planted::found;

    #[test]
    fn pairs_stand_in_every_order() {
        let mut random = Random::new(1);
        let (mut less, mut equal, mut greater, mut zeros) = (0, 0, 0, 0);
        for _ in 0..10_000 {
            let [x, y] = to_order(&mut random);
            match rust_order(&[x, y]) {
                Ordering::Less => less += 1,
                Ordering::Equal => equal += 1,
                Ordering::Greater => greater += 1,
            }
            zeros += u32::from(x == 0.0 && y == 0.0 && x.to_bits() != y.to_bits());
        }
        assert!(less > 3_000 && equal > 1_000 && greater > 3_000 && zeros > 10);
    }

    /// The smallest pair on which a wrong order is found to differ.
    fn found_pair(wrong: fn(f64, f64) -> Ordering) -> String {
        let compare = |driver: &mut Driver, library: &dyn Fn(&[f64; 2]) -> Ordering| {
            driver.compare("planted", 10_000, to_order, library, rust_order)
        };
        found(
            |driver| compare(driver, &|&[x, y]| wrong(x, y)),
            |driver| compare(driver, &library_order),
        )
    }

    /// By value, and where neither is less by what is said of the signs.
    fn ordered(x: f64, y: f64, by_sign: impl Fn(bool, bool) -> Ordering) -> Ordering {
        if x < y {
            Ordering::Less
        } else if x > y {
            Ordering::Greater
        } else {
            by_sign(x.is_sign_negative(), y.is_sign_negative())
        }
    }

    fn minus_first(minus_x: bool, minus_y: bool) -> Ordering {
        minus_y.cmp(&minus_x)
    }

    #[test]
    fn clause_by_clause_is_the_order_of_rust() {
        for x in signed_edges() {
            for y in signed_edges() {
                assert_eq!(ordered(x, y, minus_first), rust_order(&[x, y]), "{x} {y}");
            }
        }
    }

    /// Each wrong order beside the smallest pair on which it is found to differ.
    #[test]
    fn wrong_orders_are_found() {
        type Order = fn(f64, f64) -> Ordering;
        let wrong: [(&str, Order, &str); 5] = [
            (
                "equal zeros",
                |x, y| ordered(x, y, |_, _| Ordering::Equal),
                "0.0 -0.0",
            ),
            (
                "plus zero first",
                |x, y| ordered(x, y, |s, t| minus_first(t, s)),
                "0.0 -0.0",
            ),
            (
                "one sign",
                |x, y| ordered(x, y, |s, _| minus_first(s, false)),
                "0.0 -0.0",
            ),
            (
                "greater first",
                |x, y| ordered(y, x, |t, s| minus_first(s, t)),
                "0.0 1.0",
            ),
            ("zeros first", zeros_first, "-0.0 -1.0"),
        ];
        for (name, order, case) in wrong {
            assert_eq!(found_pair(order), case, "{name}");
        }
    }

    /// A zero is told by its sign before it is compared.
    fn zeros_first(x: f64, y: f64) -> Ordering {
        if x == 0.0 {
            minus_first(x.is_sign_negative(), y.is_sign_negative())
        } else {
            ordered(x, y, minus_first)
        }
    }
}
