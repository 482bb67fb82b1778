//! The Vector operations against the original's.

use crate::case::{Smaller, case, plainer_everywhere};
use crate::driver::{Compared, Driver};
use crate::inputs::tolerances::{any_tolerance, distance, tolerance_at};
use crate::inputs::{EPS, about, any, near};
use crate::random::Random;
use crate::record::{Call, Record, Recorded, bits};
use merlontrispa::Vector;
use original::edited;

const COUNT: u64 = 10_000_000;

/// Two vectors and the tolerance that they are close by, or not.
#[derive(Clone)]
struct Pair {
    a: Vector,
    b: Vector,
    tolerance: f64,
}

case!(Pair { a, b, tolerance }, first Pair::plainer);

impl Pair {
    /// Pairs in which a number is plainer wherever it stands.
    fn plainer(&self) -> Smaller<Self> {
        let [a, b]: [[f64; 3]; 2] = [self.a, self.b].map(Into::into);
        let numbers = [&a[..], &b, &[self.tolerance]].concat();
        Box::new(plainer_everywhere(&numbers).map(|numbers| {
            let vector = |at: usize| Vector::new(numbers[at], numbers[at + 1], numbers[at + 2]);
            Self {
                a: vector(0),
                b: vector(3),
                tolerance: numbers[6],
            }
        }))
    }

    fn library(&self) -> bool {
        self.a.all_close(self.b, self.tolerance)
    }

    /// What the edited original says.
    fn original(&self) -> bool {
        self.by(self.tolerance)
    }

    /// What it says of another tolerance.
    fn by(&self, tolerance: f64) -> bool {
        let [a, b] = [self.a, self.b].map(|v| edited::Vector::new(v.x, v.y, v.z));
        a.all_close(b, tolerance)
    }
}

pub fn compare(driver: &mut Driver) -> Compared {
    driver.compare(
        "Vector::add",
        COUNT,
        |random| [vector(random), vector(random)],
        |&[a, b]| a.add(b),
        |&[a, b]| from_original(original(a).add(original(b))),
    )?;
    driver.compare(
        "Vector::sub",
        COUNT,
        |random| [vector(random), vector(random)],
        |&[a, b]| a.sub(b),
        |&[a, b]| from_original(original(a).sub(original(b))),
    )?;
    driver.compare(
        "Vector::mul_scalar",
        COUNT,
        |random| (vector(random), any(random)),
        |&(a, s)| a.mul_scalar(s),
        |&(a, s)| from_original(original(a).mul_scalar(s)),
    )?;
    driver.compare(
        "Vector::all_close",
        COUNT,
        close_or_not,
        |&[a, b]| a.all_close(b, EPS),
        |&[a, b]| original(a).all_close(original(b)),
    )?;
    driver.compare(
        "Vector::all_close, at any tolerance",
        3_000_000,
        at_a_tolerance,
        Pair::library,
        Pair::original,
    )
}

/// The same vector in the original's type.
fn original(v: Vector) -> original::Vector {
    original::Vector::new(v.x, v.y, v.z)
}

/// The same vector in the library's type.
fn from_original(v: original::Vector) -> Vector {
    Vector::new(v.x, v.y, v.z)
}

fn vector(random: &mut Random) -> Vector {
    Vector::new(any(random), any(random), any(random))
}

/// Two vectors whose components are as far apart as closeness reaches, or now and then anywhere.
fn close_or_not(random: &mut Random) -> [Vector; 2] {
    let a = match random.below(4) {
        0 => vector(random),
        _ => Vector::new(random.unit(), 8.0 * random.unit(), -256.0 * random.unit()),
    };
    let b = match random.below(16) {
        0 => vector(random),
        _ => Vector::new(near(random, a.x), near(random, a.y), near(random, a.z)),
    };
    [a, b]
}

/// Two vectors that are about as far apart as a tolerance, at this one, at their distance or next to
/// it, or at any float.
fn at_a_tolerance(random: &mut Random) -> Pair {
    let tolerance = any_tolerance(random);
    let scale = random.of(&[1.0, tolerance, 0.0]);
    let a = match random.below(8) {
        0 => vector(random),
        _ => Vector::new(random.unit(), 8.0 * random.unit(), -256.0 * random.unit()),
    };
    let a = [a.x, a.y, a.z].map(|x| scale * x);
    let b = match random.below(16) {
        0 => vector(random).into(),
        _ => a.map(|x| about(random, x, tolerance)),
    };
    let tolerance = match random.below(4) {
        0 => any(random),
        1 => tolerance_at(random, &[distance(a, b)]),
        _ => tolerance,
    };
    Pair {
        a: a.into(),
        b: b.into(),
        tolerance,
    }
}

/// Operations for the record.
pub fn record(record: &mut Record) {
    let mut random = record.random();
    let words = |v: Vector| [v.x, v.y, v.z].map(bits);
    for _ in 0..6 {
        let (a, b) = (vector(&mut random), vector(&mut random));
        let [p, q] = [a, b].map(original);
        let results = [
            ("add", p.add(q)),
            ("sub", p.sub(q)),
            ("mul_scalar", p.mul_scalar(b.x)),
        ];
        for (operation, (name, result)) in (0..).zip(results) {
            let case = Recorded::new(Call::Vector, None, &[operation]).reaching(name);
            let result = words(from_original(result));
            record.keep(case.words(&words(a)).words(&words(b)).words(&result));
        }
        let [a, b] = close_or_not(&mut random);
        let tolerance = EPS;
        let close = original(a).all_close(original(b));
        record.keep(Pair { a, b, tolerance }.recorded(close));
    }
    for tolerance in [f64::NAN, 0.0, -0.0, -1.0, f64::INFINITY, 5e-324, 1.0] {
        let [a, b] = [Vector::new(0.5, 0.25, 0.0); 2];
        let pair = Pair { a, b, tolerance };
        record.keep(pair.recorded(pair.original()));
    }
    for _ in 0..200 {
        let pair = at_a_tolerance(&mut random);
        record.offer(pair.recorded(pair.original()));
    }
}

impl Pair {
    /// Operation 3, with its tolerance beside it.
    fn recorded(&self, close: bool) -> Recorded {
        let words = |v: Vector| [v.x, v.y, v.z].map(bits);
        let tolerance = self.tolerance;
        Recorded::new(Call::Vector, None, &[3, bits(tolerance)])
            .words(&words(self.a))
            .words(&words(self.b))
            .words(&[close.into()])
            .reaching(if close { "all_close" } else { "not all_close" })
            .reaching_if(close && !self.by(EPS), "all_close by more than EPS")
            .reaching_if(!close && self.by(EPS), "not all_close by less than EPS")
            .reaching_if(tolerance.is_nan(), "a tolerance that is a NaN")
            .reaching_if(tolerance <= 0.0, "a tolerance that is not above zero")
            .reaching_if(tolerance > 1.0, "a tolerance above 1")
    }
}

#[cfg(test)]
mod tests {
    use super::*;
    use crate::inputs::tolerances::tolerance_fits;
    use crate::planted::found;

    #[test]
    fn pairs_fall_on_both_sides_of_closeness() {
        let mut random = Random::new(1);
        let close = (0..10_000).filter(|_| {
            let [a, b] = close_or_not(&mut random);
            original(a).all_close(original(b))
        });
        assert!((2_000..8_000).contains(&close.count()));
    }

    #[test]
    fn pairs_fall_on_both_sides_of_their_tolerance() {
        let mut random = Random::new(1);
        let (mut close, mut edges, mut refused) = (0, 0, 0);
        for _ in 0..10_000 {
            let pair = at_a_tolerance(&mut random);
            let around = [pair.tolerance.next_down(), pair.tolerance.next_up()];
            close += u32::from(pair.original());
            edges += u32::from(around.map(|t| pair.by(t)) != [pair.original(); 2]);
            refused += u32::from(!tolerance_fits(pair.tolerance));
        }
        assert!((2_000..8_000).contains(&close), "{close}");
        assert!(edges > 1_000 && refused > 1_000, "{edges} {refused}");
    }

    /// The smallest pair on which a wrong closeness is found to differ.
    fn found_pair(wrong: impl Fn(&Pair) -> bool) -> String {
        let compare = |driver: &mut Driver, library: &dyn Fn(&Pair) -> bool| {
            driver.compare("planted", 10_000, at_a_tolerance, library, Pair::original)
        };
        found(
            |driver| compare(driver, &wrong),
            |driver| compare(driver, &Pair::library),
        )
    }

    /// The words of two vectors that are zero.
    fn at_zero(tolerance: &str) -> String {
        let zero = "x 0.0 y 0.0 z 0.0";
        format!("a {zero} b {zero} tolerance {tolerance}")
    }

    #[test]
    fn a_closeness_by_eps_is_found() {
        assert_eq!(found_pair(|pair| pair.by(EPS)), at_zero("0.0"));
    }

    /// Less or equal in the place of less.
    #[test]
    fn a_closeness_that_takes_the_tolerance_itself_is_found() {
        let case = found_pair(|pair| pair.by(pair.tolerance.next_up()));
        assert_eq!(case, at_zero("0.0"));
    }

    /// Closeness as: no difference reaches the tolerance. By a NaN all is close.
    #[test]
    fn a_closeness_by_a_nan_is_found() {
        let case = found_pair(|pair| pair.original() || pair.tolerance.is_nan());
        assert_eq!(case, at_zero("NaN"));
    }
}
