//! What is compared and how it is shown: floats by their bits, and any NaN with any NaN.

use merlontrispa::{Counts, Drawn, Plan, Refusal, Seam, Seams, Triangulation, Vector};
use std::cmp::Ordering;

/// What can be told in a difference.
pub trait Show {
    fn show(&self) -> String;
}

/// The output of a comparison.
pub trait Value: Show {
    fn same(&self, other: &Self) -> bool;
}

impl Show for f64 {
    fn show(&self) -> String {
        format!("{:016X} ({self:?})", self.to_bits())
    }
}

impl Value for f64 {
    fn same(&self, other: &Self) -> bool {
        self.to_bits() == other.to_bits() || self.is_nan() && other.is_nan()
    }
}

macro_rules! plain {
    ($($plain:ty),*) => {$(
        impl Show for $plain {
            fn show(&self) -> String {
                format!("{self:?}")
            }
        }

        impl Value for $plain {
            fn same(&self, other: &Self) -> bool {
                self == other
            }
        }
    )*};
}

plain!(
    bool,
    i64,
    usize,
    Ordering,
    Counts,
    Drawn,
    Plan,
    Refusal,
    Seam,
    Seams,
    Triangulation
);

impl<T: Show, const N: usize> Show for [T; N] {
    fn show(&self) -> String {
        self.each_ref().map(Show::show).join(", ")
    }
}

impl<T: Value, const N: usize> Value for [T; N] {
    fn same(&self, other: &Self) -> bool {
        self.iter().zip(other).all(|(a, b)| a.same(b))
    }
}

impl<T: Show> Show for Vec<T> {
    fn show(&self) -> String {
        let shown: Vec<_> = self.iter().map(Show::show).collect();
        format!("[{}]", shown.join(", "))
    }
}

impl<T: Value> Value for Vec<T> {
    fn same(&self, other: &Self) -> bool {
        self.len() == other.len() && self.iter().zip(other).all(|(a, b)| a.same(b))
    }
}

impl<T: Show, E: Show> Show for Result<T, E> {
    fn show(&self) -> String {
        match self {
            Ok(a) => a.show(),
            Err(e) => format!("refused: {}", e.show()),
        }
    }
}

impl<T: Value, E: Value> Value for Result<T, E> {
    fn same(&self, other: &Self) -> bool {
        match (self, other) {
            (Ok(a), Ok(b)) => a.same(b),
            (Err(a), Err(b)) => a.same(b),
            _ => false,
        }
    }
}

impl<A: Show, B: Show> Show for (A, B) {
    fn show(&self) -> String {
        format!("{}, {}", self.0.show(), self.1.show())
    }
}

impl<A: Value, B: Value> Value for (A, B) {
    fn same(&self, other: &Self) -> bool {
        self.0.same(&other.0) && self.1.same(&other.1)
    }
}

impl Show for Vector {
    fn show(&self) -> String {
        format!("({})", [self.x, self.y, self.z].show())
    }
}

impl Value for Vector {
    fn same(&self, other: &Self) -> bool {
        [self.x, self.y, self.z].same(&[other.x, other.y, other.z])
    }
}
