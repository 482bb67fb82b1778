//! Stands in for the crate `rand`: the trait that the original names. Nothing that is compared
//! calls it.

/// A source of random values.
pub trait Rng {
    /// The next value.
    fn random<T: From<f64>>(&mut self) -> T;
}
