use crate::boundary;

/// A point or direction of three f64. The operations round once per component.
///
/// ```
/// use merlontrispa::{EPS, Vector};
///
/// let p = Vector::new(1.0, 2.0, 3.0);
/// let q = p.add(Vector::new(0.25, 0.0, 0.0));
/// assert!(p.all_close(q, 0.5) && !p.all_close(q, 0.25) && !p.all_close(q, EPS));
/// ```
#[derive(Debug, Clone, Copy, PartialEq, Default)]
pub struct Vector {
    /// The x component.
    pub x: f64,
    /// The y component.
    pub y: f64,
    /// The z component.
    pub z: f64,
}

impl Vector {
    /// A vector of three components.
    pub fn new(x: f64, y: f64, z: f64) -> Self {
        Self { x, y, z }
    }

    /// The sum.
    #[allow(clippy::should_implement_trait)]
    pub fn add(self, other: Self) -> Self {
        boundary::mt_vector_add(self.x, self.y, self.z, other.x, other.y, other.z).into()
    }

    /// The difference.
    #[allow(clippy::should_implement_trait)]
    pub fn sub(self, other: Self) -> Self {
        boundary::mt_vector_sub(self.x, self.y, self.z, other.x, other.y, other.z).into()
    }

    /// The components times `s`.
    pub fn mul_scalar(self, s: f64) -> Self {
        boundary::mt_vector_mul_scalar(self.x, self.y, self.z, s).into()
    }

    /// Whether the two are close (Rules 2.1): of the magnitudes of their three differences, the
    /// largest is less than the tolerance.
    ///
    /// It takes every tolerance, also those that other calls refuse: with one that is NaN or not
    /// above zero nothing is close.
    ///
    /// ```
    /// use merlontrispa::Vector;
    ///
    /// let p = Vector::new(1.0, 2.0, 3.0);
    /// assert!(p.all_close(p, 5e-324) && p.all_close(p, f64::INFINITY));
    /// assert!(!p.all_close(p, 0.0) && !p.all_close(p, f64::NAN));
    /// ```
    pub fn all_close(self, other: Self, tolerance: f64) -> bool {
        let (Self { x, y, z }, o) = (self, other);
        boundary::mt_vector_all_close(x, y, z, o.x, o.y, o.z, tolerance)
    }
}

impl From<[f64; 3]> for Vector {
    fn from([x, y, z]: [f64; 3]) -> Self {
        Self { x, y, z }
    }
}

impl From<Vector> for [f64; 3] {
    fn from(Vector { x, y, z }: Vector) -> Self {
        [x, y, z]
    }
}
