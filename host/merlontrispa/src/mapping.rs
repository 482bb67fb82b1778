use crate::boundary;
use crate::refusal::Refusal;

/// How the points of a row a meet those of a row b, each of `steps + 1` points (Rules 3).
#[derive(Debug, Clone, Copy, PartialEq, Eq, Hash)]
pub enum Mapping {
    /// Point j of a meets point j of b at offset 0, else point `(offset + j) mod steps`.
    Forward {
        /// Where in b the first point of a lies.
        offset: usize,
        /// One less than the points of a row.
        steps: usize,
    },
    /// Point j of a meets point `steps - j` of b at offset 0, else point
    /// `(offset + steps - (j mod steps)) mod steps`.
    Reverse {
        /// Where in b the first point of a lies.
        offset: usize,
        /// One less than the points of a row.
        steps: usize,
    },
}

/// What a search found between two rows.
#[derive(Debug, Clone, Copy, PartialEq, Eq, Hash)]
pub struct Seam {
    /// The mapping, or `None` where the rows do not meet.
    pub mapping: Option<Mapping>,
    /// How often the search asked whether two points are close.
    pub comparisons: u64,
}

impl Mapping {
    /// The seam between two rows of points, three numbers each: the first offset at which a fits b,
    /// forward before reverse. Rows whose ends are close are tried at all offsets, others at 0. Rows
    /// of unequal lengths, or of fewer than two points, do not meet, after 0 comparisons. Points are
    /// close by the tolerance, as [`Vector::all_close`](crate::Vector::all_close) says.
    ///
    /// # Errors
    /// 2 where a row is not of whole points or has more than 65,536, 13 where the tolerance is NaN,
    /// infinite, not above zero or above 1, whatever the rows are, 4 where a coordinate is NaN,
    /// infinite or beyond ±2^40.
    ///
    /// ```
    /// use merlontrispa::{EPS, Mapping};
    ///
    /// let a = [0.0, 0.0, 0.0, 1.0, 0.0, 0.0, 2.0, 0.0, 0.0];
    /// let b = [2.0, 0.0, 0.0, 1.0, 0.0, 0.0, 0.0, 0.0, 0.0];
    /// let mapping = Mapping::new_vector(&a, &b, EPS)?.mapping.expect("b is a, turned round");
    /// assert_eq!(mapping, Mapping::Reverse { offset: 0, steps: 2 });
    /// assert_eq!(mapping.map_index(2)?, 0);
    ///
    /// // A row beside b, a quarter away from it.
    /// let beside = b.map(|x| x + 0.25);
    /// assert_eq!(Mapping::new_vector(&a, &beside, 0.25)?.mapping, None);
    /// assert_eq!(Mapping::new_vector(&a, &beside, 0.5)?.mapping, Some(mapping));
    /// # Ok::<(), merlontrispa::Refusal>(())
    /// ```
    pub fn new_vector(a: &[f64], b: &[f64], tolerance: f64) -> Result<Seam, Refusal> {
        let answer = boundary::new_vector(a, b, tolerance);
        Refusal::check(answer.refusal)?;
        Ok(answer.seam.into())
    }

    /// Whether the rows run against each other: answered for every mapping, also where
    /// [`map_index`](Self::map_index) refuses every index.
    ///
    /// ```
    /// use merlontrispa::{Mapping, Refusal};
    ///
    /// let without_steps = Mapping::Reverse { offset: 0, steps: 0 };
    /// assert!(without_steps.is_reverse());
    /// assert_eq!(without_steps.map_index(0), Err(Refusal::NotThere));
    /// ```
    pub fn is_reverse(self) -> bool {
        let (reverse, offset, steps) = self.parts();
        boundary::mt_is_reverse(reverse, offset, steps)
    }

    /// The index of b that index `a_idx` of a meets.
    ///
    /// # Errors
    /// 8 where `steps` is 0 or more than 65,535, the offset is not less than it, or the index is more.
    pub fn map_index(self, a_idx: usize) -> Result<usize, Refusal> {
        let (reverse, offset, steps) = self.parts();
        let answer = boundary::mt_map_index(reverse, offset, steps, a_idx);
        Refusal::check(answer.refusal).map(|()| answer.index)
    }

    /// The index of a that index `b_idx` of b meets: forward at offset 0 the same index, at another
    /// `(b_idx + steps - offset) mod steps`; in reverse that of [`map_index`](Self::map_index).
    ///
    /// # Errors
    /// 8 where `steps` is 0 or more than 65,535, the offset is not less than it, or the index is more.
    ///
    /// ```
    /// use merlontrispa::Mapping;
    ///
    /// let forward = Mapping::Forward { offset: 1, steps: 4 };
    /// assert_eq!(forward.map_index_inv(0)?, 3);
    /// assert_eq!(forward.map_index(3)?, 0);
    /// let reverse = Mapping::Reverse { offset: 1, steps: 4 };
    /// assert_eq!(reverse.map_index_inv(2)?, reverse.map_index(2)?);
    /// # Ok::<(), merlontrispa::Refusal>(())
    /// ```
    pub fn map_index_inv(self, b_idx: usize) -> Result<usize, Refusal> {
        let (reverse, offset, steps) = self.parts();
        let answer = boundary::mt_map_index_inv(reverse, offset, steps, b_idx);
        Refusal::check(answer.refusal).map(|()| answer.index)
    }

    /// Direction, offset and steps, as C takes them.
    pub(crate) fn parts(self) -> (bool, usize, usize) {
        match self {
            Self::Forward { offset, steps } => (false, offset, steps),
            Self::Reverse { offset, steps } => (true, offset, steps),
        }
    }
}

impl From<boundary::FoundSeam> for Seam {
    fn from(seam: boundary::FoundSeam) -> Self {
        let boundary::FoundSeam {
            found,
            reverse,
            offset,
            steps,
            comparisons,
        } = seam;
        let mapping = found.then_some(if reverse {
            Mapping::Reverse { offset, steps }
        } else {
            Mapping::Forward { offset, steps }
        });
        Self {
            mapping,
            comparisons,
        }
    }
}
