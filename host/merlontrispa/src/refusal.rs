use std::error::Error;
use std::fmt;

/// The enum, its documentation, `ALL` and the sentences, of one table.
macro_rules! refusals {
    ($($name:ident = $number:literal: $sentence:literal;)*) => {
        /// Why a call sent its caller back: a number, and nothing beside it (Rules 11).
        ///
        /// Where several apply it is the first in the order of Rules 11.2; 11 and 12 come as the
        /// walk along the curve meets them, 13 is tested right after 2, and 14 comes last, directly
        /// after 4. 11 and 12 leave lists that were lent for output all zero, the others as they
        /// were. `refusal as u8` is the number that the C boundary answers. Later versions may have
        /// more numbers.
        #[derive(Debug, Clone, Copy, PartialEq, Eq, Hash)]
        #[non_exhaustive]
        #[repr(u8)]
        pub enum Refusal {
            $(
                #[doc = concat!(stringify!($number), ": ", $sentence, ".")]
                $name = $number,
            )*
        }

        impl Refusal {
            /// All refusals, in the order of their numbers.
            pub const ALL: &[Self] = &[$(Self::$name),*];

            fn sentence(self) -> &'static str {
                match self {
                    $(Self::$name => $sentence,)*
                }
            }
        }
    };
}

refusals! {
    Steps = 1: "M and N must each be from 1 to 255";
    Length = 2: "a list has the wrong length: a grid has 3·(M+1)·(N+1) numbers, samples two numbers \
        for each mark and at most 65,537 marks, a seam row whole points and at most 65,536 of them";
    Room = 3: "a lent list is too short: it takes 6·M·N numbers for triangles, 2·(M+N) for flipped \
        pairs, 6·(M+1)·(N+1) for the points of grid lines, M+N+2 for their starts";
    Coordinate = 4: "a coordinate of the grid or of a row is NaN, infinite or beyond ±2^40";
    Texture = 5: "the twist is NaN, infinite or beyond ±64, or there are more than 64 arms";
    Count = 6: "the texture would have more than 65,536 rays, or samples to a ray";
    Direction = 7: "a cosine or sine is NaN or beyond ±1";
    NotThere = 8: "no such index, ray, sample or line, or a mapping whose steps or offset are out of \
        range";
    Mark = 9: "a mark is neither 0 nor 1";
    Sample = 10: "a coordinate of a point among the samples is NaN, infinite or beyond ±1,048,576";
    NoStep = 11: "the curve meets a side where no cell can be told (the original panics there)";
    Full = 12: "a lent list is full";
    Tolerance = 13: "a tolerance is NaN, infinite, not above zero or above 1";
    Mapping = 14: "a given mapping does not fit: its steps are not those of the edges that it is to \
        join, its offset is not less than these, or the edges do not meet that way";
}

impl Refusal {
    /// Its number.
    pub fn number(self) -> u8 {
        self as u8
    }

    /// The refusal that has this number, or `None` where none has.
    ///
    /// ```
    /// use merlontrispa::Refusal;
    ///
    /// assert_eq!(Refusal::from_number(4), Some(Refusal::Coordinate));
    /// assert_eq!(Refusal::from_number(0), None);
    /// ```
    pub fn from_number(number: u8) -> Option<Self> {
        Self::ALL
            .iter()
            .copied()
            .find(|refusal| refusal.number() == number)
    }

    /// The answer of a call whose refusal has this number, 0 where there is none.
    ///
    /// # Panics
    /// On a number that no refusal has: the archive is then of another version than this crate.
    pub(crate) fn check(number: u8) -> Result<(), Self> {
        match number {
            0 => Ok(()),
            _ => Err(Self::from_number(number).unwrap_or_else(|| unknown(number))),
        }
    }
}

#[cold]
fn unknown(number: u8) -> ! {
    panic!(
        "the library refuses with {number}, which this crate has no name for: \
         its archive is of another version"
    )
}

impl fmt::Display for Refusal {
    fn fmt(&self, f: &mut fmt::Formatter<'_>) -> fmt::Result {
        write!(f, "{}: {}", self.number(), self.sentence())
    }
}

impl Error for Refusal {}

#[cfg(test)]
mod tests {
    use super::*;

    #[test]
    fn a_refusal_is_found_by_its_number() {
        assert_eq!(Refusal::check(0), Ok(()));
        for &refusal in Refusal::ALL {
            let number = refusal.number();
            assert_eq!(Refusal::check(number), Err(refusal));
            assert!(refusal.to_string().starts_with(&format!("{number}: ")));
        }
    }

    #[test]
    fn all_are_there_once_and_in_the_order_of_their_numbers() {
        let found: Vec<_> = (0..=u8::MAX).filter_map(Refusal::from_number).collect();
        assert_eq!(found, Refusal::ALL);
    }

    #[test]
    #[should_panic(expected = "refuses with 255, which this crate has no name for")]
    fn a_number_that_no_refusal_has_is_told_apart() {
        let _ = Refusal::check(255);
    }
}
