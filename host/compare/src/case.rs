//! A case of a comparison: it is written by its bits, read back, and made smaller.

use crate::mappings::mapping;
use crate::text::{Text, Words};
use merlontrispa::{Drawn, Mapping, Texture, Tolerances, Vector};
use std::collections::HashSet;
use std::ops::Range;

/// Cases that are smaller than another.
pub type Smaller<T> = Box<dyn Iterator<Item = T>>;

/// The input of a comparison.
pub trait Case: Clone + 'static {
    /// Writes it, each float by its bits.
    fn write(&self, text: &mut Text);

    /// What `write` wrote, or a sentence that says where the words are not such.
    fn read(words: &mut Words<'_>) -> Result<Self, String>;

    /// Cases that are smaller or plainer than this one, the smallest first. None leads back to it.
    fn smaller(&self) -> Smaller<Self>;

    /// Writes it as the field of a struct.
    fn write_field(&self, name: &str, text: &mut Text) {
        text.field(name);
        self.write(text);
    }

    /// What `write_field` wrote.
    fn read_field(name: &str, words: &mut Words<'_>) -> Result<Self, String> {
        words.expect(name)?;
        Self::read(words)
    }
}

/// Makes a struct a case by its fields: each has a line of its own, and may be made smaller alone. What
/// `first` hands back is tried before.
macro_rules! case {
    ($type:ident { $($field:ident),+ } $(, first $first:expr)?) => {
        impl $crate::case::Case for $type {
            fn write(&self, text: &mut $crate::text::Text) {
                $(self.$field.write_field(stringify!($field), text);)+
            }

            fn read(words: &mut $crate::text::Words<'_>) -> Result<Self, String> {
                Ok(Self {
                    $($field: $crate::case::Case::read_field(stringify!($field), words)?),+
                })
            }

            fn smaller(&self) -> $crate::case::Smaller<Self> {
                let all = std::iter::empty();
                $(let all = all.chain($first(self));)?
                $(
                    let this = self.clone();
                    let all = all.chain(self.$field.smaller().map(move |smaller| {
                        let mut this = this.clone();
                        this.$field = smaller;
                        this
                    }));
                )+
                Box::new(all)
            }
        }
    };
}
pub(crate) use case;

case!(Vector { x, y, z });
case!(Drawn { points, lines });
case!(Tolerances { u, v, line });

impl Case for f64 {
    fn write(&self, text: &mut Text) {
        text.word(format_args!("{:016X}({self:?})", self.to_bits()));
    }

    fn read(words: &mut Words<'_>) -> Result<Self, String> {
        words.parse("a float by its 16 digits", |word| {
            let digits = word.split('(').next().filter(|digits| digits.len() == 16)?;
            u64::from_str_radix(digits, 16).ok().map(Self::from_bits)
        })
    }

    fn smaller(&self) -> Smaller<Self> {
        let x = *self;
        let plain = [0.0, 1.0, -1.0, 0.5, -0.5, x.abs(), x.trunc()];
        let shorter = [0, 1, 2, 4, 8, 16, 32].map(|bits| keep(x, bits));
        let all = plain.into_iter().chain(shorter);
        Box::new(all.filter(move |&y| plainness(y) < plainness(x)))
    }
}

/// The float with only so many of the 52 bits of its fraction.
fn keep(x: f64, bits: u32) -> f64 {
    f64::from_bits(x.to_bits() & !(u64::MAX >> (12 + bits)))
}

/// Zero, whole, finite, infinite, NaN; then fewer bits of the fraction, then nearer to 1, then
/// positive.
fn plainness(x: f64) -> (u8, u32, u64, bool) {
    let kind = match x {
        0.0 => 0,
        _ if x.is_nan() => 4,
        _ if x.is_infinite() => 3,
        _ if x.trunc() != x => 2,
        _ => 1,
    };
    let bits = x.to_bits();
    let (fraction, exponent) = (bits & (u64::MAX >> 12), bits >> 52 & 0x7FF);
    let length = 52 - fraction.trailing_zeros().min(52);
    (kind, length, exponent.abs_diff(1023), bits >> 63 == 1)
}

impl Case for usize {
    fn write(&self, text: &mut Text) {
        text.word(self);
    }

    fn read(words: &mut Words<'_>) -> Result<Self, String> {
        words.parse("a whole number", |word| word.parse().ok())
    }

    /// 0, the half, three quarters, and so on up to one less.
    fn smaller(&self) -> Smaller<Self> {
        let n = *self;
        let parts = (0..Self::BITS).map(move |k| n >> k);
        Box::new(parts.take_while(|&part| part > 0).map(move |part| n - part))
    }
}

impl Case for u8 {
    fn write(&self, text: &mut Text) {
        text.word(self);
    }

    fn read(words: &mut Words<'_>) -> Result<Self, String> {
        words.parse("a whole number up to 255", |word| word.parse().ok())
    }

    fn smaller(&self) -> Smaller<Self> {
        Box::new(usize::from(*self).smaller().map(|n| n as Self))
    }
}

impl<T: Case, const N: usize> Case for [T; N] {
    fn write(&self, text: &mut Text) {
        self.iter().for_each(|x| x.write(text));
    }

    fn read(words: &mut Words<'_>) -> Result<Self, String> {
        let list: Vec<T> = (0..N).map(|_| T::read(words)).collect::<Result<_, _>>()?;
        list.try_into()
            .map_err(|_| format!("there are not {N} values"))
    }

    fn smaller(&self) -> Smaller<Self> {
        let this = self.clone();
        Box::new((0..N).flat_map(move |i| {
            let this = this.clone();
            this[i].smaller().map(move |x| {
                let mut this = this.clone();
                this[i] = x;
                this
            })
        }))
    }
}

impl<A: Case, B: Case> Case for (A, B) {
    fn write(&self, text: &mut Text) {
        self.0.write(text);
        self.1.write(text);
    }

    fn read(words: &mut Words<'_>) -> Result<Self, String> {
        Ok((A::read(words)?, B::read(words)?))
    }

    fn smaller(&self) -> Smaller<Self> {
        let (a, b) = self.clone();
        let first = self.0.smaller().map(move |a| (a, b.clone()));
        let second = self.1.smaller().map(move |b| (a.clone(), b));
        Box::new(first.chain(second))
    }
}

/// A field of this type has no line where it is `None`, and stays what it is of the two.
impl<T: Case> Case for Option<T> {
    fn write(&self, text: &mut Text) {
        self.iter().for_each(|x| x.write(text));
    }

    fn read(words: &mut Words<'_>) -> Result<Self, String> {
        T::read(words).map(Some)
    }

    fn smaller(&self) -> Smaller<Self> {
        match self {
            None => Box::new(std::iter::empty()),
            Some(x) => Box::new(x.smaller().map(Some)),
        }
    }

    fn write_field(&self, name: &str, text: &mut Text) {
        self.iter().for_each(|x| x.write_field(name, text));
    }

    fn read_field(name: &str, words: &mut Words<'_>) -> Result<Self, String> {
        words.take(name).then(|| T::read(words)).transpose()
    }
}

impl<T: Case> Case for Vec<T> {
    fn write(&self, text: &mut Text) {
        text.word("[");
        self.iter().for_each(|x| x.write(text));
        text.word("]");
    }

    fn read(words: &mut Words<'_>) -> Result<Self, String> {
        words.expect("[")?;
        let mut list = Self::new();
        while !words.take("]") {
            list.push(T::read(words)?);
        }
        Ok(list)
    }

    /// Fewer values; plainer ones in a whole stretch; one value plainer.
    fn smaller(&self) -> Smaller<Self> {
        let [first, second, third] = [0; 3].map(|_| self.clone());
        let length = self.len();
        let shorter = stretches(length).map(move |stretch| without(&first, &stretch));
        let long = stretches(length).filter(|stretch| stretch.len() > 1);
        let plainer = long.filter_map(move |stretch| plainer(&second, stretch));
        let one = (0..length).flat_map(move |i| {
            let list = third.clone();
            list[i].smaller().map(move |x| {
                let mut list = list.clone();
                list[i] = x;
                list
            })
        });
        Box::new(shorter.chain(plainer).chain(one))
    }
}

/// Stretches of so many places: all, the halves, the quarters, and so on down to each place alone.
pub fn stretches(length: usize) -> impl Iterator<Item = Range<usize>> {
    let sizes = (0..usize::BITS).map(move |k| length >> k);
    sizes.take_while(|&size| size > 0).flat_map(move |size| {
        let starts = (0..length).step_by(size);
        starts.map(move |start| start..length.min(start + size))
    })
}

/// A list without a stretch of it.
pub fn without<T: Clone>(list: &[T], stretch: &Range<usize>) -> Vec<T> {
    [&list[..stretch.start], &list[stretch.end..]].concat()
}

/// The list with one of its floats plainer, wherever it stands, so that what was equal stays so.
pub fn plainer_everywhere(numbers: &[f64]) -> impl Iterator<Item = Vec<f64>> + use<> {
    let numbers = numbers.to_vec();
    let mut seen = HashSet::new();
    let mut distinct = numbers.clone();
    distinct.retain(|x| seen.insert(x.to_bits()));
    distinct.into_iter().flat_map(move |x| {
        let numbers = numbers.clone();
        x.smaller().map(move |plain| {
            let other = |&y: &f64| if y.to_bits() == x.to_bits() { plain } else { y };
            numbers.iter().map(other).collect()
        })
    })
}

/// A list with each value of a stretch as plain as it can be, or nothing where all were so.
fn plainer<T: Case>(list: &[T], stretch: Range<usize>) -> Option<Vec<T>> {
    let (mut list, mut changed) = (list.to_vec(), false);
    for x in &mut list[stretch] {
        if let Some(plain) = x.smaller().next() {
            *x = plain;
            changed = true;
        }
    }
    changed.then_some(list)
}

impl Case for Mapping {
    fn write(&self, text: &mut Text) {
        let (way, offset, steps) = match *self {
            Self::Forward { offset, steps } => ("forward", offset, steps),
            Self::Reverse { offset, steps } => ("reverse", offset, steps),
        };
        text.word(way);
        [offset, steps].write(text);
    }

    fn read(words: &mut Words<'_>) -> Result<Self, String> {
        let reverse = words.parse("forward or reverse", |word| match word {
            "forward" => Some(false),
            "reverse" => Some(true),
            _ => None,
        })?;
        let [offset, steps] = Case::read(words)?;
        Ok(mapping(reverse, offset, steps))
    }

    fn smaller(&self) -> Smaller<Self> {
        let (reverse, numbers) = match *self {
            Self::Forward { offset, steps } => (false, [offset, steps]),
            Self::Reverse { offset, steps } => (true, [offset, steps]),
        };
        let forward = reverse.then(|| mapping(false, numbers[0], numbers[1]));
        let smaller = numbers.smaller();
        let smaller = smaller.map(move |[offset, steps]| mapping(reverse, offset, steps));
        Box::new(forward.into_iter().chain(smaller))
    }
}

impl Case for Texture {
    fn write(&self, text: &mut Text) {
        match *self {
            Self::Grid => text.word("grid"),
            Self::Swirl { spacing, twist } => {
                text.word("swirl");
                [spacing, twist].write(text);
            }
            Self::Spiral { spacing, arms } => {
                text.word("spiral");
                (spacing, arms).write(text);
            }
        }
    }

    fn read(words: &mut Words<'_>) -> Result<Self, String> {
        match words.next("grid, swirl or spiral")? {
            "grid" => Ok(Self::Grid),
            "swirl" => {
                let [spacing, twist] = Case::read(words)?;
                Ok(Self::Swirl { spacing, twist })
            }
            "spiral" => {
                let (spacing, arms) = Case::read(words)?;
                Ok(Self::Spiral { spacing, arms })
            }
            word => Err(format!("{word} stands where grid, swirl or spiral should")),
        }
    }

    fn smaller(&self) -> Smaller<Self> {
        match *self {
            Self::Grid => Box::new(std::iter::empty()),
            Self::Swirl { spacing, twist } => {
                let numbers = [spacing, twist].smaller();
                Box::new(numbers.map(|[spacing, twist]| Self::Swirl { spacing, twist }))
            }
            Self::Spiral { spacing, arms } => {
                let numbers = (spacing, arms).smaller();
                Box::new(numbers.map(|(spacing, arms)| Self::Spiral { spacing, arms }))
            }
        }
    }
}
