//! Types whose values are words: a map stores them in place.

/// A type of at most 64 bits, whose values a [`CopyMap`](crate::CopyMap) stores in place: it maps them
/// to words and back.
///
/// It is implemented for the integers and floats of at most 64 bits, `bool`, `char`, `()`, and for
/// arrays and for tuples of two to four of these that have 64 bits together at most. Each bit of a float
/// is kept, also of NaN and -0.0.
///
/// A type of the program's own:
///
/// ```
/// use nm_set::{CopyMap, Word};
///
/// #[derive(Clone, Copy, Debug, PartialEq, Eq)]
/// struct Price {
///     cents: u32,
///     is_final: bool,
/// }
///
/// impl Word for Price {
///     const BITS: u32 = <(u32, bool)>::BITS;
///     fn to_word(self) -> u64 {
///         (self.cents, self.is_final).to_word()
///     }
///     fn from_word(word: u64) -> Price {
///         let (cents, is_final) = Word::from_word(word);
///         Price { cents, is_final }
///     }
/// }
///
/// # fn main() -> Result<(), nm_set::Fault> {
/// let prices = CopyMap::from([(5, Price { cents: 250, is_final: false })]);
/// let raised = |old: Option<Price>| Price { cents: old.map_or(0, |old| old.cents) + 10, is_final: true };
/// assert_eq!(prices.attach()?.update(5, raised)?.cents, 260);
/// # Ok(())
/// # }
/// ```
///
/// A value of more than 64 bits does not compile:
///
/// ```compile_fail,E0080
/// let map = nm_set::CopyMap::<(u64, bool)>::new(64, 1).unwrap();
/// ```
#[cfg_attr(
    says_what_to_do,
    diagnostic::on_unimplemented(
        message = "a map does not store `{Self}` in place",
        label = "no `nm_set::Word`",
        note = "take an `nm_set::Map`, which owns values of every type",
        note = "or implement `nm_set::Word` for a type of at most 64 bits"
    )
)]
pub trait Word: Copy {
    /// The number of bits of the words, at most 64: each word is below 2^BITS.
    const BITS: u32;

    /// Returns the word of a value.
    fn to_word(self) -> u64;

    /// Returns the value of a word that `to_word` returned. Of this value it returns that word again.
    fn from_word(word: u64) -> Self;
}

/// Returns the number of bits of a type. One of more than 64 bits does not compile.
const fn fitting(bits: u32) -> u32 {
    assert!(bits <= 64, "a value in place has 64 bits at most");
    bits
}

/// Whether a type fits into a word: that of the program's own too.
pub(crate) struct Fits<V>(std::marker::PhantomData<V>);

impl<V: Word> Fits<V> {
    /// Its use does not compile if the type does not fit.
    pub(crate) const BITS: u32 = fitting(V::BITS);
}

/// Returns a word with another one of so many bits after it.
fn joined(word: u64, bits: u32, next: u64) -> u64 {
    word.checked_shl(bits).unwrap_or(0) | next
}

/// Returns so many bits of a word, after it is shifted down.
fn part(word: u64, below: u32, bits: u32) -> u64 {
    let mask = u64::MAX.checked_shr(64 - bits).unwrap_or(0);
    word.checked_shr(below).unwrap_or(0) & mask
}

macro_rules! integers {
    ($($type:ty),*) => {$(
        impl Word for $type {
            const BITS: u32 = <$type>::BITS;

            fn to_word(self) -> u64 {
                part(self as u64, 0, <$type>::BITS)
            }

            fn from_word(word: u64) -> $type {
                word as $type
            }
        }
    )*};
}

integers!(u8, u16, u32, u64, usize, i8, i16, i32, i64, isize);

macro_rules! floats {
    ($($type:ty as $bits:ty),*) => {$(
        impl Word for $type {
            const BITS: u32 = <$bits>::BITS;

            fn to_word(self) -> u64 {
                self.to_bits().into()
            }

            fn from_word(word: u64) -> $type {
                <$type>::from_bits(word as $bits)
            }
        }
    )*};
}

floats!(f32 as u32, f64 as u64);

impl Word for bool {
    const BITS: u32 = 1;

    fn to_word(self) -> u64 {
        self.into()
    }

    fn from_word(word: u64) -> bool {
        word != 0
    }
}

impl Word for char {
    const BITS: u32 = u32::BITS;

    fn to_word(self) -> u64 {
        self.into()
    }

    fn from_word(word: u64) -> char {
        char::from_u32(word as u32).expect("to_word returned the word")
    }
}

impl Word for () {
    const BITS: u32 = 0;

    fn to_word(self) -> u64 {
        0
    }

    fn from_word(_: u64) {}
}

impl<T: Word, const N: usize> Word for [T; N] {
    const BITS: u32 = {
        assert!(N <= 64, "a value in place has 64 bits at most");
        fitting(T::BITS * N as u32)
    };

    fn to_word(self) -> u64 {
        let next = |word, value: T| joined(word, T::BITS, value.to_word());
        self.into_iter().fold(0, next)
    }

    fn from_word(word: u64) -> [T; N] {
        let below = |at: usize| T::BITS * (N - 1 - at) as u32;
        std::array::from_fn(|at| T::from_word(part(word, below(at), T::BITS)))
    }
}

macro_rules! tuple {
    ($($part:ident $at:tt),*) => {
        impl<$($part: Word),*> Word for ($($part),*) {
            const BITS: u32 = fitting(0 $(+ $part::BITS)*);

            fn to_word(self) -> u64 {
                let word = 0;
                $(let word = joined(word, $part::BITS, self.$at.to_word());)*
                word
            }

            fn from_word(word: u64) -> Self {
                let mut below = Self::BITS;
                ($({
                    below -= $part::BITS;
                    $part::from_word(part(word, below, $part::BITS))
                }),*)
            }
        }
    };
}

tuple!(A 0, B 1);
tuple!(A 0, B 1, C 2);
tuple!(A 0, B 1, C 2, D 3);

#[cfg(test)]
mod tests {
    use super::Word;
    use std::fmt::Debug;

    /// Each value comes back, and its word has no more bits than its type.
    fn come_back<V: Word + PartialEq + Debug>(values: impl IntoIterator<Item = V>) {
        for value in values {
            let word = value.to_word();
            assert_eq!(V::from_word(word), value);
            assert!(V::BITS == 64 || word >> V::BITS == 0);
        }
    }

    #[test]
    fn values_come_back() {
        come_back([0, 1, u64::MAX]);
        come_back([0, 1, -1, i64::MIN, i64::MAX]);
        come_back([0_i8, -1, i8::MIN, i8::MAX]);
        come_back([0_u16, u16::MAX]);
        come_back([false, true]);
        come_back(['a', '\0', char::MAX]);
        come_back([()]);
        come_back([0.0, -1.5, f64::INFINITY, f64::MIN_POSITIVE]);
        come_back([[1_u8, 0, 255, 7, 0, 0, 9, 8]]);
        come_back([[true, false, true]]);
        come_back([[-1_i16, 0, i16::MIN, 5]]);
        come_back([[(); 3]]);
        come_back([[0_u64; 0]]);
        come_back([(u32::MAX, -5_i32), (0, i32::MIN)]);
        come_back([(-1_i8, true, 'x'), (5, false, char::MAX)]);
        come_back([(-1_i16, (), [1_u8, 2], f32::MIN)]);
        come_back([((), u64::MAX)]);
        come_back([(i64::MIN, ())]);
    }

    #[test]
    fn each_bit_of_a_float_is_kept() {
        for bits in [0, 1 << 63, f64::NAN.to_bits() | 5] {
            assert_eq!(f64::from_word(bits).to_word(), bits);
        }
    }
}
