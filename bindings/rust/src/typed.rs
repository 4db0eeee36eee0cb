//! Types whose values are keys, and sets of them.

use crate::convert::show;
use crate::fault::{Fault, Full};
use crate::options::Options;
use crate::order::{self, Range, Scanned};
use crate::set::Set;
use crate::shown::Shown;
use crate::typed_worker::WorkerOf;
use crate::MOST_KEY;
use std::collections::BTreeSet;
use std::fmt;
use std::marker::PhantomData;
use std::ops::{Bound, RangeBounds};
use std::time::Duration;

/// A type whose values a [`SetOf`] or a [`MapOf`](crate::MapOf) has as keys: it maps them to keys
/// and back, and keeps their order.
///
/// It is implemented for the integers of at most 64 bits, `char`, `f32`, `f64`, strings of bytes
/// (`[u8; N]` of 1 to 8 bytes, all of which count, also zero bytes at the end), and for tuples of
/// two to four of these that have 64 bits together at most. 2^64 - 3 and greater numbers are no
/// keys ([`MOST_KEY`]): so of a type with 64 bits the three greatest values return
/// [`Fault::Value`], with the value in its text. NaN returns [`Fault::Unordered`]. -0.0 and 0.0
/// are one key, which comes back as 0.0.
///
/// A type of the program's own, here the time of a task and its number:
///
/// ```
/// use nm_set::{Fault, Key, SetOf};
///
/// #[derive(Clone, Copy, Debug, PartialEq, Eq, PartialOrd, Ord)]
/// struct Due {
///     seconds: u64, // below 2^40
///     task: u32,    // below 2^24
/// }
///
/// impl Key for Due {
///     const BITS: u32 = 64;
///     fn to_key(self) -> u64 {
///         self.seconds << 24 | u64::from(self.task)
///     }
///     fn from_key(key: u64) -> Due {
///         Due { seconds: key >> 24, task: key as u32 & 0xff_ffff }
///     }
/// }
///
/// # fn main() -> Result<(), Fault> {
/// let due = SetOf::<Due>::new()?;
/// due.insert(Due { seconds: 1_700_000_000, task: 7 })?;
/// due.insert(Due { seconds: 1_600_000_000, task: 9 })?;
/// assert_eq!(due.pop_first()?.map(|due| due.task), Some(9));
/// # Ok(())
/// # }
/// ```
#[cfg_attr(
    says_what_to_do,
    diagnostic::on_unimplemented(
        message = "`{Self}` has no mapping to keys of a set or a map",
        label = "no `nm_set::Key`",
        note = "take an integer, `char`, `f64`, `[u8; 8]`, or a tuple of these with at most 64 bits",
        note = "or implement `nm_set::Key` for a type of your own"
    )
)]
pub trait Key: Copy + PartialOrd {
    /// The number of bits of the keys: each key is below 2^BITS.
    const BITS: u32;

    /// Returns the key of a value. A lesser value has a lesser key.
    fn to_key(self) -> u64;

    /// Returns the value of a key that `to_key` returned.
    fn from_key(key: u64) -> Self;

    /// Returns whether the value has a place in the order of its type. NaN has none, and is no key.
    fn is_ordered(self) -> bool {
        true
    }

    /// Writes the value for the text of [`Fault::Value`]. If a type does not say how, this writes
    /// the number of its key.
    fn write_to(self, to: &mut dyn fmt::Write) -> fmt::Result {
        write!(to, "with the key {}", self.to_key())
    }
}

macro_rules! unsigned {
    ($($type:ty),*) => {$(
        impl Key for $type {
            const BITS: u32 = <$type>::BITS;
            fn to_key(self) -> u64 {
                self as u64
            }
            fn from_key(key: u64) -> $type {
                key as $type
            }
            fn write_to(self, to: &mut dyn fmt::Write) -> fmt::Result {
                write!(to, "{self}")
            }
        }
    )*};
}

/// The sign bit is turned: the least number is key 0.
macro_rules! signed {
    ($($type:ty as $unsigned:ty),*) => {$(
        impl Key for $type {
            const BITS: u32 = <$type>::BITS;
            fn to_key(self) -> u64 {
                ((self as $unsigned) ^ (1 << (<$type>::BITS - 1))) as u64
            }
            fn from_key(key: u64) -> $type {
                (key as $unsigned ^ (1 << (<$type>::BITS - 1))) as $type
            }
            fn write_to(self, to: &mut dyn fmt::Write) -> fmt::Result {
                write!(to, "{self}")
            }
        }
    )*};
}

unsigned!(u8, u16, u32, u64, usize);
signed!(i8 as u8, i16 as u16, i32 as u32, i64 as u64, isize as usize);

/// Of a number with a sign all bits are turned, and of another one the sign bit: so the bits ascend
/// with the numbers.
macro_rules! float {
    ($($type:ty as $unsigned:ty),*) => {$(
        impl Key for $type {
            const BITS: u32 = <$unsigned>::BITS;
            fn to_key(self) -> u64 {
                let bits = (self + 0.0).to_bits(); // -0.0 becomes 0.0
                let sign = 1 << (<$unsigned>::BITS - 1);
                (if bits & sign == 0 { bits | sign } else { !bits }) as u64
            }
            fn from_key(key: u64) -> $type {
                let bits = key as $unsigned;
                let sign = 1 << (<$unsigned>::BITS - 1);
                <$type>::from_bits(if bits & sign == 0 { !bits } else { bits ^ sign })
            }
            fn is_ordered(self) -> bool {
                !self.is_nan()
            }
            fn write_to(self, to: &mut dyn fmt::Write) -> fmt::Result {
                write!(to, "{self:?}")
            }
        }
    )*};
}

float!(f32 as u32, f64 as u64);

impl Key for char {
    const BITS: u32 = u32::BITS;

    fn to_key(self) -> u64 {
        self.into()
    }

    fn from_key(key: u64) -> char {
        u32::try_from(key)
            .ok()
            .and_then(char::from_u32)
            .expect("to_key returned the key")
    }

    fn write_to(self, to: &mut dyn fmt::Write) -> fmt::Result {
        write!(to, "{self:?}")
    }
}

/// The first byte decides, and then the next one.
impl<const N: usize> Key for [u8; N] {
    const BITS: u32 = {
        assert!(N >= 1 && N <= 8, "a key has 1 to 8 bytes");
        8 * N as u32
    };

    fn to_key(self) -> u64 {
        self.iter().fold(0, |key, &byte| key << 8 | u64::from(byte))
    }

    fn from_key(key: u64) -> [u8; N] {
        let bytes = key.to_be_bytes();
        std::array::from_fn(|at| bytes[8 - N + at])
    }

    fn write_to(self, to: &mut dyn fmt::Write) -> fmt::Result {
        write!(to, "b\"{}\"", self.escape_ascii())
    }
}

/// The first value decides, and then the next one. A tuple of more than 64 bits does not compile.
macro_rules! tuple {
    ($first:ident $first_at:tt $(, $part:ident $at:tt)*) => {
        impl<$first: Key $(, $part: Key)*> Key for ($first $(, $part)*) {
            const BITS: u32 = {
                assert!(
                    $first::BITS $(+ $part::BITS)* <= 64,
                    "the types of the tuple have more than 64 bits together"
                );
                $first::BITS $(+ $part::BITS)*
            };

            fn to_key(self) -> u64 {
                debug_assert!(Self::BITS <= 64);
                let key = self.$first_at.to_key();
                $(let key = key << $part::BITS | self.$at.to_key();)*
                key
            }

            fn from_key(key: u64) -> Self {
                let mut above = Self::BITS;
                let mut part = |bits: u32| {
                    above -= bits;
                    key >> above & (u64::MAX >> (64 - bits))
                };
                ($first::from_key(part($first::BITS)) $(, $part::from_key(part($part::BITS)))*)
            }

            fn is_ordered(self) -> bool {
                self.$first_at.is_ordered() $(&& self.$at.is_ordered())*
            }

            fn write_to(self, to: &mut dyn fmt::Write) -> fmt::Result {
                to.write_char('(')?;
                self.$first_at.write_to(to)?;
                $(
                    to.write_str(", ")?;
                    self.$at.write_to(to)?;
                )*
                to.write_char(')')
            }
        }
    };
}

tuple!(A 0, B 1);
tuple!(A 0, B 1, C 2);
tuple!(A 0, B 1, C 2, D 3);

/// What a call returns for a key, which a typed set or map returns with the value of the key.
pub trait Entry<K> {
    /// What a typed set or map returns.
    type Typed;
    /// Returns the key.
    fn key(&self) -> u64;
    /// Returns the entry with the value of its key.
    fn typed(self) -> Self::Typed;
}

impl<K: Key> Entry<K> for u64 {
    type Typed = K;

    fn key(&self) -> u64 {
        *self
    }

    fn typed(self) -> K {
        K::from_key(self)
    }
}

impl<K: Key, V> Entry<K> for (u64, V) {
    type Typed = (K, V);

    fn key(&self) -> u64 {
        self.0
    }

    fn typed(self) -> (K, V) {
        (K::from_key(self.0), self.1)
    }
}

/// Returns the key of a bound, which may be no key, or `Unordered` if it has no place in the
/// order. A mapping whose bits do not fit does not compile.
pub(crate) fn bound_of<K: Key>(value: K) -> Result<u64, Fault> {
    let _ = K::BITS;
    if !value.is_ordered() {
        return Err(Fault::Unordered(Shown::of(|to| value.write_to(to))));
    }
    Ok(value.to_key())
}

/// Returns the key of a value, or the fault if it has none.
pub(crate) fn key_of<K: Key>(value: K) -> Result<u64, Fault> {
    let key = bound_of(value)?;
    if key > MOST_KEY {
        return Err(Fault::Value(Shown::of(|to| value.write_to(to))));
    }
    Ok(key)
}

/// Returns what a scan from a value on returns: it reads one key more than `room`, so that `next`
/// is a value that there was.
pub(crate) fn scan_of<K: Key, E: Entry<K>>(
    from: K,
    room: usize,
    scan: impl FnOnce(u64, usize) -> Result<Scanned<E>, Fault>,
) -> Result<Scanned<E::Typed, K>, Fault> {
    let mut entries = scan(bound_of(from)?, room.saturating_add(1))?.entries;
    let next = if entries.len() > room {
        entries.pop()
    } else {
        None
    };
    Ok(Scanned {
        entries: entries.into_iter().map(E::typed).collect(),
        next: next.map(|entry| K::from_key(entry.key())),
    })
}

/// Returns the keys of these values, or the fault of the first one that has none.
pub(crate) fn keys_of<K: Key>(values: &[K]) -> Result<Vec<u64>, Fault> {
    values.iter().map(|&value| key_of(value)).collect()
}

/// Returns the keys of a set of values. A value that has no key is in no set.
fn set_of<K: Key + Ord>(values: &BTreeSet<K>) -> BTreeSet<u64> {
    values.iter().map(|&value| value.to_key()).collect()
}

/// The bounds of the keys of a range of values. It panics if a bound has no place in the order.
#[track_caller]
pub(crate) fn bounds_of<K: Key>(range: impl RangeBounds<K>) -> (Bound<u64>, Bound<u64>) {
    let ends = [range.start_bound(), range.end_bound()].map(|bound| match bound {
        Bound::Included(&value) => Ok(Bound::Included(bound_of(value)?)),
        Bound::Excluded(&value) => Ok(Bound::Excluded(bound_of(value)?)),
        Bound::Unbounded => Ok(Bound::Unbounded),
    });
    match ends {
        [Ok(start), Ok(end)] => (start, end),
        [Err(fault), _] | [_, Err(fault)] => panic_by(fault),
    }
}

/// Panics by a fault, in a call that returns none.
#[track_caller]
pub(crate) fn panic_by(fault: Fault) -> ! {
    panic!("{fault}")
}

/// A [`Set`] whose keys are values of a type that maps to keys: see [`Key`]. Each call makes the
/// call of the same name of [`Set`], with its waits and faults. A clone is the same set.
///
/// ```
/// # fn main() -> Result<(), nm_set::Fault> {
/// use nm_set::SetOf;
/// let numbers = SetOf::<i64>::new()?;
/// assert_eq!(numbers.extend([5, -7, 0])?, 3);
/// assert_eq!(numbers.first()?, Some(-7));
/// let pairs = SetOf::<(u32, u32)>::new()?;
/// pairs.extend([(2, 1), (1, 9), (1, 3)])?;
/// let ones: Result<Vec<_>, _> = pairs.range((1, 0)..(2, 0)).collect();
/// assert_eq!(ones?, [(1, 3), (1, 9)]);
/// # Ok(())
/// # }
/// ```
///
/// A pair of more than 64 bits does not compile:
///
/// ```compile_fail
/// let set = nm_set::SetOf::<(u64, u8)>::new().unwrap();
/// set.insert((1, 2)).unwrap();
/// ```
pub struct SetOf<K: Key> {
    set: Set,
    of: PhantomData<fn(K) -> K>,
}

impl<K: Key> Clone for SetOf<K> {
    fn clone(&self) -> SetOf<K> {
        SetOf {
            set: self.set.clone(),
            of: PhantomData,
        }
    }
}

impl<K: Key> From<Set> for SetOf<K> {
    /// Returns the set of values of a set of keys.
    fn from(set: Set) -> SetOf<K> {
        SetOf {
            set,
            of: PhantomData,
        }
    }
}

impl<K: Key> SetOf<K> {
    /// Makes the empty set, which grows: see [`Set::new`].
    pub fn new() -> Result<SetOf<K>, Fault> {
        Set::new().map(SetOf::from)
    }

    /// Makes the empty set, which grows, by these options: see [`Set::growing`].
    pub fn growing(options: Options) -> Result<SetOf<K>, Fault> {
        Set::growing(options).map(SetOf::from)
    }

    /// Makes the empty set with this many nodes: see [`Set::with_nodes`].
    pub fn with_nodes(nodes: u32) -> Result<SetOf<K>, Fault> {
        Set::with_nodes(nodes).map(SetOf::from)
    }

    /// Makes the empty set with this many nodes, by these options: see [`Set::with_options`].
    pub fn with_options(nodes: u32, options: Options) -> Result<SetOf<K>, Fault> {
        Set::with_options(nodes, options).map(SetOf::from)
    }

    /// Returns the set of keys.
    pub fn keys(&self) -> &Set {
        &self.set
    }

    /// Returns whether the set has the value.
    pub fn contains(&self, value: K) -> Result<bool, Fault> {
        self.set.contains(key_of(value)?)
    }

    /// Returns whether the set has each of these values, in their order.
    pub fn contains_many(&self, values: &[K]) -> Result<Vec<bool>, Fault> {
        self.set.contains_many(&keys_of(values)?)
    }

    /// Inserts a value; returns true if it was absent.
    pub fn insert(&self, value: K) -> Result<bool, Fault> {
        self.set.insert(key_of(value)?)
    }

    /// Removes a value; returns true if it was present.
    pub fn remove(&self, value: K) -> Result<bool, Fault> {
        self.set.remove(key_of(value)?)
    }

    /// Inserts these values, one by one; returns how many were absent.
    pub fn extend(&self, values: impl IntoIterator<Item = K>) -> Result<usize, Fault> {
        order::extend(values, |value| self.insert(value))
    }

    /// Inserts these values, one by one, and appends to `answers` whether each was absent. All are
    /// tested before the first one is inserted: see [`Set::insert_many`].
    pub fn insert_many(&self, values: &[K], answers: &mut Vec<bool>) -> Result<(), Fault> {
        self.set.insert_many(&keys_of(values)?, answers)
    }

    /// Removes these values in the same way, and appends whether each was present.
    pub fn remove_many(&self, values: &[K], answers: &mut Vec<bool>) -> Result<(), Fault> {
        self.set.remove_many(&keys_of(values)?, answers)
    }

    /// Removes the values of a range, one by one; returns how many: see [`Set::remove_range`].
    ///
    /// # Panics
    ///
    /// It panics if the start of the range is after its end, or if a bound is NaN.
    #[track_caller]
    pub fn remove_range(&self, bounds: impl RangeBounds<K>) -> Result<u64, Fault> {
        self.set.remove_range(bounds_of(bounds))
    }

    /// Removes each value for which the function returns false: see [`Set::retain`].
    pub fn retain(&self, mut stays: impl FnMut(K) -> bool) -> Result<(), Fault> {
        self.set.retain(|key| stays(K::from_key(key)))
    }

    /// Removes all values. A value that is inserted meanwhile may remain.
    pub fn clear(&self) -> Result<(), Fault> {
        self.set.clear()
    }

    /// Returns whether each value of the set is one of these.
    pub fn is_subset(&self, other: &BTreeSet<K>) -> Result<bool, Fault>
    where
        K: Ord,
    {
        self.set.is_subset(&set_of(other))
    }

    /// Returns whether the set has each of these values.
    pub fn is_superset(&self, other: &BTreeSet<K>) -> Result<bool, Fault>
    where
        K: Ord,
    {
        let has_keys = other.iter().all(|value| value.to_key() <= MOST_KEY);
        Ok(has_keys && self.set.is_superset(&set_of(other))?)
    }

    /// Returns whether the set has none of these values.
    pub fn is_disjoint(&self, other: &BTreeSet<K>) -> Result<bool, Fault>
    where
        K: Ord,
    {
        self.set.is_disjoint(&set_of(other))
    }

    /// Returns the least value that is not below this one, or None if there is none.
    pub fn at_least(&self, value: K) -> Result<Option<K>, Fault> {
        Ok(self.set.at_least(key_of(value)?)?.map(K::from_key))
    }

    /// Returns the greatest value that is not above this one, or None if there is none.
    pub fn at_most(&self, value: K) -> Result<Option<K>, Fault> {
        let key = bound_of(value)?.min(MOST_KEY);
        Ok(self.set.at_most(key)?.map(K::from_key))
    }

    /// Returns the least value, or None if the set is empty.
    pub fn first(&self) -> Result<Option<K>, Fault> {
        Ok(self.set.first()?.map(K::from_key))
    }

    /// Returns the greatest value, or None if the set is empty.
    pub fn last(&self) -> Result<Option<K>, Fault> {
        Ok(self.set.last()?.map(K::from_key))
    }

    /// Removes the least value and returns it, or None if the set is empty: see [`Set::pop_first`].
    pub fn pop_first(&self) -> Result<Option<K>, Fault> {
        Ok(self.set.pop_first()?.map(K::from_key))
    }

    /// Removes the greatest value and returns it, or None if the set is empty.
    pub fn pop_last(&self) -> Result<Option<K>, Fault> {
        Ok(self.set.pop_last()?.map(K::from_key))
    }

    /// Removes the least value if it is below a bound, and returns it, or None if none is.
    pub fn pop_first_below(&self, below: K) -> Result<Option<K>, Fault> {
        Ok(self.set.pop_first_below(bound_of(below)?)?.map(K::from_key))
    }

    /// Removes the greatest value if it is not below a bound, and returns it.
    pub fn pop_last_from(&self, from: K) -> Result<Option<K>, Fault> {
        Ok(self.set.pop_last_from(bound_of(from)?)?.map(K::from_key))
    }

    /// Removes the least values that are below a bound, at most `room`, and returns them: see
    /// [`Set::pop_first_many`].
    pub fn pop_first_many(&self, below: K, room: usize) -> Result<Vec<K>, Fault> {
        let keys = self.set.pop_first_many(bound_of(below)?, room)?;
        Ok(keys.into_iter().map(K::from_key).collect())
    }

    /// Removes the least value and returns it, after a wait for one of at most `timeout`: see
    /// [`Set::wait_pop`].
    pub fn wait_pop(&self, timeout: Duration) -> Result<Option<K>, Fault> {
        Ok(self.set.wait_pop(timeout)?.map(K::from_key))
    }

    /// Does the same with the least value that is below a bound.
    pub fn wait_pop_below(&self, below: K, timeout: Duration) -> Result<Option<K>, Fault> {
        let key = self.set.wait_pop_below(bound_of(below)?, timeout)?;
        Ok(key.map(K::from_key))
    }

    /// Returns the least value, after a wait for one of at most `timeout`, and removes nothing: see
    /// [`Set::wait_first`].
    pub fn wait_first(&self, timeout: Duration) -> Result<Option<K>, Fault> {
        Ok(self.set.wait_first(timeout)?.map(K::from_key))
    }

    /// Does the same with the least value that is below a bound.
    pub fn wait_first_below(&self, below: K, timeout: Duration) -> Result<Option<K>, Fault> {
        let key = self.set.wait_first_below(bound_of(below)?, timeout)?;
        Ok(key.map(K::from_key))
    }

    /// Returns how many values of a range there are: see [`Set::count`].
    ///
    /// # Panics
    ///
    /// It panics if the start of the range is after its end, or if a bound is NaN: see
    /// [`Set::range`].
    #[track_caller]
    pub fn count(&self, bounds: impl RangeBounds<K>) -> Result<u64, Fault> {
        self.set.count(bounds_of(bounds))
    }

    /// Returns an iterator over the values of a range, in both directions: see [`Set::range`].
    ///
    /// # Panics
    ///
    /// It panics if the start of the range is after its end, or if a bound is NaN: see
    /// [`Set::range`].
    #[track_caller]
    pub fn range(&self, bounds: impl RangeBounds<K>) -> Values<K, Range<&Set>> {
        Values::of(self.set.range(bounds_of(bounds)))
    }

    /// Returns an iterator over all values, in the way of [`range`](SetOf::range).
    pub fn iter(&self) -> Values<K, Range<&Set>> {
        self.range(..)
    }

    /// Returns at most `room` values from one on, and where to go on: see [`Set::scan`]. That is a
    /// value that the set had, for which the scan reads one key more.
    pub fn scan(&self, from: K, room: usize) -> Result<Scanned<K, K>, Fault> {
        scan_of(from, room, |key, room| self.set.scan(key, room))
    }

    /// Returns how many values the set has: see [`Set::len`].
    pub fn len(&self) -> Result<usize, Fault> {
        self.set.len()
    }

    /// Returns whether the set has no value.
    pub fn is_empty(&self) -> Result<bool, Fault> {
        self.set.is_empty()
    }

    /// Returns the number of removed nodes that wait to be freed: see [`Set::waiting`].
    pub fn waiting(&self) -> Result<u64, Fault> {
        self.set.waiting()
    }

    /// Returns how many nodes are free: see [`Set::free`].
    pub fn free(&self) -> Result<u64, Fault> {
        self.set.free()
    }

    /// Returns how full the set is: see [`Set::stats`].
    pub fn stats(&self) -> Result<Full, Fault> {
        self.set.stats()
    }

    /// Returns how often the set has got a new size, and the longest pause: see [`Set::growths`].
    pub fn growths(&self) -> Result<(u64, Duration), Fault> {
        self.set.growths()
    }

    /// Returns the number of nodes for which the set has room.
    pub fn nodes(&self) -> u64 {
        self.set.nodes()
    }

    /// Returns how many values the set can have if no removed node waits.
    pub fn capacity(&self) -> usize {
        self.set.capacity()
    }

    /// Makes room for this many values: see [`Set::reserve`].
    pub fn reserve(&self, values: usize) -> Result<(), Fault> {
        self.set.reserve(values)
    }

    /// Gives back memory: see [`Set::shrink_to_fit`].
    pub fn shrink_to_fit(&self) -> Result<(), Fault> {
        self.set.shrink_to_fit()
    }

    /// Returns how many workers the set has.
    pub fn workers(&self) -> u32 {
        self.set.workers()
    }

    /// Frees what has waited long enough, and returns how many nodes: see [`Set::collect`].
    pub fn collect(&self) -> Result<u64, Fault> {
        self.set.collect()
    }

    /// Attaches a worker to this thread: see [`Set::attach`].
    pub fn attach(&self) -> Result<WorkerOf<K>, Fault> {
        self.set.attach().map(WorkerOf::from)
    }

    /// Attaches a worker, and waits for none: see [`Set::try_attach`].
    pub fn try_attach(&self) -> Result<WorkerOf<K>, Fault> {
        self.set.try_attach().map(WorkerOf::from)
    }

    /// Attaches a worker, after a wait of at most `timeout`: see [`Set::attach_timeout`].
    pub fn attach_timeout(&self, timeout: Duration) -> Result<WorkerOf<K>, Fault> {
        self.set.attach_timeout(timeout).map(WorkerOf::from)
    }

    /// Attaches the worker of a number: see [`Set::worker`].
    pub fn worker(&self, number: u32) -> Result<WorkerOf<K>, Fault> {
        self.set.worker(number).map(WorkerOf::from)
    }

    /// Ends the set, and returns the values that it had, ascending: see [`Set::close`].
    pub fn close(&self) -> Result<Vec<K>, Fault> {
        let report = self.set.close()?;
        Ok(report.keys().iter().map(|&key| K::from_key(key)).collect())
    }
}

impl<K: Key + fmt::Debug> fmt::Debug for SetOf<K> {
    /// Writes the first ten values, and two dots if there are more, like `Debug` of [`Set`].
    fn fmt(&self, f: &mut fmt::Formatter<'_>) -> fmt::Result {
        show(&self.set, "SetOf", K::from_key, f)
    }
}

/// The values of a range, or of a map the entries: see [`SetOf::range`].
pub struct Values<K, I> {
    keys: I,
    of: PhantomData<fn(K) -> K>,
}

impl<K, I> Values<K, I> {
    pub(crate) fn of(keys: I) -> Values<K, I> {
        Values {
            keys,
            of: PhantomData,
        }
    }
}

impl<K, I> fmt::Debug for Values<K, I> {
    fn fmt(&self, f: &mut fmt::Formatter<'_>) -> fmt::Result {
        f.debug_struct("Values").finish_non_exhaustive()
    }
}

impl<K: Key, E: Entry<K>, I: Iterator<Item = Result<E, Fault>>> Iterator for Values<K, I> {
    type Item = Result<E::Typed, Fault>;

    fn next(&mut self) -> Option<Self::Item> {
        Some(self.keys.next()?.map(E::typed))
    }
}

impl<K: Key, E: Entry<K>, I: DoubleEndedIterator<Item = Result<E, Fault>>> DoubleEndedIterator
    for Values<K, I>
{
    fn next_back(&mut self) -> Option<Self::Item> {
        Some(self.keys.next_back()?.map(E::typed))
    }
}

impl<'a, K: Key> IntoIterator for &'a SetOf<K> {
    type Item = Result<K, Fault>;
    type IntoIter = Values<K, Range<&'a Set>>;

    fn into_iter(self) -> Self::IntoIter {
        self.iter()
    }
}

impl<K: Key> FromIterator<K> for SetOf<K> {
    /// Returns a set of these values, which grows.
    ///
    /// # Panics
    ///
    /// It panics if a value is no key, or if memory is refused. [`SetOf::new`] and
    /// [`SetOf::extend`] return a fault instead.
    fn from_iter<I: IntoIterator<Item = K>>(values: I) -> SetOf<K> {
        let key = |value| key_of(value).unwrap_or_else(|fault| panic_by(fault));
        SetOf::from(values.into_iter().map(key).collect::<Set>())
    }
}

impl<K: Key, const N: usize> From<[K; N]> for SetOf<K> {
    /// Returns a set of these values, which grows: see [`from_iter`](SetOf::from_iter).
    ///
    /// # Panics
    ///
    /// It panics if a value is no key, or if memory is refused.
    fn from(values: [K; N]) -> SetOf<K> {
        values.into_iter().collect()
    }
}

impl<K: Key> Extend<K> for SetOf<K> {
    /// Inserts these values.
    ///
    /// # Panics
    ///
    /// It panics if the inherent [`SetOf::extend`] returns a fault.
    fn extend<I: IntoIterator<Item = K>>(&mut self, values: I) {
        if let Err(fault) = SetOf::extend(self, values) {
            panic_by(fault)
        }
    }
}
