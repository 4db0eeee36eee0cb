//! The traits of the standard library that a set implements.

use crate::fault::Fault;
use crate::order::Range;
use crate::set::Set;
use std::fmt;

/// The number of keys that `Debug` writes.
pub(crate) const SHOWN: usize = 10;

/// Returns a set of these keys, which grows.
fn made_of(keys: &[u64]) -> Result<Set, Fault> {
    let set = Set::new()?;
    set.reserve(keys.len())?;
    set.extend(keys.iter().copied())?;
    Ok(set)
}

/// Returns the value of a result, or panics, for a trait that returns no faults.
fn or_panic<T>(result: Result<T, Fault>) -> T {
    result.unwrap_or_else(|fault| panic!("{fault}"))
}

impl FromIterator<u64> for Set {
    /// Returns a set of these keys, which grows.
    ///
    /// # Panics
    ///
    /// It panics if a key is above [`MOST_KEY`](crate::MOST_KEY), or if memory is refused.
    /// [`Set::new`] and [`Set::extend`] return a fault instead.
    fn from_iter<I: IntoIterator<Item = u64>>(keys: I) -> Set {
        let keys: Vec<u64> = keys.into_iter().collect();
        or_panic(made_of(&keys))
    }
}

impl<const N: usize> From<[u64; N]> for Set {
    /// Returns a set of these keys, which grows.
    ///
    /// # Panics
    ///
    /// It panics if a key is above [`MOST_KEY`](crate::MOST_KEY), or if memory is refused.
    fn from(keys: [u64; N]) -> Set {
        or_panic(made_of(&keys))
    }
}

impl Extend<u64> for Set {
    /// Inserts these keys.
    ///
    /// # Panics
    ///
    /// It panics if the inherent [`Set::extend`] returns a fault.
    fn extend<I: IntoIterator<Item = u64>>(&mut self, keys: I) {
        or_panic(Set::extend(self, keys));
    }
}

impl<'a> Extend<&'a u64> for Set {
    /// Inserts these keys.
    ///
    /// # Panics
    ///
    /// It panics if the inherent [`Set::extend`] returns a fault.
    fn extend<I: IntoIterator<Item = &'a u64>>(&mut self, keys: I) {
        or_panic(Set::extend(self, keys.into_iter().copied()));
    }
}

impl<'a> IntoIterator for &'a Set {
    type Item = Result<u64, Fault>;
    type IntoIter = Range<&'a Set>;

    fn into_iter(self) -> Range<&'a Set> {
        self.iter()
    }
}

/// Writes the values of the first ten keys of a set, and two dots if there are more. It never waits
/// for a worker: if each is attached, or the set is closed, it writes that, with the name of the
/// type.
pub(crate) fn show<T: fmt::Debug>(
    set: &Set,
    name: &str,
    value_of: impl Fn(u64) -> T,
    f: &mut fmt::Formatter<'_>,
) -> fmt::Result {
    let shown = set.try_attach().and_then(|mut worker| {
        let keys = worker.iter().take(SHOWN + 1);
        keys.map(|key| key.map(&value_of))
            .collect::<Result<Vec<T>, Fault>>()
    });
    match shown {
        Ok(values) => show_values(&values, f),
        Err(fault) => write!(f, "{name}({fault})"),
    }
}

/// Writes ten values, and two dots if there are more.
pub(crate) fn show_values<T: fmt::Debug>(values: &[T], f: &mut fmt::Formatter<'_>) -> fmt::Result {
    let mut shown = f.debug_set();
    shown.entries(values.iter().take(SHOWN));
    if values.len() > SHOWN {
        shown.entry(&format_args!(".."));
    }
    shown.finish()
}

impl fmt::Debug for Set {
    /// Writes the first ten keys, and two dots if there are more. It never waits for a worker: if
    /// each is attached, or the set is closed, it writes that.
    fn fmt(&self, f: &mut fmt::Formatter<'_>) -> fmt::Result {
        show(self, "Set", |key| key, f)
    }
}
