//! The calls of a map in the order of its keys: of a worker, which return keys, and of a worker
//! under the guard of another one, which return references to values.

use crate::fault::Fault;
use crate::ffi::map::guarded::Guarded;
use crate::ffi::map::Entry;
use crate::ffi::{Order, Outcome};
use crate::key::checked;
use crate::map::{Guard, Map, MapWorker};
use crate::map_place::{collected, found, managed};
use crate::order::{self, retain, Calls, Range, Scanned, Scans};
use crate::place::millis;
use crate::MOST_KEY;
use std::collections::BTreeMap;
use std::fmt;
use std::ops::RangeBounds;
use std::time::Duration;

/// The outcome of a remove that is not finished.
const UNFINISHED: Outcome = -11;

/// A worker whose calls return references to values, under the guard of another worker of the same
/// map: see [`MapWorker::under`]. A reference exists until that guard is dropped, also if the key
/// is removed meanwhile, by this call or by another one.
///
/// A guard holds back the nodes of all calls until it is dropped. So threads that make many calls
/// under guards of their own may wait for one another until [`Fault::MapFull`]: drop each guard after
/// a few calls.
///
/// ```compile_fail,E0505
/// # fn main() -> Result<(), Box<dyn std::error::Error>> {
/// let map = nm_set::Map::<String>::new(64, 2)?;
/// let (mut reader, mut worker) = (map.attach()?, map.attach()?);
/// let guard = reader.pin()?;
/// let popped = worker.under(&guard)?.pop_first()?;
/// drop(guard);
/// println!("{popped:?}");
/// # Ok(())
/// # }
/// ```
pub struct GuardedWorker<'w, 'a, 'g, V> {
    pub(crate) handle: Guarded<'w, 'a, 'g, V>,
}

/// Returns the key of an entry, or None after the answer no.
fn key_of((outcome, entry): (Outcome, Entry)) -> Result<Option<u64>, Fault> {
    Ok(managed(outcome)?.then_some(entry.key))
}

/// Returns the key of a pop, also if its remove is unfinished: this call will remove the key, and
/// no other call will.
fn key_of_pop((outcome, entry): (Outcome, Entry)) -> Result<Option<u64>, Fault> {
    match outcome {
        UNFINISHED => Ok(Some(entry.key)),
        _ => key_of((outcome, entry)),
    }
}

/// Returns what a remove has taken, also if it is unfinished: this call will remove the key, and no
/// other call will.
pub(crate) fn taken<T>((outcome, taken): (Outcome, Option<T>)) -> Result<Option<T>, Fault> {
    match outcome {
        UNFINISHED => Ok(taken),
        _ => found((outcome, taken)),
    }
}

/// Returns what a scan has read, and where the next one goes on.
pub(crate) fn scanned<E>(
    (outcome, entries, next): (Outcome, Vec<E>, u64),
) -> Result<Scanned<E>, Fault> {
    let next = managed(outcome)?.then_some(next);
    Ok(Scanned { entries, next })
}

impl<'a, V> MapWorker<'a, V> {
    /// Returns the calls of this worker that return references to values, under a guard of another
    /// worker of the map. A worker that has a guard makes no other call, so this takes two workers.
    ///
    /// Errors: `OtherMap`: the guard is of another map.
    ///
    /// ```
    /// # fn main() -> Result<(), Box<dyn std::error::Error>> {
    /// let map = nm_set::Map::from([(5, "five"), (7, "seven"), (9, "nine")]);
    /// let (mut reader, mut worker) = (map.attach()?, map.attach()?);
    /// let guard = reader.pin()?;
    /// let mut calls = worker.under(&guard)?;
    /// let entries: Result<Vec<_>, _> = calls.range(6..).collect();
    /// assert_eq!(entries?, [(7, &"seven"), (9, &"nine")]);
    /// assert_eq!(calls.pop_first()?, Some((5, &"five"))); // no other thread gets this key
    /// assert_eq!(map.len()?, 2);
    /// # Ok(())
    /// # }
    /// ```
    pub fn under<'w, 'g>(
        &'w mut self,
        guard: &'g Guard<'_, '_, V>,
    ) -> Result<GuardedWorker<'w, 'a, 'g, V>, Fault> {
        let handle = Guarded::new(&mut self.handle, &guard.pinned).ok_or(Fault::OtherMap)?;
        Ok(GuardedWorker { handle })
    }

    /// Returns the least key, or None if the map is empty.
    ///
    /// Errors: `Contention`, `Pinned`.
    pub fn first(&mut self) -> Result<Option<u64>, Fault> {
        self.at_least(0)
    }

    /// Returns the least key, and removes nothing. If the map is empty it waits for a key, for at
    /// most `timeout`, and sleeps meanwhile: each insert wakes it. Returns None after that time.
    ///
    /// Errors: `Contention`, `Pinned`.
    pub fn wait_first(&mut self, timeout: Duration) -> Result<Option<u64>, Fault> {
        self.wait_first_below(u64::MAX, timeout)
    }

    /// Does the same with the least key that is below a bound. If an insert wakes it with another
    /// key, it sleeps on.
    ///
    /// Errors: `Contention`, `Pinned`.
    pub fn wait_first_below(
        &mut self,
        below: u64,
        timeout: Duration,
    ) -> Result<Option<u64>, Fault> {
        key_of(self.handle.wait_first(below, millis(timeout)))
    }

    /// Returns the greatest key, or None if the map is empty.
    ///
    /// Errors: `Contention`, `Pinned`.
    pub fn last(&mut self) -> Result<Option<u64>, Fault> {
        self.at_most(MOST_KEY)
    }

    /// Returns the least key that is not below this one, or None if there is none.
    ///
    /// Errors: `Key`, `Contention`, `Pinned`.
    pub fn at_least(&mut self, key: u64) -> Result<Option<u64>, Fault> {
        key_of(self.handle.nearest(Order::Ascending, checked(key)?))
    }

    /// Returns the greatest key that is not above this one, or None if there is none.
    ///
    /// Errors: `Key`, `Contention`, `Pinned`.
    pub fn at_most(&mut self, key: u64) -> Result<Option<u64>, Fault> {
        key_of(self.handle.nearest(Order::Descending, checked(key)?))
    }

    /// Returns whether the map has no key.
    ///
    /// Errors: `Contention`, `Pinned`.
    pub fn is_empty(&mut self) -> Result<bool, Fault> {
        self.first().map(|key| key.is_none())
    }

    /// Removes the least key and returns it, or None if the map is empty. No two calls return one
    /// key, unless it was inserted again in between. No call passes over a key that was in the map
    /// during the whole call. The value is dropped later, as after [`remove`](MapWorker::remove);
    /// [`GuardedWorker::pop_first`] returns it.
    ///
    /// If the bound of the call is reached before the key is cut off, it returns the key: this call
    /// removes it and no other does. The worker's next call finishes the remove; until then other
    /// calls may find the key.
    ///
    /// Errors: `Contention`, `NoMemory`, `Pinned`.
    pub fn pop_first(&mut self) -> Result<Option<u64>, Fault> {
        self.pop_first_below(u64::MAX)
    }

    /// Removes the greatest key and returns it, in the same way.
    ///
    /// Errors: those of [`pop_first`](MapWorker::pop_first).
    pub fn pop_last(&mut self) -> Result<Option<u64>, Fault> {
        self.pop_last_from(0)
    }

    /// Removes the least key if it is below a bound, and returns it, or None if no key is.
    ///
    /// Errors: those of [`pop_first`](MapWorker::pop_first).
    pub fn pop_first_below(&mut self, below: u64) -> Result<Option<u64>, Fault> {
        key_of_pop(self.handle.pop(Order::Ascending, below))
    }

    /// Removes the greatest key if it is not below a bound, and returns it, or None if each is.
    ///
    /// Errors: those of [`pop_first`](MapWorker::pop_first).
    pub fn pop_last_from(&mut self, from: u64) -> Result<Option<u64>, Fault> {
        key_of_pop(self.handle.pop(Order::Descending, from))
    }

    /// Returns an iterator over the keys of a range, in both directions, while the map is in use:
    /// see [`Set::range`](crate::Set::range). [`GuardedWorker::range`] returns the values too.
    ///
    /// # Panics
    ///
    /// It panics if the start of the range is after its end: see [`Set::range`](crate::Set::range).
    #[track_caller]
    pub fn range(&mut self, bounds: impl RangeBounds<u64>) -> Range<&mut MapWorker<'a, V>> {
        Range::of(self, bounds)
    }

    /// Returns an iterator over all keys, in the way of [`range`](MapWorker::range).
    pub fn iter(&mut self) -> Range<&mut MapWorker<'a, V>> {
        self.range(..)
    }

    /// Returns the least keys that are not below `from`, at most `room` of them, and where the next
    /// scan goes on: see [`Set::scan`](crate::Set::scan). [`GuardedWorker::scan`] returns the values
    /// too.
    ///
    /// Errors: `Contention`, `Pinned`.
    pub fn scan(&mut self, from: u64, room: usize) -> Result<Scanned<u64>, Fault> {
        order::scan(self, from, room)
    }

    /// Returns the keys of a range, ascending. It takes no snapshot: each key was in the map at a
    /// moment of the call, and two keys may have different moments. A key that is in the map during
    /// the whole call is returned.
    ///
    /// Errors: `Contention`, `Pinned`.
    ///
    /// # Panics
    ///
    /// It panics if the start of the range is after its end: see [`Set::range`](crate::Set::range).
    #[track_caller]
    pub fn keys(&mut self, bounds: impl RangeBounds<u64>) -> Result<Vec<u64>, Fault> {
        self.range(bounds).collect()
    }

    /// Removes the keys of a range, one by one; returns how many it removed. A key that is inserted
    /// meanwhile may remain. If it returns a fault, the keys before it are removed.
    ///
    /// # Panics
    ///
    /// It panics if the start of the range is after its end: see [`Set::range`](crate::Set::range).
    #[track_caller]
    pub fn remove_range(&mut self, bounds: impl RangeBounds<u64>) -> Result<u64, Fault> {
        order::remove_range(self, bounds)
    }

    /// Removes each key for which `stays` returns false, one by one. A key that is inserted
    /// meanwhile may be passed over. If it returns a fault, the keys before it are done.
    ///
    /// Errors: `Contention`, `NoMemory`, `Pinned`.
    pub fn retain(&mut self, stays: impl FnMut(u64) -> bool) -> Result<(), Fault> {
        retain(self, stays)
    }

    /// Removes all keys, one by one. A key that is inserted meanwhile may remain.
    ///
    /// Errors: those of [`retain`](MapWorker::retain).
    pub fn clear(&mut self) -> Result<(), Fault> {
        self.retain(|_| false)
    }

    /// Returns how many keys of a range there are. While others change the map, it counts each key
    /// as it finds it.
    ///
    /// Errors: `Contention`, `Pinned`.
    ///
    /// # Panics
    ///
    /// It panics if the start of the range is after its end: see [`Set::range`](crate::Set::range).
    #[track_caller]
    pub fn count(&mut self, bounds: impl RangeBounds<u64>) -> Result<u64, Fault> {
        self.handle.count_of(bounds)
    }
}

impl<'w, 'a, 'g, V> GuardedWorker<'w, 'a, 'g, V> {
    /// Returns the value of a key, or None if the map does not have the key.
    ///
    /// Errors: `Key`, `Contention`, `Pinned`.
    pub fn get(&mut self, key: u64) -> Result<Option<&'g V>, Fault> {
        found(self.handle.get(checked(key)?))
    }

    /// Returns the least key with its value, or None if the map is empty.
    ///
    /// Errors: `Contention`, `Pinned`.
    pub fn first(&mut self) -> Result<Option<(u64, &'g V)>, Fault> {
        self.at_least(0)
    }

    /// Returns the greatest key with its value, or None if the map is empty.
    ///
    /// Errors: `Contention`, `Pinned`.
    pub fn last(&mut self) -> Result<Option<(u64, &'g V)>, Fault> {
        self.at_most(MOST_KEY)
    }

    /// Returns the least key that is not below this one, with its value, or None if there is none.
    /// The map had it so at a moment of the call.
    ///
    /// Errors: `Key`, `Contention`, `Pinned`.
    pub fn at_least(&mut self, key: u64) -> Result<Option<(u64, &'g V)>, Fault> {
        found(self.handle.nearest(Order::Ascending, checked(key)?))
    }

    /// Returns the greatest key that is not above this one, with its value, or None if there is
    /// none.
    ///
    /// Errors: `Key`, `Contention`, `Pinned`.
    pub fn at_most(&mut self, key: u64) -> Result<Option<(u64, &'g V)>, Fault> {
        found(self.handle.nearest(Order::Descending, checked(key)?))
    }

    /// Removes the least key and returns it with its value, or None if the map is empty: see
    /// [`MapWorker::pop_first`]. No two calls return one value. It is dropped later, when the guard
    /// has ended.
    ///
    /// Errors: those of [`MapWorker::pop_first`]. `Unfinished`: the bound of the call was reached
    /// after it had begun to remove a key, which [`MapWorker::pending`] returns. This call removes
    /// the key and no other does, and its value is not returned. The key is found until the next call
    /// by this worker.
    pub fn pop_first(&mut self) -> Result<Option<(u64, &'g V)>, Fault> {
        self.pop_first_below(u64::MAX)
    }

    /// Removes the greatest key and returns it with its value, in the same way.
    ///
    /// Errors: those of [`pop_first`](GuardedWorker::pop_first).
    pub fn pop_last(&mut self) -> Result<Option<(u64, &'g V)>, Fault> {
        self.pop_last_from(0)
    }

    /// Removes the least key if it is below a bound, and returns it with its value.
    ///
    /// Errors: those of [`pop_first`](GuardedWorker::pop_first).
    pub fn pop_first_below(&mut self, below: u64) -> Result<Option<(u64, &'g V)>, Fault> {
        found(self.handle.pop(Order::Ascending, below))
    }

    /// Removes the greatest key if it is not below a bound, and returns it with its value.
    ///
    /// Errors: those of [`pop_first`](GuardedWorker::pop_first).
    pub fn pop_last_from(&mut self, from: u64) -> Result<Option<(u64, &'g V)>, Fault> {
        found(self.handle.pop(Order::Descending, from))
    }

    /// Removes a key, and returns its value, or None if the key was absent. No two calls return one
    /// value. It returns the value too if the bound of the call is reached before the key is cut
    /// off, because this call removes the key and no other does.
    ///
    /// Errors: `Key`, `Contention`, `NoMemory`, `Pinned`.
    pub fn take(&mut self, key: u64) -> Result<Option<&'g V>, Fault> {
        taken(self.handle.take(checked(key)?))
    }

    /// Returns an iterator over the keys of a range with their values, in both directions. It takes
    /// no snapshot: it reads ahead in blocks of 1, 8, 16 and so on to 512, each by one call, and the
    /// map had each key with its value at a moment of such a call. A key that is in the map during
    /// the whole iteration is returned, and a key that is absent during all of it is not. Items are
    /// results; the iterator ends after the first fault: `Contention`, `Pinned`.
    ///
    /// # Panics
    ///
    /// It panics if the start of the range is after its end: see [`Set::range`](crate::Set::range).
    #[track_caller]
    pub fn range(&mut self, bounds: impl RangeBounds<u64>) -> Range<&mut Self> {
        Range::of(self, bounds)
    }

    /// Returns the least keys that are not below `from` with their values, at most `room` of them, and
    /// where the next scan goes on: see [`Set::scan`](crate::Set::scan).
    ///
    /// Errors: `Contention`, `Pinned`.
    pub fn scan(&mut self, from: u64, room: usize) -> Result<Scanned<(u64, &'g V)>, Fault> {
        order::scan(self, from, room)
    }

    /// Returns an iterator over all keys with their values, in the way of
    /// [`range`](GuardedWorker::range).
    pub fn iter(&mut self) -> Range<&mut Self> {
        self.range(..)
    }

    /// Returns the keys of a range with clones of their values, ascending, in the way of
    /// [`range`](GuardedWorker::range). [`Map::from_entries`] makes a map of them again.
    ///
    /// Errors: `Contention`, `Pinned`.
    ///
    /// ```
    /// # fn main() -> Result<(), Box<dyn std::error::Error>> {
    /// let map = nm_set::Map::from([(5, "five"), (7, "seven"), (9, "nine")]);
    /// let (mut reader, mut worker) = (map.attach()?, map.attach()?);
    /// let guard = reader.pin()?;
    /// let mut calls = worker.under(&guard)?;
    /// calls.retain(|key, &text| key != 7 && text != "nine")?;
    /// assert_eq!(calls.entries(..)?, [(5, "five")]);
    /// # Ok(())
    /// # }
    /// ```
    ///
    /// # Panics
    ///
    /// It panics if the start of the range is after its end: see [`Set::range`](crate::Set::range).
    #[track_caller]
    pub fn entries(&mut self, bounds: impl RangeBounds<u64>) -> Result<Vec<(u64, V)>, Fault>
    where
        V: Clone,
    {
        let cloned = |(key, value): (u64, &V)| (key, value.clone());
        self.range(bounds).map(|entry| entry.map(cloned)).collect()
    }

    /// Removes each key for which `stays` returns false of it and its value, one by one. If another
    /// thread gives a key another value after the test, that one is removed. A key that is inserted
    /// meanwhile may be passed over. If it returns a fault, the keys before it are done.
    ///
    /// Errors: `Contention`, `NoMemory`, `Pinned`.
    pub fn retain(&mut self, mut stays: impl FnMut(u64, &'g V) -> bool) -> Result<(), Fault> {
        retain(self, |(key, value)| stays(key, value))
    }

    /// Returns whether the map has the keys and values of another one, and no others. It takes no
    /// snapshot: each entry is compared as it was at a moment of the call.
    ///
    /// Errors: `Contention`, `Pinned`.
    pub fn is_equal(&mut self, other: &BTreeMap<u64, V>) -> Result<bool, Fault>
    where
        V: PartialEq,
    {
        order::is_equal(
            self.iter(),
            other.iter(),
            |(key, value), (wanted, other)| (key, value) == (wanted, other),
        )
    }
}

impl<V> Scans for &mut MapWorker<'_, V> {
    type Entry = u64;

    fn scan(&mut self, range: (u64, u64), room: usize) -> Result<Scanned<u64>, Fault> {
        scanned(self.handle.read_keys(Order::Ascending, range, room))
    }

    fn scan_back(&mut self, range: (u64, u64), room: usize) -> Result<Scanned<u64>, Fault> {
        scanned(self.handle.read_keys(Order::Descending, range, room))
    }
}

impl<V> Calls for &mut MapWorker<'_, V> {
    fn take(&mut self, key: u64) -> Result<bool, Fault> {
        self.remove(key)
    }
}

impl<'g, V> Scans for &mut GuardedWorker<'_, '_, 'g, V> {
    type Entry = (u64, &'g V);

    fn scan(&mut self, range: (u64, u64), room: usize) -> Result<Scanned<Self::Entry>, Fault> {
        scanned(self.handle.read(Order::Ascending, range, room))
    }

    fn scan_back(&mut self, range: (u64, u64), room: usize) -> Result<Scanned<Self::Entry>, Fault> {
        scanned(self.handle.read(Order::Descending, range, room))
    }
}

impl<V> Calls for &mut GuardedWorker<'_, '_, '_, V> {
    fn take(&mut self, key: u64) -> Result<bool, Fault> {
        GuardedWorker::take(self, key).map(|value| value.is_some())
    }
}

impl<'s, 'a, V> IntoIterator for &'s mut MapWorker<'a, V> {
    type Item = Result<u64, Fault>;
    type IntoIter = Range<&'s mut MapWorker<'a, V>>;

    fn into_iter(self) -> Self::IntoIter {
        self.iter()
    }
}

impl<'s, 'w, 'a, 'g, V> IntoIterator for &'s mut GuardedWorker<'w, 'a, 'g, V> {
    type Item = Result<(u64, &'g V), Fault>;
    type IntoIter = Range<&'s mut GuardedWorker<'w, 'a, 'g, V>>;

    fn into_iter(self) -> Self::IntoIter {
        self.iter()
    }
}

impl<V> FromIterator<(u64, V)> for Map<V> {
    /// Returns a map of these keys and values, for 64 workers: four nodes for each key, and at
    /// least 4,096. Of several values for one key it keeps the last one.
    ///
    /// # Panics
    ///
    /// It panics if a key is above [`MOST_KEY`](crate::MOST_KEY), or if memory is refused.
    /// [`Map::from_entries`] returns a fault instead.
    fn from_iter<I: IntoIterator<Item = (u64, V)>>(entries: I) -> Map<V> {
        collected(entries, Map::from_entries)
    }
}

impl<V, const N: usize> From<[(u64, V); N]> for Map<V> {
    /// Returns a map of these keys and values: see [`from_iter`](Map::from_iter).
    ///
    /// # Panics
    ///
    /// It panics if a key is above [`MOST_KEY`](crate::MOST_KEY), or if memory is refused.
    fn from(entries: [(u64, V); N]) -> Map<V> {
        entries.into_iter().collect()
    }
}

impl<V> fmt::Debug for GuardedWorker<'_, '_, '_, V> {
    fn fmt(&self, f: &mut fmt::Formatter<'_>) -> fmt::Result {
        f.debug_struct("GuardedWorker").finish_non_exhaustive()
    }
}
