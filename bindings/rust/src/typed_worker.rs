//! A worker of a set whose keys are of another type than `u64`.

use crate::fault::Fault;
use crate::ffi::Stats;
use crate::order::{self, Range, Scanned};
use crate::place::Advance;
use crate::typed::{bound_of, bounds_of, key_of, keys_of, scan_of, Key, SetOf, Values};
use crate::worker::{Behind, PinGuard, Stamp, Worker};
use crate::MOST_KEY;
use std::fmt;
use std::marker::PhantomData;
use std::ops::RangeBounds;
use std::time::Duration;

/// A [`Worker`] of a [`SetOf`]. Each call makes the call of the same name of [`Worker`], with its
/// waits and faults. Besides, a value that is no key returns [`Fault::Value`], and NaN
/// [`Fault::Unordered`].
///
/// ```
/// # fn main() -> Result<(), nm_set::Fault> {
/// let numbers = nm_set::SetOf::from([-7, 0, 5]);
/// let mut worker = numbers.attach()?;
/// assert!(worker.insert(-9)?);
/// assert_eq!(worker.count(..0)?, 2);
/// let down: Result<Vec<i64>, _> = worker.range(-7..).rev().collect();
/// assert_eq!(down?, [5, 0, -7]);
/// # Ok(())
/// # }
/// ```
pub struct WorkerOf<K: Key> {
    worker: Worker,
    of: PhantomData<fn(K) -> K>,
}

impl<K: Key> From<Worker> for WorkerOf<K> {
    /// Returns the worker for values of a worker for keys.
    fn from(worker: Worker) -> WorkerOf<K> {
        WorkerOf {
            worker,
            of: PhantomData,
        }
    }
}

/// Returns the value of the key that a call found.
fn typed<K: Key>(found: Result<Option<u64>, Fault>) -> Result<Option<K>, Fault> {
    Ok(found?.map(K::from_key))
}

impl<K: Key> WorkerOf<K> {
    /// Returns the worker for keys.
    pub fn keys(&mut self) -> &mut Worker {
        &mut self.worker
    }

    /// Returns its number, which is below the number of workers.
    pub fn number(&self) -> u32 {
        self.worker.number()
    }

    /// Returns its set, for the calls that a worker does not have.
    pub fn set(&self) -> SetOf<K> {
        SetOf::from(self.worker.set())
    }

    // ---- the calls of a set ----

    /// Returns whether the set has the value.
    pub fn contains(&mut self, value: K) -> Result<bool, Fault> {
        self.worker.contains(key_of(value)?)
    }

    /// Returns whether the set has each of these values, in their order.
    pub fn contains_many(&mut self, values: &[K]) -> Result<Vec<bool>, Fault> {
        self.worker.contains_many(&keys_of(values)?)
    }

    /// Inserts a value; returns true if it was absent.
    pub fn insert(&mut self, value: K) -> Result<bool, Fault> {
        self.worker.insert(key_of(value)?)
    }

    /// Removes a value; returns true if it was present.
    pub fn remove(&mut self, value: K) -> Result<bool, Fault> {
        self.worker.remove(key_of(value)?)
    }

    /// Returns the least value that is not below this one, or None if there is none.
    pub fn at_least(&mut self, value: K) -> Result<Option<K>, Fault> {
        typed(self.worker.at_least(key_of(value)?))
    }

    /// Returns the greatest value that is not above this one, or None if there is none.
    pub fn at_most(&mut self, value: K) -> Result<Option<K>, Fault> {
        typed(self.worker.at_most(bound_of(value)?.min(MOST_KEY)))
    }

    /// Returns the least value, or None if the set is empty.
    pub fn first(&mut self) -> Result<Option<K>, Fault> {
        typed(self.worker.first())
    }

    /// Returns the greatest value, or None if the set is empty.
    pub fn last(&mut self) -> Result<Option<K>, Fault> {
        typed(self.worker.last())
    }

    /// Removes the least value and returns it, or None if the set is empty.
    pub fn pop_first(&mut self) -> Result<Option<K>, Fault> {
        typed(self.worker.pop_first())
    }

    /// Removes the greatest value and returns it, or None if the set is empty.
    pub fn pop_last(&mut self) -> Result<Option<K>, Fault> {
        typed(self.worker.pop_last())
    }

    /// Removes the least value if it is below a bound, and returns it, or None if none is.
    pub fn pop_first_below(&mut self, below: K) -> Result<Option<K>, Fault> {
        typed(self.worker.pop_first_below(bound_of(below)?))
    }

    /// Removes the greatest value if it is not below a bound, and returns it.
    pub fn pop_last_from(&mut self, from: K) -> Result<Option<K>, Fault> {
        typed(self.worker.pop_last_from(bound_of(from)?))
    }

    /// Removes the least values that are below a bound, at most `room`, and returns them.
    pub fn pop_first_many(&mut self, below: K, room: usize) -> Result<Vec<K>, Fault> {
        let keys = self.worker.pop_first_many(bound_of(below)?, room)?;
        Ok(keys.into_iter().map(K::from_key).collect())
    }

    /// Removes the least value and returns it, after a wait for one of at most `timeout`.
    pub fn wait_pop(&mut self, timeout: Duration) -> Result<Option<K>, Fault> {
        typed(self.worker.wait_pop(timeout))
    }

    /// Does the same with the least value that is below a bound.
    pub fn wait_pop_below(&mut self, below: K, timeout: Duration) -> Result<Option<K>, Fault> {
        typed(self.worker.wait_pop_below(bound_of(below)?, timeout))
    }

    /// Returns the least value, after a wait for one of at most `timeout`, and removes nothing.
    pub fn wait_first(&mut self, timeout: Duration) -> Result<Option<K>, Fault> {
        typed(self.worker.wait_first(timeout))
    }

    /// Does the same with the least value that is below a bound.
    pub fn wait_first_below(&mut self, below: K, timeout: Duration) -> Result<Option<K>, Fault> {
        typed(self.worker.wait_first_below(bound_of(below)?, timeout))
    }

    /// Returns an iterator over the values of a range, in both directions: see [`Worker::range`].
    ///
    /// # Panics
    ///
    /// It panics if the start of the range is after its end, or if a bound is NaN.
    #[track_caller]
    pub fn range(&mut self, bounds: impl RangeBounds<K>) -> Values<K, Range<&mut Worker>> {
        Values::of(self.worker.range(bounds_of(bounds)))
    }

    /// Returns an iterator over all values, in the way of [`range`](WorkerOf::range).
    pub fn iter(&mut self) -> Values<K, Range<&mut Worker>> {
        self.range(..)
    }

    /// Returns at most `room` values from one on, and where to go on: see [`SetOf::scan`].
    pub fn scan(&mut self, from: K, room: usize) -> Result<Scanned<K, K>, Fault> {
        scan_of(from, room, |key, room| self.worker.scan(key, room))
    }

    /// Returns how many values of a range the set has: see [`Worker::count`].
    ///
    /// # Panics
    ///
    /// It panics if the start of the range is after its end, or if a bound is NaN.
    #[track_caller]
    pub fn count(&mut self, bounds: impl RangeBounds<K>) -> Result<u64, Fault> {
        self.worker.count(bounds_of(bounds))
    }

    /// Inserts these values, and appends whether each was absent: see [`SetOf::insert_many`].
    pub fn insert_many(&mut self, values: &[K], answers: &mut Vec<bool>) -> Result<(), Fault> {
        self.worker.insert_many(&keys_of(values)?, answers)
    }

    /// Removes these values in the same way, and appends whether each was present.
    pub fn remove_many(&mut self, values: &[K], answers: &mut Vec<bool>) -> Result<(), Fault> {
        self.worker.remove_many(&keys_of(values)?, answers)
    }

    /// Inserts these values, one by one; returns how many were absent.
    pub fn extend(&mut self, values: impl IntoIterator<Item = K>) -> Result<usize, Fault> {
        order::extend(values, |value| self.insert(value))
    }

    /// Removes the values of a range, one by one; returns how many: see [`Worker::remove_range`].
    ///
    /// # Panics
    ///
    /// It panics if the start of the range is after its end, or if a bound is NaN.
    #[track_caller]
    pub fn remove_range(&mut self, bounds: impl RangeBounds<K>) -> Result<u64, Fault> {
        self.worker.remove_range(bounds_of(bounds))
    }

    /// Removes each value for which `stays` returns false: see [`Worker::retain`].
    pub fn retain(&mut self, mut stays: impl FnMut(K) -> bool) -> Result<(), Fault> {
        self.worker.retain(|key| stays(K::from_key(key)))
    }

    /// Removes all values. A value that is inserted meanwhile may remain.
    pub fn clear(&mut self) -> Result<(), Fault> {
        self.worker.clear()
    }

    // ---- with a number of tries ----

    /// Returns whether the set has the value, with at most `tries` tries: see
    /// [`Worker::try_contains`].
    pub fn try_contains(&mut self, value: K, tries: u32) -> Result<bool, Fault> {
        self.worker.try_contains(key_of(value)?, tries)
    }

    /// Returns whether the set has each of these values, with at most `tries` tries.
    pub fn try_contains_many(&mut self, values: &[K], tries: u32) -> Result<Vec<bool>, Fault> {
        self.worker.try_contains_many(&keys_of(values)?, tries)
    }

    /// Returns the least value that is not below this one, or None, with at most `tries` tries:
    /// see [`Worker::try_at_least`].
    pub fn try_at_least(&mut self, value: K, tries: u32) -> Result<Option<K>, Fault> {
        typed(self.worker.try_at_least(key_of(value)?, tries))
    }

    /// Returns the greatest value that is not above this one, or None, with at most `tries` tries.
    pub fn try_at_most(&mut self, value: K, tries: u32) -> Result<Option<K>, Fault> {
        let key = bound_of(value)?.min(MOST_KEY);
        typed(self.worker.try_at_most(key, tries))
    }

    /// Inserts a value with at most `tries` tries; returns true if it was absent: see
    /// [`Worker::try_insert`].
    pub fn try_insert(&mut self, value: K, tries: u32) -> Result<bool, Fault> {
        self.worker.try_insert(key_of(value)?, tries)
    }

    /// Removes a value with at most `tries` tries; returns true if it was present: see
    /// [`Worker::try_remove`].
    pub fn try_remove(&mut self, value: K, tries: u32) -> Result<bool, Fault> {
        self.worker.try_remove(key_of(value)?, tries)
    }

    /// Goes on with the remove that is pending: see [`Worker::try_finish`].
    pub fn try_finish(&mut self, tries: u32) -> Result<bool, Fault> {
        self.worker.try_finish(tries)
    }

    // ---- on the epoch ----

    /// Pins the epoch until the guard is dropped: see [`Worker::pin`].
    pub fn pin(&mut self) -> Result<PinGuard<'_>, Fault> {
        self.worker.pin()
    }

    /// Advances the epoch by one, if no worker holds it back.
    pub fn advance(&mut self) -> Result<Advance, Fault> {
        self.worker.advance()
    }

    /// Returns which workers hold the epoch back.
    pub fn behind(&mut self) -> Result<Behind, Fault> {
        self.worker.behind()
    }

    /// Frees what has waited long enough in its own queue; returns the number of freed nodes.
    pub fn collect(&mut self) -> Result<u64, Fault> {
        self.worker.collect()
    }

    // ---- of itself ----

    /// Returns how many nodes wait in its queue, including those that borrowed calls removed.
    pub fn waiting(&mut self) -> Result<u64, Fault> {
        self.worker.waiting()
    }

    /// Returns the value of a remove that has begun and is not finished, or None.
    pub fn pending(&mut self) -> Result<Option<K>, Fault> {
        typed(self.worker.pending())
    }

    /// Returns what calls by it have won: see [`Worker::stats`].
    pub fn stats(&mut self) -> Result<Stats, Fault> {
        self.worker.stats()
    }

    /// Publishes a stamp of all that the worker has seen: see [`Worker::publish`].
    pub fn publish(&mut self) -> Result<Stamp, Fault> {
        self.worker.publish()
    }

    /// Observes the stamp of the worker of a number: see [`Worker::observe`].
    pub fn observe(&mut self, number: u32) -> Result<Option<Stamp>, Fault> {
        self.worker.observe(number)
    }
}

impl<'s, K: Key> IntoIterator for &'s mut WorkerOf<K> {
    type Item = Result<K, Fault>;
    type IntoIter = Values<K, Range<&'s mut Worker>>;

    fn into_iter(self) -> Self::IntoIter {
        self.iter()
    }
}

impl<K: Key> fmt::Debug for WorkerOf<K> {
    fn fmt(&self, f: &mut fmt::Formatter<'_>) -> fmt::Result {
        write!(f, "WorkerOf({:?})", self.worker)
    }
}
