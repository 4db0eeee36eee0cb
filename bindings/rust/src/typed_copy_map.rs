//! Maps with values in place whose keys are of another type than `u64`.

use crate::convert::SHOWN;
use crate::copy_map::{CopyMap, CopyMapWorker};
use crate::fault::Fault;
use crate::map::{InsertError, Reclaimed};
use crate::map_place::extend_by;
use crate::map_puts::PutError;
use crate::options::Options;
use crate::order::{self, Range, Scanned};
use crate::typed::{bound_of, bounds_of, key_of, keys_of, panic_by, scan_of, Key, Values};
use crate::typed_map::{keyed, keyed_value, show_keys, typed};
use crate::word::Word;
use crate::MOST_KEY;
use std::collections::BTreeMap;
use std::fmt;
use std::marker::PhantomData;
use std::ops::RangeBounds;
use std::time::Duration;

/// A [`CopyMap`] whose keys are values of a type: see [`Key`]. Each call makes the call of the same
/// name of the map or its worker, with its waits and faults. Besides, a value that is no key returns
/// [`Fault::Value`], and NaN [`Fault::Unordered`].
///
/// ```
/// # fn main() -> Result<(), Box<dyn std::error::Error>> {
/// use nm_set::CopyMapOf;
/// let counts = CopyMapOf::from([((2, 'a'), 1_u32), ((1, 'b'), 5)]);
/// let mut worker = counts.attach()?;
/// assert_eq!(worker.update((2, 'a'), |old| old.map_or(1, |count| count + 1))?, 2);
/// assert_eq!(worker.first()?, Some(((1, 'b'), 5)));
/// assert_eq!(worker.remove((1, 'b'))?, Some(5));
/// # Ok(())
/// # }
/// ```
pub struct CopyMapOf<K: Key, V: Word> {
    map: CopyMap<V>,
    of: PhantomData<fn(K) -> K>,
}

/// A [`CopyMapWorker`] of a [`CopyMapOf`].
pub struct CopyMapWorkerOf<'a, K: Key, V: Word> {
    worker: CopyMapWorker<'a, V>,
    of: PhantomData<fn(K) -> K>,
}

impl<K: Key, V: Word> CopyMapOf<K, V> {
    /// Makes an empty map: see [`CopyMap::new`].
    pub fn new(nodes: u32, workers: u32) -> Result<CopyMapOf<K, V>, Fault> {
        CopyMap::new(nodes, workers).map(CopyMapOf::from)
    }

    /// Makes an empty map by options: see [`CopyMap::with_options`].
    pub fn with_options(nodes: u32, options: Options) -> Result<CopyMapOf<K, V>, Fault> {
        CopyMap::with_options(nodes, options).map(CopyMapOf::from)
    }

    /// Makes a map of these keys and values: see [`CopyMap::from_entries`].
    pub fn from_entries(
        nodes: u32,
        options: Options,
        entries: impl IntoIterator<Item = (K, V)>,
    ) -> Result<CopyMapOf<K, V>, Fault> {
        let entries = keyed(entries).collect::<Result<Vec<_>, Fault>>()?;
        CopyMap::from_entries(nodes, options, entries).map(CopyMapOf::from)
    }

    /// Returns the map of keys.
    pub fn raw(&self) -> &CopyMap<V> {
        &self.map
    }

    /// Attaches a worker to this thread: see [`CopyMap::attach`].
    pub fn attach(&self) -> Result<CopyMapWorkerOf<'_, K, V>, Fault> {
        self.map.attach().map(CopyMapWorkerOf::from)
    }

    /// Attaches a worker, after a wait of at most `timeout`.
    pub fn attach_timeout(&self, timeout: Duration) -> Result<CopyMapWorkerOf<'_, K, V>, Fault> {
        self.map.attach_timeout(timeout).map(CopyMapWorkerOf::from)
    }

    /// Returns the number of keys: see [`CopyMap::len`].
    pub fn len(&self) -> Result<usize, Fault> {
        self.map.len()
    }

    /// Returns the number of nodes that wait to be freed: see [`CopyMap::waiting`].
    pub fn waiting(&self) -> Result<u64, Fault> {
        self.map.waiting()
    }

    /// Returns whether [`len`](CopyMapOf::len) is 0.
    pub fn is_empty(&self) -> Result<bool, Fault> {
        self.map.is_empty()
    }

    /// Returns the number of nodes for which it has room.
    pub fn nodes(&self) -> u32 {
        self.map.nodes()
    }

    /// Returns how many keys it can have if no removed node waits.
    pub fn capacity(&self) -> usize {
        self.map.capacity()
    }

    /// Returns how many workers it has.
    pub fn workers(&self) -> u32 {
        self.map.workers()
    }
}

impl<'a, K: Key, V: Word> CopyMapWorkerOf<'a, K, V> {
    /// Returns the worker of keys.
    pub fn raw(&mut self) -> &mut CopyMapWorker<'a, V> {
        &mut self.worker
    }

    /// Returns the value of a key, or None if the map does not have the key.
    pub fn get(&mut self, key: K) -> Result<Option<V>, Fault> {
        self.worker.get(key_of(key)?)
    }

    /// Returns for each of these keys its value, or None: see [`CopyMapWorker::get_many`].
    pub fn get_many(&mut self, keys: &[K]) -> Result<Vec<Option<V>>, Fault> {
        self.worker.get_many(&keys_of(keys)?)
    }

    /// Returns whether the map has the key.
    pub fn contains(&mut self, key: K) -> Result<bool, Fault> {
        self.worker.contains(key_of(key)?)
    }

    /// Inserts a key with a value: see [`CopyMapWorker::insert`].
    pub fn insert(&mut self, key: K, value: V) -> Result<(), InsertError<V>> {
        match key_of(key) {
            Ok(key) => self.worker.insert(key, value),
            Err(fault) => Err(InsertError::Fault(fault, value)),
        }
    }

    /// Inserts these keys with their values, one by one: see [`CopyMapWorker::extend`].
    pub fn extend(
        &mut self,
        entries: impl IntoIterator<Item = (K, V)>,
    ) -> Result<usize, InsertError<V>> {
        extend_by(entries, |key, value| self.insert(key, value))
    }

    /// Inserts a key with a value, or replaces the value that it has, which it returns: see
    /// [`CopyMapWorker::put`].
    pub fn put(&mut self, key: K, value: V) -> Result<Option<V>, PutError<V>> {
        let (key, value) = keyed_value(key, value)?;
        self.worker.put(key, value)
    }

    /// Replaces the value that a key has, and returns that value: see [`CopyMapWorker::replace`].
    pub fn replace(&mut self, key: K, value: V) -> Result<V, PutError<V>> {
        let (key, value) = keyed_value(key, value)?;
        self.worker.replace(key, value)
    }

    /// Replaces the value that a key has if it is the expected one: see
    /// [`CopyMapWorker::compare_replace`].
    pub fn compare_replace(&mut self, key: K, expected: V, value: V) -> Result<(), PutError<V>> {
        let (key, value) = keyed_value(key, value)?;
        self.worker.compare_replace(key, expected, value)
    }

    /// Removes a key if it has the expected value: see [`CopyMapWorker::compare_remove`].
    pub fn compare_remove(&mut self, key: K, expected: V) -> Result<bool, Fault> {
        self.worker.compare_remove(key_of(key)?, expected)
    }

    /// Gives a key the value that a function makes of the one that it has: see
    /// [`CopyMapWorker::update`].
    pub fn update(&mut self, key: K, make: impl FnMut(Option<V>) -> V) -> Result<V, Fault> {
        self.worker.update(key_of(key)?, make)
    }

    /// Returns the value of a key, after an insert if it is absent: see
    /// [`CopyMapWorker::get_or_insert_with`].
    pub fn get_or_insert_with(&mut self, key: K, make: impl FnOnce() -> V) -> Result<V, Fault> {
        self.worker.get_or_insert_with(key_of(key)?, make)
    }

    /// Removes a key, and returns its value, or None if it was absent: see
    /// [`CopyMapWorker::remove`].
    pub fn remove(&mut self, key: K) -> Result<Option<V>, Fault> {
        self.worker.remove(key_of(key)?)
    }

    /// Frees the nodes that were reclaimed: see [`CopyMapWorker::reclaim`].
    pub fn reclaim(&mut self) -> Result<Reclaimed, Fault> {
        self.worker.reclaim()
    }

    /// Returns the number of nodes that wait with this worker.
    pub fn waiting(&mut self) -> u64 {
        self.worker.waiting()
    }

    /// Returns the key of an unfinished remove, or None.
    pub fn pending(&mut self) -> Result<Option<K>, Fault> {
        typed(self.worker.pending())
    }

    /// Returns its number, which is below the number of workers.
    pub fn number(&self) -> u32 {
        self.worker.number()
    }

    /// Returns the least key with its value, or None if the map is empty.
    pub fn first(&mut self) -> Result<Option<(K, V)>, Fault> {
        typed(self.worker.first())
    }

    /// Returns the greatest key with its value, or None if the map is empty.
    pub fn last(&mut self) -> Result<Option<(K, V)>, Fault> {
        typed(self.worker.last())
    }

    /// Returns the least key with its value, after a wait for one of at most `timeout`: see
    /// [`CopyMapWorker::wait_first`].
    pub fn wait_first(&mut self, timeout: Duration) -> Result<Option<(K, V)>, Fault> {
        typed(self.worker.wait_first(timeout))
    }

    /// Does the same with the least key that is below a bound.
    pub fn wait_first_below(
        &mut self,
        below: K,
        timeout: Duration,
    ) -> Result<Option<(K, V)>, Fault> {
        typed(self.worker.wait_first_below(bound_of(below)?, timeout))
    }

    /// Returns the least key that is not below this one, with its value, or None.
    pub fn at_least(&mut self, key: K) -> Result<Option<(K, V)>, Fault> {
        typed(self.worker.at_least(key_of(key)?))
    }

    /// Returns the greatest key that is not above this one, with its value, or None.
    pub fn at_most(&mut self, key: K) -> Result<Option<(K, V)>, Fault> {
        typed(self.worker.at_most(bound_of(key)?.min(MOST_KEY)))
    }

    /// Returns whether the map has no key.
    pub fn is_empty(&mut self) -> Result<bool, Fault> {
        self.worker.is_empty()
    }

    /// Removes the least key and returns it with its value: see [`CopyMapWorker::pop_first`].
    pub fn pop_first(&mut self) -> Result<Option<(K, V)>, Fault> {
        typed(self.worker.pop_first())
    }

    /// Removes the greatest key and returns it with its value, in the same way.
    pub fn pop_last(&mut self) -> Result<Option<(K, V)>, Fault> {
        typed(self.worker.pop_last())
    }

    /// Removes the least key if it is below a bound, and returns it with its value.
    pub fn pop_first_below(&mut self, below: K) -> Result<Option<(K, V)>, Fault> {
        typed(self.worker.pop_first_below(bound_of(below)?))
    }

    /// Removes the greatest key if it is not below a bound, and returns it with its value.
    pub fn pop_last_from(&mut self, from: K) -> Result<Option<(K, V)>, Fault> {
        typed(self.worker.pop_last_from(bound_of(from)?))
    }

    /// Returns an iterator over the keys of a range with their values: see [`CopyMapWorker::range`].
    ///
    /// # Panics
    ///
    /// It panics if the start of the range is after its end, or if a bound is NaN.
    #[track_caller]
    pub fn range(
        &mut self,
        bounds: impl RangeBounds<K>,
    ) -> Values<K, Range<&mut CopyMapWorker<'a, V>>> {
        Values::of(self.worker.range(bounds_of(bounds)))
    }

    /// Returns an iterator over all keys with their values.
    pub fn iter(&mut self) -> Values<K, Range<&mut CopyMapWorker<'a, V>>> {
        self.range(..)
    }

    /// Returns at most `room` keys from one on with their values, and where to go on.
    pub fn scan(&mut self, from: K, room: usize) -> Result<Scanned<(K, V), K>, Fault> {
        scan_of(from, room, |key, room| self.worker.scan(key, room))
    }

    /// Returns the keys of a range, ascending: see [`CopyMapWorker::keys`].
    ///
    /// # Panics
    ///
    /// It panics if the start of the range is after its end, or if a bound is NaN.
    #[track_caller]
    pub fn keys(&mut self, bounds: impl RangeBounds<K>) -> Result<Vec<K>, Fault> {
        let keys = self.worker.keys(bounds_of(bounds))?;
        Ok(keys.into_iter().map(K::from_key).collect())
    }

    /// Returns the keys of a range with their values, ascending: see [`CopyMapWorker::entries`].
    ///
    /// # Panics
    ///
    /// It panics if the start of the range is after its end, or if a bound is NaN.
    #[track_caller]
    pub fn entries(&mut self, bounds: impl RangeBounds<K>) -> Result<Vec<(K, V)>, Fault> {
        self.range(bounds).collect()
    }

    /// Removes the keys of a range, one by one; returns how many: see
    /// [`CopyMapWorker::remove_range`].
    ///
    /// # Panics
    ///
    /// It panics if the start of the range is after its end, or if a bound is NaN.
    #[track_caller]
    pub fn remove_range(&mut self, bounds: impl RangeBounds<K>) -> Result<u64, Fault> {
        self.worker.remove_range(bounds_of(bounds))
    }

    /// Removes each key for which `stays` returns false of it and its value: see
    /// [`CopyMapWorker::retain`].
    pub fn retain(&mut self, mut stays: impl FnMut(K, V) -> bool) -> Result<(), Fault> {
        self.worker
            .retain(|key, value| stays(K::from_key(key), value))
    }

    /// Removes all keys, one by one. A key that is inserted meanwhile may remain.
    pub fn clear(&mut self) -> Result<(), Fault> {
        self.worker.clear()
    }

    /// Returns how many keys of a range there are: see [`CopyMapWorker::count`].
    ///
    /// # Panics
    ///
    /// It panics if the start of the range is after its end, or if a bound is NaN.
    #[track_caller]
    pub fn count(&mut self, bounds: impl RangeBounds<K>) -> Result<u64, Fault> {
        self.worker.count(bounds_of(bounds))
    }

    /// Returns whether the map has the keys and values of another one, and no others: see
    /// [`CopyMapWorker::is_equal`].
    pub fn is_equal(&mut self, other: &BTreeMap<K, V>) -> Result<bool, Fault>
    where
        K: Ord,
        V: PartialEq,
    {
        order::is_equal(
            self.iter(),
            other.iter(),
            |(key, value), (wanted, other)| (key, value) == (wanted, other),
        )
    }
}

impl<K: Key, V: Word> From<CopyMap<V>> for CopyMapOf<K, V> {
    /// Returns the map with values as keys of a map of keys.
    fn from(map: CopyMap<V>) -> CopyMapOf<K, V> {
        let of = PhantomData;
        CopyMapOf { map, of }
    }
}

impl<'a, K: Key, V: Word> From<CopyMapWorker<'a, V>> for CopyMapWorkerOf<'a, K, V> {
    /// Returns the worker with values as keys of a worker of keys.
    fn from(worker: CopyMapWorker<'a, V>) -> CopyMapWorkerOf<'a, K, V> {
        let of = PhantomData;
        CopyMapWorkerOf { worker, of }
    }
}

impl<'s, 'a, K: Key, V: Word> IntoIterator for &'s mut CopyMapWorkerOf<'a, K, V> {
    type Item = Result<(K, V), Fault>;
    type IntoIter = Values<K, Range<&'s mut CopyMapWorker<'a, V>>>;

    fn into_iter(self) -> Self::IntoIter {
        self.iter()
    }
}

impl<K: Key, V: Word> FromIterator<(K, V)> for CopyMapOf<K, V> {
    /// Returns a map of these keys and values, for 64 workers: see [`CopyMap::from_iter`].
    ///
    /// # Panics
    ///
    /// It panics if a value is no key, or if memory is refused. [`CopyMapOf::from_entries`] returns a
    /// fault instead.
    fn from_iter<I: IntoIterator<Item = (K, V)>>(entries: I) -> CopyMapOf<K, V> {
        let entries = keyed(entries).map(|entry| entry.unwrap_or_else(|fault| panic_by(fault)));
        CopyMapOf::from(entries.collect::<CopyMap<V>>())
    }
}

impl<K: Key, V: Word, const N: usize> From<[(K, V); N]> for CopyMapOf<K, V> {
    /// Returns a map of these keys and values: see [`from_iter`](CopyMapOf::from_iter).
    ///
    /// # Panics
    ///
    /// It panics if a value is no key, or if memory is refused.
    fn from(entries: [(K, V); N]) -> CopyMapOf<K, V> {
        entries.into_iter().collect()
    }
}

impl<K: Key + fmt::Debug, V: Word> fmt::Debug for CopyMapOf<K, V> {
    /// Writes the first ten keys, and two dots if there are more. It never waits for a worker: if
    /// each is attached, it writes that.
    fn fmt(&self, f: &mut fmt::Formatter<'_>) -> fmt::Result {
        let worker = self.attach_timeout(Duration::ZERO);
        let first = |mut worker: CopyMapWorkerOf<'_, K, V>| {
            let some = worker.iter().take(SHOWN + 1);
            some.map(|entry| entry.map(|(key, _)| key)).collect()
        };
        show_keys("CopyMapOf", worker.and_then(first), &self.map, f)
    }
}

impl<K: Key, V: Word> fmt::Debug for CopyMapWorkerOf<'_, K, V> {
    fn fmt(&self, f: &mut fmt::Formatter<'_>) -> fmt::Result {
        write!(f, "CopyMapWorkerOf({:?})", self.worker)
    }
}
