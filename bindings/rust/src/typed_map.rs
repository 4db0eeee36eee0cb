//! Maps whose keys are of another type than `u64`.

use crate::convert::{show_values, SHOWN};
use crate::fault::Fault;
use crate::map::{Guard, InsertError, Map, MapWorker, Reclaimed};
use crate::map_order::GuardedWorker;
use crate::map_place::extend_by;
use crate::map_puts::PutError;
use crate::options::Options;
use crate::order::{self, Range, Scanned};
use crate::typed::{bound_of, bounds_of, key_of, keys_of, panic_by, scan_of, Entry, Key, Values};
use crate::MOST_KEY;
use std::collections::BTreeMap;
use std::fmt;
use std::marker::PhantomData;
use std::ops::RangeBounds;
use std::time::Duration;

/// A [`Map`] whose keys are values of a type: see [`Key`]. Each call makes the call of the same
/// name of the map, its worker or its guard, with its waits and faults. Besides, a value that is
/// no key returns [`Fault::Value`], and NaN [`Fault::Unordered`].
///
/// ```
/// # fn main() -> Result<(), Box<dyn std::error::Error>> {
/// use nm_set::MapOf;
/// let prices = MapOf::from([(-1.5, "low"), (0.25, "fair"), (f64::INFINITY, "any")]);
/// let (mut reader, mut worker) = (prices.attach()?, prices.attach()?);
/// worker.insert(-0.5, "less")?;
/// let guard = reader.pin()?;
/// assert_eq!(guard.get(0.25)?, Some(&"fair"));
/// let some: Result<Vec<_>, _> = worker.under(&guard)?.range(-1.0..1.0).collect();
/// assert_eq!(some?, [(-0.5, &"less"), (0.25, &"fair")]);
/// assert!(worker.insert(f64::NAN, "none").is_err());
/// # Ok(())
/// # }
/// ```
pub struct MapOf<K: Key, V> {
    map: Map<V>,
    of: PhantomData<fn(K) -> K>,
}

/// A [`MapWorker`] of a [`MapOf`].
pub struct MapWorkerOf<'a, K: Key, V> {
    worker: MapWorker<'a, V>,
    of: PhantomData<fn(K) -> K>,
}

/// A [`Guard`] of a [`MapOf`].
#[must_use = "the pin ends when its guard is dropped"]
pub struct GuardOf<'w, 'a, K: Key, V> {
    guard: Guard<'w, 'a, V>,
    of: PhantomData<fn(K) -> K>,
}

/// A [`GuardedWorker`] of a [`MapOf`].
pub struct GuardedWorkerOf<'w, 'a, 'g, K: Key, V> {
    worker: GuardedWorker<'w, 'a, 'g, V>,
    of: PhantomData<fn(K) -> K>,
}

/// Returns entries with the keys of their values.
pub(crate) fn keyed<K: Key, V>(
    entries: impl IntoIterator<Item = (K, V)>,
) -> impl Iterator<Item = Result<(u64, V), Fault>> {
    entries
        .into_iter()
        .map(|(key, value)| Ok((key_of(key)?, value)))
}

/// Returns a value with the key of its typed one, or the value with the fault of that.
pub(crate) fn keyed_value<K: Key, V>(key: K, value: V) -> Result<(u64, V), PutError<V>> {
    match key_of(key) {
        Ok(key) => Ok((key, value)),
        Err(fault) => Err(PutError::Fault(fault, value)),
    }
}

/// Returns the value of the key that a call found.
pub(crate) fn typed<K: Key, E: Entry<K>>(
    found: Result<Option<E>, Fault>,
) -> Result<Option<E::Typed>, Fault> {
    Ok(found?.map(E::typed))
}

impl<K: Key, V> MapOf<K, V> {
    /// Makes an empty map: see [`Map::new`].
    pub fn new(nodes: u32, workers: u32) -> Result<MapOf<K, V>, Fault> {
        Map::new(nodes, workers).map(MapOf::from)
    }

    /// Makes an empty map by options: see [`Map::with_options`].
    pub fn with_options(nodes: u32, options: Options) -> Result<MapOf<K, V>, Fault> {
        Map::with_options(nodes, options).map(MapOf::from)
    }

    /// Makes a map of these keys and values: see [`Map::from_entries`].
    pub fn from_entries(
        nodes: u32,
        options: Options,
        entries: impl IntoIterator<Item = (K, V)>,
    ) -> Result<MapOf<K, V>, Fault> {
        let entries = keyed(entries).collect::<Result<Vec<_>, Fault>>()?;
        Map::from_entries(nodes, options, entries).map(MapOf::from)
    }

    /// Returns the map of keys.
    pub fn raw(&self) -> &Map<V> {
        &self.map
    }

    /// Attaches a worker to this thread: see [`Map::attach`].
    pub fn attach(&self) -> Result<MapWorkerOf<'_, K, V>, Fault> {
        self.map.attach().map(MapWorkerOf::from)
    }

    /// Attaches a worker, after a wait of at most `timeout`.
    pub fn attach_timeout(&self, timeout: Duration) -> Result<MapWorkerOf<'_, K, V>, Fault> {
        self.map.attach_timeout(timeout).map(MapWorkerOf::from)
    }

    /// Returns the number of keys: see [`Map::len`].
    pub fn len(&self) -> Result<usize, Fault> {
        self.map.len()
    }

    /// Returns the number of removed nodes that wait to be freed: see [`Map::waiting`].
    pub fn waiting(&self) -> Result<u64, Fault> {
        self.map.waiting()
    }

    /// Returns whether [`len`](MapOf::len) is 0.
    pub fn is_empty(&self) -> Result<bool, Fault> {
        self.map.is_empty()
    }

    /// Returns the number of nodes for which it has room.
    pub fn nodes(&self) -> u32 {
        self.map.nodes()
    }

    /// Returns how many keys it can have if no removed node waits.
    pub fn capacity(&self) -> usize {
        self.map.capacity()
    }

    /// Returns how many workers it has.
    pub fn workers(&self) -> u32 {
        self.map.workers()
    }
}

impl<'a, K: Key, V> MapWorkerOf<'a, K, V> {
    /// Returns the worker of keys.
    pub fn raw(&mut self) -> &mut MapWorker<'a, V> {
        &mut self.worker
    }

    /// Inserts a key with a value: see [`MapWorker::insert`].
    pub fn insert(&mut self, key: K, value: V) -> Result<(), InsertError<V>> {
        match key_of(key) {
            Ok(key) => self.worker.insert(key, value),
            Err(fault) => Err(InsertError::Fault(fault, value)),
        }
    }

    /// Inserts these keys with their values, one by one; returns how many were absent: see
    /// [`MapWorker::extend`].
    pub fn extend(
        &mut self,
        entries: impl IntoIterator<Item = (K, V)>,
    ) -> Result<usize, InsertError<V>> {
        extend_by(entries, |key, value| self.insert(key, value))
    }

    /// Inserts a key with a value, or replaces its value, in one step: see [`MapWorker::put`].
    pub fn put(&mut self, key: K, value: V) -> Result<bool, PutError<V>> {
        let (key, value) = keyed_value(key, value)?;
        self.worker.put(key, value)
    }

    /// Replaces the value that a key has: see [`MapWorker::replace`].
    pub fn replace(&mut self, key: K, value: V) -> Result<(), PutError<V>> {
        let (key, value) = keyed_value(key, value)?;
        self.worker.replace(key, value)
    }

    /// Removes a key; returns true if it was present: see [`MapWorker::remove`].
    pub fn remove(&mut self, key: K) -> Result<bool, Fault> {
        self.worker.remove(key_of(key)?)
    }

    /// Returns whether the map has the key.
    pub fn contains(&mut self, key: K) -> Result<bool, Fault> {
        self.worker.contains(key_of(key)?)
    }

    /// Pins the worker until the guard is dropped: see [`MapWorker::pin`].
    pub fn pin(&mut self) -> Result<GuardOf<'_, 'a, K, V>, Fault> {
        let guard = self.worker.pin()?;
        let of = PhantomData;
        Ok(GuardOf { guard, of })
    }

    /// Returns the calls of this worker that return references to values, under a guard of another
    /// worker of the map: see [`MapWorker::under`].
    pub fn under<'w, 'g>(
        &'w mut self,
        guard: &'g GuardOf<'_, '_, K, V>,
    ) -> Result<GuardedWorkerOf<'w, 'a, 'g, K, V>, Fault> {
        let worker = self.worker.under(&guard.guard)?;
        let of = PhantomData;
        Ok(GuardedWorkerOf { worker, of })
    }

    /// Drops the values that were reclaimed: see [`MapWorker::reclaim`].
    pub fn reclaim(&mut self) -> Result<Reclaimed, Fault> {
        self.worker.reclaim()
    }

    /// Returns the number of nodes that wait with this worker, two for each removed key.
    pub fn waiting(&mut self) -> u64 {
        self.worker.waiting()
    }

    /// Returns the key of an unfinished remove, or None.
    pub fn pending(&mut self) -> Result<Option<K>, Fault> {
        typed(self.worker.pending())
    }

    /// Returns its number, which is below the number of workers.
    pub fn number(&self) -> u32 {
        self.worker.number()
    }

    /// Returns the least key, or None if the map is empty.
    pub fn first(&mut self) -> Result<Option<K>, Fault> {
        typed(self.worker.first())
    }

    /// Returns the greatest key, or None if the map is empty.
    pub fn last(&mut self) -> Result<Option<K>, Fault> {
        typed(self.worker.last())
    }

    /// Returns the least key, after a wait for one of at most `timeout`: see
    /// [`MapWorker::wait_first`].
    pub fn wait_first(&mut self, timeout: Duration) -> Result<Option<K>, Fault> {
        typed(self.worker.wait_first(timeout))
    }

    /// Does the same with the least key that is below a bound.
    pub fn wait_first_below(&mut self, below: K, timeout: Duration) -> Result<Option<K>, Fault> {
        typed(self.worker.wait_first_below(bound_of(below)?, timeout))
    }

    /// Returns the least key that is not below this one, or None if there is none.
    pub fn at_least(&mut self, key: K) -> Result<Option<K>, Fault> {
        typed(self.worker.at_least(key_of(key)?))
    }

    /// Returns the greatest key that is not above this one, or None if there is none.
    pub fn at_most(&mut self, key: K) -> Result<Option<K>, Fault> {
        typed(self.worker.at_most(bound_of(key)?.min(MOST_KEY)))
    }

    /// Returns whether the map has no key.
    pub fn is_empty(&mut self) -> Result<bool, Fault> {
        self.worker.is_empty()
    }

    /// Removes the least key and returns it, or None if the map is empty: see
    /// [`MapWorker::pop_first`].
    pub fn pop_first(&mut self) -> Result<Option<K>, Fault> {
        typed(self.worker.pop_first())
    }

    /// Removes the greatest key and returns it, in the same way.
    pub fn pop_last(&mut self) -> Result<Option<K>, Fault> {
        typed(self.worker.pop_last())
    }

    /// Removes the least key if it is below a bound, and returns it, or None if no key is.
    pub fn pop_first_below(&mut self, below: K) -> Result<Option<K>, Fault> {
        typed(self.worker.pop_first_below(bound_of(below)?))
    }

    /// Removes the greatest key if it is not below a bound, and returns it, or None if each is.
    pub fn pop_last_from(&mut self, from: K) -> Result<Option<K>, Fault> {
        typed(self.worker.pop_last_from(bound_of(from)?))
    }

    /// Returns an iterator over the keys of a range, in both directions: see [`MapWorker::range`].
    ///
    /// # Panics
    ///
    /// It panics if the start of the range is after its end, or if a bound is NaN.
    #[track_caller]
    pub fn range(
        &mut self,
        bounds: impl RangeBounds<K>,
    ) -> Values<K, Range<&mut MapWorker<'a, V>>> {
        Values::of(self.worker.range(bounds_of(bounds)))
    }

    /// Returns an iterator over all keys, in the way of [`range`](MapWorkerOf::range).
    pub fn iter(&mut self) -> Values<K, Range<&mut MapWorker<'a, V>>> {
        self.range(..)
    }

    /// Returns at most `room` keys from one on, and where to go on: see [`MapWorker::scan`].
    pub fn scan(&mut self, from: K, room: usize) -> Result<Scanned<K, K>, Fault> {
        scan_of(from, room, |key, room| self.worker.scan(key, room))
    }

    /// Returns the keys of a range, ascending: see [`MapWorker::keys`].
    ///
    /// # Panics
    ///
    /// It panics if the start of the range is after its end, or if a bound is NaN.
    #[track_caller]
    pub fn keys(&mut self, bounds: impl RangeBounds<K>) -> Result<Vec<K>, Fault> {
        self.range(bounds).collect()
    }

    /// Removes the keys of a range, one by one; returns how many: see [`MapWorker::remove_range`].
    ///
    /// # Panics
    ///
    /// It panics if the start of the range is after its end, or if a bound is NaN.
    #[track_caller]
    pub fn remove_range(&mut self, bounds: impl RangeBounds<K>) -> Result<u64, Fault> {
        self.worker.remove_range(bounds_of(bounds))
    }

    /// Removes each key for which `stays` returns false: see [`MapWorker::retain`].
    pub fn retain(&mut self, mut stays: impl FnMut(K) -> bool) -> Result<(), Fault> {
        self.worker.retain(|key| stays(K::from_key(key)))
    }

    /// Removes all keys, one by one. A key that is inserted meanwhile may remain.
    pub fn clear(&mut self) -> Result<(), Fault> {
        self.worker.clear()
    }

    /// Returns how many keys of a range there are: see [`MapWorker::count`].
    ///
    /// # Panics
    ///
    /// It panics if the start of the range is after its end, or if a bound is NaN.
    #[track_caller]
    pub fn count(&mut self, bounds: impl RangeBounds<K>) -> Result<u64, Fault> {
        self.worker.count(bounds_of(bounds))
    }
}

impl<'a, K: Key, V> GuardOf<'_, 'a, K, V> {
    /// Returns the value of a key, or None if the map does not have the key: see [`Guard::get`].
    pub fn get(&self, key: K) -> Result<Option<&V>, Fault> {
        self.guard.get(key_of(key)?)
    }

    /// Returns for each of these keys its value, or None: see [`Guard::get_many`].
    pub fn get_many(&self, keys: &[K]) -> Result<Vec<Option<&V>>, Fault> {
        self.guard.get_many(&keys_of(keys)?)
    }

    /// Returns the epoch that is pinned.
    pub fn epoch(&self) -> u64 {
        self.guard.epoch()
    }
}

impl<'w, 'a, 'g, K: Key, V> GuardedWorkerOf<'w, 'a, 'g, K, V> {
    /// Returns the value of a key, or None if the map does not have the key.
    pub fn get(&mut self, key: K) -> Result<Option<&'g V>, Fault> {
        self.worker.get(key_of(key)?)
    }

    /// Returns the least key with its value, or None if the map is empty.
    pub fn first(&mut self) -> Result<Option<(K, &'g V)>, Fault> {
        typed(self.worker.first())
    }

    /// Returns the greatest key with its value, or None if the map is empty.
    pub fn last(&mut self) -> Result<Option<(K, &'g V)>, Fault> {
        typed(self.worker.last())
    }

    /// Returns the least key that is not below this one, with its value, or None.
    pub fn at_least(&mut self, key: K) -> Result<Option<(K, &'g V)>, Fault> {
        typed(self.worker.at_least(key_of(key)?))
    }

    /// Returns the greatest key that is not above this one, with its value, or None.
    pub fn at_most(&mut self, key: K) -> Result<Option<(K, &'g V)>, Fault> {
        typed(self.worker.at_most(bound_of(key)?.min(MOST_KEY)))
    }

    /// Removes the least key and returns it with its value: see [`GuardedWorker::pop_first`].
    pub fn pop_first(&mut self) -> Result<Option<(K, &'g V)>, Fault> {
        typed(self.worker.pop_first())
    }

    /// Removes the greatest key and returns it with its value, in the same way.
    pub fn pop_last(&mut self) -> Result<Option<(K, &'g V)>, Fault> {
        typed(self.worker.pop_last())
    }

    /// Removes the least key if it is below a bound, and returns it with its value.
    pub fn pop_first_below(&mut self, below: K) -> Result<Option<(K, &'g V)>, Fault> {
        typed(self.worker.pop_first_below(bound_of(below)?))
    }

    /// Removes the greatest key if it is not below a bound, and returns it with its value.
    pub fn pop_last_from(&mut self, from: K) -> Result<Option<(K, &'g V)>, Fault> {
        typed(self.worker.pop_last_from(bound_of(from)?))
    }

    /// Removes a key, and returns its value, or None if it was absent: see [`GuardedWorker::take`].
    pub fn take(&mut self, key: K) -> Result<Option<&'g V>, Fault> {
        self.worker.take(key_of(key)?)
    }

    /// Inserts a key with a value, or replaces the value that it has, which it returns: see
    /// [`GuardedWorker::put`].
    pub fn put(&mut self, key: K, value: V) -> Result<Option<&'g V>, PutError<V>> {
        let (key, value) = keyed_value(key, value)?;
        self.worker.put(key, value)
    }

    /// Replaces the value that a key has, and returns that value: see [`GuardedWorker::replace`].
    pub fn replace(&mut self, key: K, value: V) -> Result<&'g V, PutError<V>> {
        let (key, value) = keyed_value(key, value)?;
        self.worker.replace(key, value)
    }

    /// Replaces the value that a key has if it is the expected one: see
    /// [`GuardedWorker::compare_replace`].
    pub fn compare_replace(&mut self, key: K, expected: &V, value: V) -> Result<(), PutError<V>> {
        let (key, value) = keyed_value(key, value)?;
        self.worker.compare_replace(key, expected, value)
    }

    /// Removes a key if it has the expected value: see [`GuardedWorker::compare_remove`].
    pub fn compare_remove(&mut self, key: K, expected: &V) -> Result<bool, Fault> {
        self.worker.compare_remove(key_of(key)?, expected)
    }

    /// Gives a key the value that a function makes of the one that it has: see
    /// [`GuardedWorker::update`].
    pub fn update(&mut self, key: K, make: impl FnMut(Option<&V>) -> V) -> Result<&'g V, Fault> {
        self.worker.update(key_of(key)?, make)
    }

    /// Returns the value of a key, after an insert if it is absent: see
    /// [`GuardedWorker::get_or_insert_with`].
    pub fn get_or_insert_with(&mut self, key: K, make: impl FnOnce() -> V) -> Result<&'g V, Fault> {
        self.worker.get_or_insert_with(key_of(key)?, make)
    }

    /// Returns an iterator over the keys of a range with their values: see [`GuardedWorker::range`].
    ///
    /// # Panics
    ///
    /// It panics if the start of the range is after its end, or if a bound is NaN.
    #[track_caller]
    pub fn range(
        &mut self,
        bounds: impl RangeBounds<K>,
    ) -> Values<K, Range<&mut GuardedWorker<'w, 'a, 'g, V>>> {
        Values::of(self.worker.range(bounds_of(bounds)))
    }

    /// Returns at most `room` keys from one on with their values, and where to go on.
    pub fn scan(&mut self, from: K, room: usize) -> Result<Scanned<(K, &'g V), K>, Fault> {
        scan_of(from, room, |key, room| self.worker.scan(key, room))
    }

    /// Returns an iterator over all keys with their values.
    pub fn iter(&mut self) -> Values<K, Range<&mut GuardedWorker<'w, 'a, 'g, V>>> {
        self.range(..)
    }
    /// Returns the keys of a range with clones of their values, ascending: see
    /// [`GuardedWorker::entries`]. [`MapOf::from_entries`] makes a map of them again.
    ///
    /// # Panics
    ///
    /// It panics if the start of the range is after its end, or if a bound is NaN.
    #[track_caller]
    pub fn entries(&mut self, bounds: impl RangeBounds<K>) -> Result<Vec<(K, V)>, Fault>
    where
        V: Clone,
    {
        let entries = self.worker.entries(bounds_of(bounds))?;
        Ok(entries.into_iter().map(Entry::typed).collect())
    }

    /// Removes each key for which `stays` returns false of it and its value: see
    /// [`GuardedWorker::retain`].
    pub fn retain(&mut self, mut stays: impl FnMut(K, &'g V) -> bool) -> Result<(), Fault> {
        self.worker
            .retain(|key, value| stays(K::from_key(key), value))
    }

    /// Returns whether the map has the keys and values of another one, and no others: see
    /// [`GuardedWorker::is_equal`].
    pub fn is_equal(&mut self, other: &BTreeMap<K, V>) -> Result<bool, Fault>
    where
        K: Ord,
        V: PartialEq,
    {
        order::is_equal(
            self.iter(),
            other.iter(),
            |(key, value), (wanted, other)| (key, value) == (wanted, other),
        )
    }
}

impl<K: Key, V> From<Map<V>> for MapOf<K, V> {
    /// Returns the map with values as keys of a map of keys.
    fn from(map: Map<V>) -> MapOf<K, V> {
        let of = PhantomData;
        MapOf { map, of }
    }
}

impl<'a, K: Key, V> From<MapWorker<'a, V>> for MapWorkerOf<'a, K, V> {
    /// Returns the worker with values as keys of a worker of keys.
    fn from(worker: MapWorker<'a, V>) -> MapWorkerOf<'a, K, V> {
        let of = PhantomData;
        MapWorkerOf { worker, of }
    }
}

impl<'s, 'a, K: Key, V> IntoIterator for &'s mut MapWorkerOf<'a, K, V> {
    type Item = Result<K, Fault>;
    type IntoIter = Values<K, Range<&'s mut MapWorker<'a, V>>>;

    fn into_iter(self) -> Self::IntoIter {
        self.iter()
    }
}

impl<'s, 'w, 'a, 'g, K: Key, V> IntoIterator for &'s mut GuardedWorkerOf<'w, 'a, 'g, K, V> {
    type Item = Result<(K, &'g V), Fault>;
    type IntoIter = Values<K, Range<&'s mut GuardedWorker<'w, 'a, 'g, V>>>;

    fn into_iter(self) -> Self::IntoIter {
        self.iter()
    }
}

impl<K: Key, V> FromIterator<(K, V)> for MapOf<K, V> {
    /// Returns a map of these keys and values, for 64 workers: see [`Map::from_iter`].
    ///
    /// # Panics
    ///
    /// It panics if a value is no key, or if memory is refused. [`MapOf::from_entries`] returns a
    /// fault instead.
    fn from_iter<I: IntoIterator<Item = (K, V)>>(entries: I) -> MapOf<K, V> {
        let entries = keyed(entries).map(|entry| entry.unwrap_or_else(|fault| panic_by(fault)));
        MapOf::from(entries.collect::<Map<V>>())
    }
}

impl<K: Key, V, const N: usize> From<[(K, V); N]> for MapOf<K, V> {
    /// Returns a map of these keys and values: see [`from_iter`](MapOf::from_iter).
    ///
    /// # Panics
    ///
    /// It panics if a value is no key, or if memory is refused.
    fn from(entries: [(K, V); N]) -> MapOf<K, V> {
        entries.into_iter().collect()
    }
}

/// The first keys of a map, or the fault of a call for them.
struct Keys<K>(Result<Vec<K>, Fault>);

impl<K: fmt::Debug> fmt::Debug for Keys<K> {
    fn fmt(&self, f: &mut fmt::Formatter<'_>) -> fmt::Result {
        match &self.0 {
            Ok(keys) => show_values(keys, f),
            Err(fault) => write!(f, "{fault}"),
        }
    }
}

/// Writes the first keys of a map, or the fault of a call for them, and the map of keys.
pub(crate) fn show_keys<K: fmt::Debug>(
    name: &str,
    keys: Result<Vec<K>, Fault>,
    map: &dyn fmt::Debug,
    f: &mut fmt::Formatter<'_>,
) -> fmt::Result {
    f.debug_struct(name)
        .field("keys", &Keys(keys))
        .field("map", map)
        .finish()
}

impl<K: Key + fmt::Debug, V> fmt::Debug for MapOf<K, V> {
    /// Writes the first ten keys, and two dots if there are more. It shows no value, because a
    /// value may lack `Debug`. It never waits for a worker: if each is attached, it writes that.
    fn fmt(&self, f: &mut fmt::Formatter<'_>) -> fmt::Result {
        let worker = self.attach_timeout(Duration::ZERO);
        let keys = worker.and_then(|mut worker| worker.iter().take(SHOWN + 1).collect());
        show_keys("MapOf", keys, &self.map, f)
    }
}

impl<K: Key, V> fmt::Debug for MapWorkerOf<'_, K, V> {
    fn fmt(&self, f: &mut fmt::Formatter<'_>) -> fmt::Result {
        write!(f, "MapWorkerOf({:?})", self.worker)
    }
}

impl<K: Key, V> fmt::Debug for GuardOf<'_, '_, K, V> {
    fn fmt(&self, f: &mut fmt::Formatter<'_>) -> fmt::Result {
        write!(f, "GuardOf({:?})", self.guard)
    }
}

impl<K: Key, V> fmt::Debug for GuardedWorkerOf<'_, '_, '_, K, V> {
    fn fmt(&self, f: &mut fmt::Formatter<'_>) -> fmt::Result {
        write!(f, "GuardedWorkerOf({:?})", self.worker)
    }
}
