//! Maps with values in place, whose calls return copies.

use crate::fault::Fault;
use crate::ffi::map::{Change, Entry, Given, InPlace, WorkerHandle};
use crate::ffi::{Order, Outcome};
use crate::key::{all_checked, checked};
use crate::map::{InsertError, Reclaimed};
use crate::map_order::{scanned, taken};
use crate::map_place::{collected, extend_by, fill, found, managed, MapPlace};
use crate::map_puts::{self, Gives, PutError};
use crate::options::Options;
use crate::order::{self, Calls, Range, Scanned, Scans};
use crate::place::millis;
use crate::word::{Fits, Word};
use crate::MOST_KEY;
use std::collections::BTreeMap;
use std::fmt;
use std::marker::PhantomData;
use std::ops::RangeBounds;
use std::time::Duration;

/// A concurrent ordered map from the integers 0 to 2^64 - 4 to values of at most 64 bits, such as
/// numbers, which it stores in place: see [`Word`].
///
/// It has the calls of a [`Map`](crate::Map). They return copies of values, without a guard and a second
/// worker. No value is allocated or dropped.
///
/// ```
/// # fn main() -> Result<(), Box<dyn std::error::Error>> {
/// let visits = nm_set::CopyMap::new(4_096, 4)?;
/// std::thread::scope(|scope| {
///     for _ in 0..4 {
///         scope.spawn(|| {
///             let mut worker = visits.attach().expect("a worker is free");
///             for page in 0..100 {
///                 worker.update(page, |old| old.unwrap_or(0) + 1).expect("there is room");
///             }
///         });
///     }
/// });
/// let mut worker = visits.attach()?;
/// assert_eq!(worker.get(5)?, Some(4)); // no step was lost
/// assert_eq!(worker.put(5, 0)?, Some(4));
/// assert_eq!(worker.remove(5)?, Some(0));
/// assert_eq!(worker.pop_last()?, Some((99, 4)));
/// let some: Result<Vec<_>, _> = worker.range(4..8).collect();
/// assert_eq!(some?, [(4, 4), (6, 4), (7, 4)]);
/// # Ok(())
/// # }
/// ```
///
/// A value that is no [`Word`] is refused:
///
/// ```compile_fail,E0277
/// let map = nm_set::CopyMap::<String>::new(64, 1).unwrap();
/// ```
pub struct CopyMap<V: Word> {
    place: MapPlace<InPlace>,
    of: PhantomData<fn(V) -> V>,
}

/// One worker of a [`CopyMap`], for one thread at a time: see [`MapWorker`](crate::MapWorker). When it is
/// dropped, it is returned to the map.
///
/// No call waits, except those that give the map a value, and `wait_first`. Each may return
/// `Contention` (the bound of the options was reached; the map is unchanged), and in a forked child
/// `Forked`.
pub struct CopyMapWorker<'a, V: Word> {
    handle: WorkerHandle<'a, InPlace>,
    of: PhantomData<fn(V) -> V>,
}

impl<V: Word> CopyMap<V> {
    /// Makes an empty map: see [`Map::new`](crate::Map::new).
    ///
    /// Errors: `Nodes`, `Workers`, `NoMemory`.
    pub fn new(nodes: u32, workers: u32) -> Result<CopyMap<V>, Fault> {
        MapPlace::new(nodes, workers).map(CopyMap::of)
    }

    /// Makes an empty map by options: see [`Map::with_options`](crate::Map::with_options).
    ///
    /// Errors: `Nodes`, `Workers`, `NoMemory`.
    pub fn with_options(nodes: u32, options: Options) -> Result<CopyMap<V>, Fault> {
        MapPlace::with_options(nodes, options).map(CopyMap::of)
    }

    /// Makes a map of these keys and values. Of several values for one key it keeps the last one.
    ///
    /// Errors: `Nodes`, `Workers`, `NoMemory`, `Key`, `MapFull`.
    pub fn from_entries(
        nodes: u32,
        options: Options,
        entries: impl IntoIterator<Item = (u64, V)>,
    ) -> Result<CopyMap<V>, Fault> {
        let map = CopyMap::with_options(nodes, options)?;
        let mut worker = map.attach()?;
        fill(entries, |entries| worker.extend(entries))?;
        drop(worker);
        Ok(map)
    }

    fn of(place: MapPlace<InPlace>) -> CopyMap<V> {
        let _ = Fits::<V>::BITS;
        let of = PhantomData;
        CopyMap { place, of }
    }

    /// Attaches a worker to this thread: see [`Map::attach`](crate::Map::attach).
    ///
    /// Errors: `NoWorker`, `NoMemory`.
    pub fn attach(&self) -> Result<CopyMapWorker<'_, V>, Fault> {
        self.place.attach().map(CopyMapWorker::of)
    }

    /// Attaches a worker, after a wait of at most `timeout`.
    ///
    /// Errors: `NoWorker`, `NoMemory`.
    pub fn attach_timeout(&self, timeout: Duration) -> Result<CopyMapWorker<'_, V>, Fault> {
        self.place.attach_timeout(timeout).map(CopyMapWorker::of)
    }

    /// Returns the number of keys: see [`Map::len`](crate::Map::len).
    ///
    /// Errors: `Forked`.
    pub fn len(&self) -> Result<usize, Fault> {
        self.place.len()
    }

    /// Returns the number of nodes that wait to be freed: see [`Map::waiting`](crate::Map::waiting).
    ///
    /// Errors: `Forked`.
    pub fn waiting(&self) -> Result<u64, Fault> {
        self.place.waiting()
    }

    /// Returns whether [`len`](CopyMap::len) is 0.
    ///
    /// Errors: `Forked`.
    pub fn is_empty(&self) -> Result<bool, Fault> {
        self.len().map(|keys| keys == 0)
    }

    /// Returns the number of nodes for which it has room.
    pub fn nodes(&self) -> u32 {
        self.place.nodes()
    }

    /// Returns how many keys it can have if no removed node waits: (nodes - 5) / 2.
    pub fn capacity(&self) -> usize {
        self.place.capacity()
    }

    /// Returns how many workers it has.
    pub fn workers(&self) -> u32 {
        self.place.workers()
    }
}

impl<'a, V: Word> CopyMapWorker<'a, V> {
    fn of(handle: WorkerHandle<'a, InPlace>) -> CopyMapWorker<'a, V> {
        let of = PhantomData;
        CopyMapWorker { handle, of }
    }

    /// Returns the value of a key, or None if the map does not have the key.
    ///
    /// Errors: `Key`, `Contention`.
    pub fn get(&mut self, key: u64) -> Result<Option<V>, Fault> {
        found(self.find(checked(key)?))
    }

    /// Returns for each of these keys its value, or None if the map does not have it. The map had
    /// each of them so at a moment of this call.
    ///
    /// Errors: `Key`, `Contention`.
    pub fn get_many(&mut self, keys: &[u64]) -> Result<Vec<Option<V>>, Fault> {
        all_checked(keys)?;
        let (outcome, words) = self.handle.get_many(keys);
        managed(outcome)?;
        let value = |word: Option<u64>| word.map(V::from_word);
        Ok(words.into_iter().map(value).collect())
    }

    /// Returns whether the map has the key.
    ///
    /// Errors: `Key`, `Contention`.
    pub fn contains(&mut self, key: u64) -> Result<bool, Fault> {
        self.handle.contains(key)
    }

    /// Inserts a key with a value. If the map has the key, it keeps its value. It waits for nodes like
    /// [`MapWorker::insert`](crate::MapWorker::insert).
    ///
    /// Errors: `Present`. `Fault` with `Key`, `MapFull` (no nodes became free), `Contention`,
    /// `NoMemory`.
    pub fn insert(&mut self, key: u64, value: V) -> Result<(), InsertError<V>> {
        self.handle
            .insert(key, value.to_word())
            .map_err(|error| error.map(|_| value))
    }

    /// Inserts these keys with their values, one by one; returns how many were absent. A key that the
    /// map has keeps its value. It waits for each key like [`insert`](CopyMapWorker::insert).
    ///
    /// Errors: those of `insert` except `Present`, with the value of that key. The entries before it
    /// are inserted.
    pub fn extend(
        &mut self,
        entries: impl IntoIterator<Item = (u64, V)>,
    ) -> Result<usize, InsertError<V>> {
        extend_by(entries, |key, value| self.insert(key, value))
    }

    /// Inserts a key with a value, or replaces the value that it has, in one step: no call finds the
    /// key absent meanwhile. Returns the value that the key had, or None if it was absent. It waits like
    /// `insert`. An insert takes two nodes, and a replacement one.
    ///
    /// Errors: `Fault` with `Key`, `MapFull`, `Contention`, `NoMemory`.
    pub fn put(&mut self, key: u64, value: V) -> Result<Option<V>, PutError<V>> {
        map_puts::give(self, key, Change::Put, value)
    }

    /// Replaces the value that a key has, in the same way, and returns that value.
    ///
    /// Errors: `Absent`, and those of [`put`](CopyMapWorker::put).
    pub fn replace(&mut self, key: u64, value: V) -> Result<V, PutError<V>> {
        let old = map_puts::give(self, key, Change::Replace, value)?;
        Ok(old.expect("a replaced value is written"))
    }

    /// Replaces the value that a key has, in the same way, if it is the expected one: if it has the same
    /// [`Word`].
    ///
    /// Errors: `Absent`; `Other`, if the key has another value; and those of
    /// [`put`](CopyMapWorker::put).
    pub fn compare_replace(&mut self, key: u64, expected: V, value: V) -> Result<(), PutError<V>> {
        let change = Change::Compare(expected.to_word());
        map_puts::give(self, key, change, value).map(|_| ())
    }

    /// Removes a key if it has the expected value, which is compared as by
    /// [`compare_replace`](CopyMapWorker::compare_replace). Returns whether it did, also if the bound of
    /// the call is reached before the key is cut off, like [`remove`](CopyMapWorker::remove). After false
    /// the key is absent or has another value.
    ///
    /// Errors: `Key`, `Contention`, `NoMemory`.
    pub fn compare_remove(&mut self, key: u64, expected: V) -> Result<bool, Fault> {
        self.handle.compare_remove(key, expected.to_word())
    }

    /// Gives a key the value that a function makes of the one that it has, or of None if the key is
    /// absent; returns the new value. It calls the function again as often as another call changes the
    /// key in between, without a bound. The function may make calls by other workers: no lock is held.
    ///
    /// Errors: `Key`, `MapFull`, `Contention`, `NoMemory`.
    pub fn update(&mut self, key: u64, make: impl FnMut(Option<V>) -> V) -> Result<V, Fault> {
        map_puts::update(self, key, make)
    }

    /// Returns the value of a key, after an insert of the value that a function makes if the key is
    /// absent. It tries again as often as other calls insert and remove the key in between, without a
    /// bound.
    ///
    /// Errors: `Key`, `MapFull`, `Contention`, `NoMemory`.
    pub fn get_or_insert_with(&mut self, key: u64, make: impl FnOnce() -> V) -> Result<V, Fault> {
        map_puts::get_or_insert_with(self, key, make)
    }

    /// Removes a key, and returns its value, or None if the key was absent. No two calls return one
    /// value, unless it was inserted again in between. It returns the value too if the bound of the call
    /// is reached before the key is cut off, because this call removes the key and no other does.
    ///
    /// Errors: `Key`, `Contention`, `NoMemory`.
    pub fn remove(&mut self, key: u64) -> Result<Option<V>, Fault> {
        let (outcome, word) = self.handle.take(checked(key)?);
        taken((outcome, word.map(V::from_word)))
    }

    /// Frees the nodes that were reclaimed, however few wait.
    ///
    /// Errors: none is known.
    pub fn reclaim(&mut self) -> Result<Reclaimed, Fault> {
        self.handle.reclaimed()
    }

    /// Returns the number of nodes that wait with this worker: two for each removed key, and one for
    /// each replaced value.
    pub fn waiting(&mut self) -> u64 {
        self.handle.waiting()
    }

    /// Returns the key of an unfinished remove, or None. The worker's next call finishes it first.
    pub fn pending(&mut self) -> Result<Option<u64>, Fault> {
        self.handle.pending_key()
    }

    /// Returns its number, which is below the number of workers.
    pub fn number(&self) -> u32 {
        self.handle.number()
    }

    /// Returns the least key with its value, or None if the map is empty.
    ///
    /// Errors: `Contention`.
    pub fn first(&mut self) -> Result<Option<(u64, V)>, Fault> {
        self.at_least(0)
    }

    /// Returns the greatest key with its value, or None if the map is empty.
    ///
    /// Errors: `Contention`.
    pub fn last(&mut self) -> Result<Option<(u64, V)>, Fault> {
        self.at_most(MOST_KEY)
    }

    /// Returns the least key with its value, after a wait for one of at most `timeout`: see
    /// [`MapWorker::wait_first`](crate::MapWorker::wait_first).
    ///
    /// Errors: `Contention`.
    pub fn wait_first(&mut self, timeout: Duration) -> Result<Option<(u64, V)>, Fault> {
        self.wait_first_below(u64::MAX, timeout)
    }

    /// Does the same with the least key that is below a bound.
    ///
    /// Errors: `Contention`.
    pub fn wait_first_below(
        &mut self,
        below: u64,
        timeout: Duration,
    ) -> Result<Option<(u64, V)>, Fault> {
        entry_of(self.handle.wait_first(below, millis(timeout)))
    }

    /// Returns the least key that is not below this one, with its value, or None if there is none.
    ///
    /// Errors: `Key`, `Contention`.
    pub fn at_least(&mut self, key: u64) -> Result<Option<(u64, V)>, Fault> {
        entry_of(self.handle.nearest(Order::Ascending, checked(key)?))
    }

    /// Returns the greatest key that is not above this one, with its value, or None if there is none.
    ///
    /// Errors: `Key`, `Contention`.
    pub fn at_most(&mut self, key: u64) -> Result<Option<(u64, V)>, Fault> {
        entry_of(self.handle.nearest(Order::Descending, checked(key)?))
    }

    /// Returns whether the map has no key.
    ///
    /// Errors: `Contention`.
    pub fn is_empty(&mut self) -> Result<bool, Fault> {
        self.first().map(|entry| entry.is_none())
    }

    /// Removes the least key and returns it with its value, or None if the map is empty: see
    /// [`MapWorker::pop_first`](crate::MapWorker::pop_first).
    ///
    /// Errors: `Contention`, `NoMemory`. `Unfinished`: the bound of the call was reached after it had
    /// begun to remove a key, which [`pending`](CopyMapWorker::pending) returns. This call removes the
    /// key and no other does, and its value is not returned.
    pub fn pop_first(&mut self) -> Result<Option<(u64, V)>, Fault> {
        self.pop_first_below(u64::MAX)
    }

    /// Removes the greatest key and returns it with its value, in the same way.
    ///
    /// Errors: those of [`pop_first`](CopyMapWorker::pop_first).
    pub fn pop_last(&mut self) -> Result<Option<(u64, V)>, Fault> {
        self.pop_last_from(0)
    }

    /// Removes the least key if it is below a bound, and returns it with its value.
    ///
    /// Errors: those of [`pop_first`](CopyMapWorker::pop_first).
    pub fn pop_first_below(&mut self, below: u64) -> Result<Option<(u64, V)>, Fault> {
        entry_of(self.handle.pop(Order::Ascending, below))
    }

    /// Removes the greatest key if it is not below a bound, and returns it with its value.
    ///
    /// Errors: those of [`pop_first`](CopyMapWorker::pop_first).
    pub fn pop_last_from(&mut self, from: u64) -> Result<Option<(u64, V)>, Fault> {
        entry_of(self.handle.pop(Order::Descending, from))
    }

    /// Returns an iterator over the keys of a range with their values, in both directions: see
    /// [`GuardedWorker::range`](crate::GuardedWorker::range).
    ///
    /// # Panics
    ///
    /// It panics if the start of the range is after its end.
    #[track_caller]
    pub fn range(&mut self, bounds: impl RangeBounds<u64>) -> Range<&mut CopyMapWorker<'a, V>> {
        Range::of(self, bounds)
    }

    /// Returns an iterator over all keys with their values.
    pub fn iter(&mut self) -> Range<&mut CopyMapWorker<'a, V>> {
        self.range(..)
    }

    /// Returns the least keys that are not below `from` with their values, at most `room` of them, and
    /// where the next scan goes on: see [`Set::scan`](crate::Set::scan).
    ///
    /// Errors: `Contention`.
    pub fn scan(&mut self, from: u64, room: usize) -> Result<Scanned<(u64, V)>, Fault> {
        order::scan(self, from, room)
    }

    /// Returns the keys of a range, ascending: see [`MapWorker::keys`](crate::MapWorker::keys).
    ///
    /// Errors: `Contention`.
    ///
    /// # Panics
    ///
    /// It panics if the start of the range is after its end.
    #[track_caller]
    pub fn keys(&mut self, bounds: impl RangeBounds<u64>) -> Result<Vec<u64>, Fault> {
        self.range(bounds)
            .map(|entry| entry.map(|(key, _)| key))
            .collect()
    }

    /// Returns the keys of a range with their values, ascending, in the way of
    /// [`range`](CopyMapWorker::range). [`CopyMap::from_entries`] makes a map of them again.
    ///
    /// Errors: `Contention`.
    ///
    /// # Panics
    ///
    /// It panics if the start of the range is after its end.
    #[track_caller]
    pub fn entries(&mut self, bounds: impl RangeBounds<u64>) -> Result<Vec<(u64, V)>, Fault> {
        self.range(bounds).collect()
    }

    /// Removes the keys of a range, one by one; returns how many: see
    /// [`MapWorker::remove_range`](crate::MapWorker::remove_range).
    ///
    /// # Panics
    ///
    /// It panics if the start of the range is after its end.
    #[track_caller]
    pub fn remove_range(&mut self, bounds: impl RangeBounds<u64>) -> Result<u64, Fault> {
        order::remove_range(self, bounds)
    }

    /// Removes each key for which `stays` returns false of it and its value: see
    /// [`GuardedWorker::retain`](crate::GuardedWorker::retain).
    ///
    /// Errors: `Contention`, `NoMemory`.
    pub fn retain(&mut self, mut stays: impl FnMut(u64, V) -> bool) -> Result<(), Fault> {
        order::retain(self, |(key, value)| stays(key, value))
    }

    /// Removes all keys, one by one. A key that is inserted meanwhile may remain.
    ///
    /// Errors: those of [`retain`](CopyMapWorker::retain).
    pub fn clear(&mut self) -> Result<(), Fault> {
        self.retain(|_, _| false)
    }

    /// Returns how many keys of a range there are: see [`MapWorker::count`](crate::MapWorker::count).
    ///
    /// Errors: `Contention`.
    ///
    /// # Panics
    ///
    /// It panics if the start of the range is after its end.
    #[track_caller]
    pub fn count(&mut self, bounds: impl RangeBounds<u64>) -> Result<u64, Fault> {
        self.handle.count_of(bounds)
    }

    /// Returns whether the map has the keys and values of another one, and no others: see
    /// [`GuardedWorker::is_equal`](crate::GuardedWorker::is_equal).
    ///
    /// Errors: `Contention`.
    pub fn is_equal(&mut self, other: &BTreeMap<u64, V>) -> Result<bool, Fault>
    where
        V: PartialEq,
    {
        order::is_equal(
            self.iter(),
            other.iter(),
            |(key, value), (wanted, other)| (key, value) == (wanted, other),
        )
    }
}

/// Returns a key with the value of its word.
fn valued<V: Word>(entry: Entry) -> (u64, V) {
    (entry.key, V::from_word(entry.value))
}

/// Returns the entry that a call has found, or None after the answer no.
fn entry_of<V: Word>((outcome, entry): (Outcome, Entry)) -> Result<Option<(u64, V)>, Fault> {
    Ok(managed(outcome)?.then(|| valued(entry)))
}

impl<V: Word> CopyMapWorker<'_, V> {
    /// Reads entries in an order.
    fn read(
        &mut self,
        order: Order,
        range: (u64, u64),
        room: usize,
    ) -> Result<Scanned<(u64, V)>, Fault> {
        let (outcome, entries, next) = self.handle.read_entries(order, range, room);
        let entries = entries.into_iter().map(valued).collect();
        scanned((outcome, entries, next))
    }
}

impl<V: Word> Gives for CopyMapWorker<'_, V> {
    type Owned = V;
    type Found = V;

    fn find(&mut self, key: u64) -> (Outcome, Option<V>) {
        let (outcome, word) = self.handle.get(key);
        (outcome, word.map(V::from_word))
    }

    fn give(&mut self, key: u64, change: Change, value: V) -> Given<V, V> {
        let given = self.handle.give_word(key, change, value.to_word());
        Given {
            outcome: given.outcome,
            old: given.old.map(V::from_word),
            new: given.new.map(|_| value).map_err(|_| value),
        }
    }

    fn word(found: V) -> u64 {
        found.to_word()
    }

    fn fault_of(&mut self, outcome: Outcome) -> Option<Fault> {
        self.handle.fault_of(outcome)
    }
}

impl<V: Word> Scans for &mut CopyMapWorker<'_, V> {
    type Entry = (u64, V);

    fn scan(&mut self, range: (u64, u64), room: usize) -> Result<Scanned<Self::Entry>, Fault> {
        self.read(Order::Ascending, range, room)
    }

    fn scan_back(&mut self, range: (u64, u64), room: usize) -> Result<Scanned<Self::Entry>, Fault> {
        self.read(Order::Descending, range, room)
    }
}

impl<V: Word> Calls for &mut CopyMapWorker<'_, V> {
    fn take(&mut self, key: u64) -> Result<bool, Fault> {
        self.remove(key).map(|value| value.is_some())
    }
}

impl<'s, 'a, V: Word> IntoIterator for &'s mut CopyMapWorker<'a, V> {
    type Item = Result<(u64, V), Fault>;
    type IntoIter = Range<&'s mut CopyMapWorker<'a, V>>;

    fn into_iter(self) -> Self::IntoIter {
        self.iter()
    }
}

impl<V: Word> FromIterator<(u64, V)> for CopyMap<V> {
    /// Returns a map of these keys and values: see [`Map::from_iter`](crate::Map::from_iter).
    ///
    /// # Panics
    ///
    /// It panics if a key is above [`MOST_KEY`](crate::MOST_KEY), or if memory is refused.
    /// [`CopyMap::from_entries`] returns a fault instead.
    fn from_iter<I: IntoIterator<Item = (u64, V)>>(entries: I) -> CopyMap<V> {
        collected(entries, CopyMap::from_entries)
    }
}

impl<V: Word, const N: usize> From<[(u64, V); N]> for CopyMap<V> {
    /// Returns a map of these keys and values: see [`from_iter`](CopyMap::from_iter).
    ///
    /// # Panics
    ///
    /// It panics if a key is above [`MOST_KEY`](crate::MOST_KEY), or if memory is refused.
    fn from(entries: [(u64, V); N]) -> CopyMap<V> {
        entries.into_iter().collect()
    }
}

impl<V: Word> fmt::Debug for CopyMap<V> {
    /// Writes how many keys it has and can have, its nodes and its workers. It takes no worker.
    fn fmt(&self, f: &mut fmt::Formatter<'_>) -> fmt::Result {
        self.place.show("CopyMap", f)
    }
}

impl<V: Word> fmt::Debug for CopyMapWorker<'_, V> {
    fn fmt(&self, f: &mut fmt::Formatter<'_>) -> fmt::Result {
        f.debug_struct("CopyMapWorker")
            .field("number", &self.number())
            .finish_non_exhaustive()
    }
}
