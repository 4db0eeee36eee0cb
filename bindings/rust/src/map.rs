//! Maps, which own a value of each key.

use crate::fault::Fault;
use crate::ffi::map::{Boxed, Pinned, WorkerHandle};
use crate::key::{all_checked, checked};
use crate::map_place::{extend_by, fill, managed, MapPlace};
use crate::options::Options;
use std::fmt;
use std::time::Duration;

/// A concurrent ordered map from the integers 0 to 2^64 - 4 to values of a type. If the values are
/// numbers, take a [`CopyMap`](crate::CopyMap), whose calls return copies without a guard.
///
/// Threads share it by reference, and each attaches a [`MapWorker`] of its own. A reader gets a
/// reference to a value under a [`Guard`], and by a second worker it goes over values in order and
/// pops them ([`MapWorker::under`]). A value that was removed or replaced is dropped when no guard is
/// left that could have returned it, by whichever worker finds that, or at the drop of the map, and
/// never twice. So threads share a map if `V: Send + Sync`.
///
/// ```
/// # fn main() -> Result<(), Box<dyn std::error::Error>> {
/// let map = nm_set::Map::new(4_096, 4)?;
/// let mut worker = map.attach()?;
/// worker.insert(5, String::from("five"))?;
/// let guard = worker.pin()?;
/// assert_eq!(guard.get(5)?.map(String::as_str), Some("five"));
/// drop(guard);
/// worker.put(5, String::from("cinq"))?; // it replaces the text, in one step
/// assert!(worker.remove(5)?);
/// # Ok(())
/// # }
/// ```
///
/// Values that must not be shared between threads keep a map in its thread:
///
/// ```compile_fail,E0277
/// let map = nm_set::Map::<std::cell::Cell<u32>>::new(64, 2).unwrap();
/// std::thread::scope(|scope| {
///     scope.spawn(|| map.attach().unwrap().remove(5));
/// });
/// ```
///
/// A value cannot refer to what ends before the map:
///
/// ```compile_fail,E0597
/// let map = nm_set::Map::new(64, 1).unwrap();
/// let mut worker = map.attach().unwrap();
/// let text = String::from("five");
/// worker.insert(5, text.as_str()).unwrap();
/// ```
pub struct Map<V> {
    place: MapPlace<Boxed<V>>,
}

/// Why a key was not inserted. Each has the value, which the map does not have.
#[derive(Clone, Copy, PartialEq, Eq)]
pub enum InsertError<V> {
    /// The map has the key, with a value of its own.
    Present(V),
    /// The call failed. The map is unchanged.
    Fault(Fault, V),
}

/// The result of [`MapWorker::reclaim`].
#[derive(Clone, Copy, Debug, PartialEq, Eq)]
pub struct Reclaimed {
    /// How many values were dropped.
    pub values: u64,
    /// The worker that holds back others, by a guard or in a call.
    pub behind: Option<u32>,
}

/// One worker of a [`Map`], for one thread at a time. Each call takes it by `&mut`, and it may be
/// sent to another thread between two calls.
///
/// When it is dropped, including by a panic, it is returned to the map, and drops the values that
/// were reclaimed. A worker that is forgotten (`std::mem::forget`) is never returned, and the removed
/// values that wait with it are never dropped.
///
/// A call that drops values may panic if the drop of a value does. Then the call was made, and all
/// other values that were reclaimed were dropped.
///
/// No call waits, except those that give the map a value. Each may return `Contention` (the bound
/// of the options was reached; the map is unchanged), `Pinned` (a guard was forgotten; drop the
/// worker), and in a forked child `Forked`.
///
/// Its calls in order return keys. [`under`](MapWorker::under) makes the same calls with references
/// to the values, under the guard of another worker.
pub struct MapWorker<'a, V> {
    pub(crate) handle: WorkerHandle<'a, Boxed<V>>,
}

/// A pin of a worker, which ends when this guard is dropped: see [`MapWorker::pin`].
///
/// A reference that it returned cannot outlive it:
///
/// ```compile_fail,E0505
/// # fn main() -> Result<(), Box<dyn std::error::Error>> {
/// let map = nm_set::Map::<String>::new(64, 1)?;
/// let mut worker = map.attach()?;
/// let guard = worker.pin()?;
/// let found = guard.get(5)?;
/// drop(guard);
/// println!("{found:?}");
/// # Ok(())
/// # }
/// ```
///
/// Meanwhile its worker makes no other call:
///
/// ```compile_fail,E0499
/// # fn main() -> Result<(), Box<dyn std::error::Error>> {
/// let map = nm_set::Map::<String>::new(64, 1)?;
/// let mut worker = map.attach()?;
/// let guard = worker.pin()?;
/// worker.remove(5)?;
/// guard.get(5)?;
/// # Ok(())
/// # }
/// ```
#[must_use = "the pin ends when its guard is dropped"]
pub struct Guard<'w, 'a, V> {
    pub(crate) pinned: Pinned<'w, 'a, V>,
}

impl<V> Map<V> {
    /// Makes an empty map, with room for 7 to 268,435,456 nodes, for 1 to 64 workers. It never
    /// grows. Four nodes for each key are usual: a key takes two, five are fixed, and those of
    /// removed keys wait.
    ///
    /// Errors: `Nodes`, `Workers`, `NoMemory`.
    pub fn new(nodes: u32, workers: u32) -> Result<Map<V>, Fault> {
        let place = MapPlace::new(nodes, workers)?;
        Ok(Map { place })
    }

    /// Makes an empty map by options: see [`Map::new`]. A map is a radix tree: `shape` has no
    /// effect.
    ///
    /// Errors: `Nodes`, `Workers`, `NoMemory`.
    pub fn with_options(nodes: u32, options: Options) -> Result<Map<V>, Fault> {
        let place = MapPlace::with_options(nodes, options)?;
        Ok(Map { place })
    }

    /// Makes a map of these keys and values, like [`Map::with_options`]. Of several values for one
    /// key it keeps the last one.
    ///
    /// Errors: `Nodes`, `Workers`, `NoMemory`; `Key`, `MapFull`: then all values are dropped.
    ///
    /// ```
    /// # fn main() -> Result<(), nm_set::Fault> {
    /// use nm_set::{Map, Options};
    /// let map = Map::from_entries(64, Options::default(), [(5, "five"), (7, "seven")])?;
    /// assert_eq!((map.len()?, map.attach()?.first()?), (2, Some(5)));
    /// # Ok(())
    /// # }
    /// ```
    pub fn from_entries(
        nodes: u32,
        options: Options,
        entries: impl IntoIterator<Item = (u64, V)>,
    ) -> Result<Map<V>, Fault> {
        let map = Map::with_options(nodes, options)?;
        let mut worker = map.attach()?;
        fill(entries, |entries| worker.extend(entries))?;
        drop(worker);
        Ok(map)
    }

    /// Attaches a worker to this thread: one that was dropped, or else the least number. While each
    /// worker is attached, or another thread attaches one, it waits, for the
    /// [`timeout_ms`](Options::timeout_ms) of the options at most. A worker that was dropped costs an
    /// exchange: so if threads are many, each may take a worker for one call.
    ///
    /// Errors: `NoWorker`, `NoMemory`.
    pub fn attach(&self) -> Result<MapWorker<'_, V>, Fault> {
        let handle = self.place.attach()?;
        Ok(MapWorker { handle })
    }

    /// Attaches a worker, after a wait of at most `timeout`.
    ///
    /// Errors: `NoWorker`, `NoMemory`.
    pub fn attach_timeout(&self, timeout: Duration) -> Result<MapWorker<'_, V>, Fault> {
        let handle = self.place.attach_timeout(timeout)?;
        Ok(MapWorker { handle })
    }

    /// Returns the number of keys: it adds up one count for each worker, and waits for nothing. It
    /// is exact if no call is in progress; otherwise it may miss the calls in progress. An
    /// unfinished remove counts as done.
    ///
    /// Errors: `Forked`.
    pub fn len(&self) -> Result<usize, Fault> {
        self.place.len()
    }

    /// Returns the number of nodes that wait to be freed, with all workers: two for each removed key,
    /// and one for each replaced value, whose value is not dropped. It is exact if no call is in
    /// progress.
    ///
    /// Errors: `Forked`.
    pub fn waiting(&self) -> Result<u64, Fault> {
        self.place.waiting()
    }

    /// Returns whether [`len`](Map::len) is 0.
    ///
    /// Errors: `Forked`.
    pub fn is_empty(&self) -> Result<bool, Fault> {
        self.len().map(|keys| keys == 0)
    }

    /// Returns the number of nodes for which it has room.
    pub fn nodes(&self) -> u32 {
        self.place.nodes()
    }

    /// Returns how many keys it can have if no removed node waits: (nodes - 5) / 2.
    pub fn capacity(&self) -> usize {
        self.place.capacity()
    }

    /// Returns how many workers it has.
    pub fn workers(&self) -> u32 {
        self.place.workers()
    }
}

impl<'a, V> MapWorker<'a, V> {
    /// Inserts a key with a value. If the map has the key, it keeps its value, and the error has
    /// the new one.
    ///
    /// If no nodes are free, it drops the values that were reclaimed, by this worker and by those
    /// that are not attached. Then it waits for nodes, for the [`timeout_ms`](Options::timeout_ms) of
    /// the options at most. If the keys take all nodes and no node waits, it returns at once.
    ///
    /// Errors: `Present`. `Fault` with `Key`, `MapFull` (no nodes became free), `Contention`,
    /// `NoMemory`, `Pinned`.
    pub fn insert(&mut self, key: u64, value: V) -> Result<(), InsertError<V>> {
        self.handle
            .insert(key, Box::new(value))
            .map_err(|error| error.map(|value| *value))
    }

    /// Inserts these keys with their values, one by one; returns how many were absent. A key that
    /// the map has keeps its value, and the new one is dropped. It waits for each key like
    /// [`insert`](MapWorker::insert).
    ///
    /// Errors: those of `insert` except `Present`, with the value of that key. The entries before
    /// it are inserted. Those after it remain in the iterator, if that is passed by
    /// [`by_ref`](Iterator::by_ref).
    pub fn extend(
        &mut self,
        entries: impl IntoIterator<Item = (u64, V)>,
    ) -> Result<usize, InsertError<V>> {
        extend_by(entries, |key, value| self.insert(key, value))
    }

    /// Removes a key; returns true if it was present. Its value is dropped later, when no guard is
    /// left that could have returned it. [`GuardedWorker::take`](crate::GuardedWorker::take)
    /// returns a reference to it.
    ///
    /// Errors: `Key`, `Contention`, `NoMemory`, `Pinned`. `Unfinished`: the key will be removed by
    /// this call and no other. It is found until this worker's next call. So remove it again: after
    /// false it is gone.
    pub fn remove(&mut self, key: u64) -> Result<bool, Fault> {
        managed(self.handle.take(checked(key)?).0)
    }

    /// Returns whether the map has the key.
    ///
    /// Errors: `Key`, `Contention`, `Pinned`.
    pub fn contains(&mut self, key: u64) -> Result<bool, Fault> {
        self.handle.contains(key)
    }

    /// Pins the worker until the guard is dropped: no value that the guard returns is dropped
    /// meanwhile. The map drops no value that was removed or replaced after the pin. So keep it short:
    /// the nodes that wait for it are not free for inserts.
    ///
    /// Errors: `Contention`, `Pinned`.
    pub fn pin(&mut self) -> Result<Guard<'_, 'a, V>, Fault> {
        match Pinned::new(&mut self.handle) {
            Ok(pinned) => Ok(Guard { pinned }),
            Err(outcome) => Err(managed(outcome).err().unwrap_or(Fault::Other(outcome))),
        }
    }

    /// Drops the values that were reclaimed, however few nodes wait.
    ///
    /// Errors: none is known.
    pub fn reclaim(&mut self) -> Result<Reclaimed, Fault> {
        self.handle.reclaimed()
    }

    /// Returns the number of nodes that wait with this worker: two for each removed key, and one for
    /// each replaced value.
    pub fn waiting(&mut self) -> u64 {
        self.handle.waiting()
    }

    /// Returns the key of an unfinished remove, or None. The worker's next call finishes it first.
    pub fn pending(&mut self) -> Result<Option<u64>, Fault> {
        self.handle.pending_key()
    }

    /// Returns its number, which is below the number of workers.
    pub fn number(&self) -> u32 {
        self.handle.number()
    }
}

impl<V> Guard<'_, '_, V> {
    /// Returns the value of a key, or None if the map does not have the key. The map had it so at a
    /// moment of this call.
    ///
    /// Errors: `Key`.
    pub fn get(&self, key: u64) -> Result<Option<&V>, Fault> {
        let key = checked(key)?;
        let (outcome, found) = self.pinned.get(key);
        managed(outcome).map(|_| found)
    }

    /// Returns for each of these keys its value, or None if the map does not have it. The map had
    /// each of them so at a moment of this call.
    ///
    /// Errors: `Key`.
    pub fn get_many(&self, keys: &[u64]) -> Result<Vec<Option<&V>>, Fault> {
        all_checked(keys)?;
        let (outcome, found) = self.pinned.get_many(keys);
        managed(outcome).map(|_| found)
    }

    /// Returns the epoch that is pinned.
    pub fn epoch(&self) -> u64 {
        self.pinned.epoch()
    }
}

impl<V> InsertError<V> {
    /// Returns the value.
    pub fn into_value(self) -> V {
        match self {
            InsertError::Present(value) | InsertError::Fault(_, value) => value,
        }
    }

    /// Returns the error with what a function makes of the value.
    pub(crate) fn map<T>(self, make: impl FnOnce(V) -> T) -> InsertError<T> {
        match self {
            InsertError::Present(value) => InsertError::Present(make(value)),
            InsertError::Fault(fault, value) => InsertError::Fault(fault, make(value)),
        }
    }

    /// Returns why the call failed, or None if the map has the key.
    pub fn fault(&self) -> Option<Fault> {
        match self {
            InsertError::Present(_) => None,
            InsertError::Fault(fault, _) => Some(*fault),
        }
    }
}

impl<V> fmt::Debug for InsertError<V> {
    fn fmt(&self, f: &mut fmt::Formatter<'_>) -> fmt::Result {
        match self {
            InsertError::Present(_) => f.write_str("Present(..)"),
            InsertError::Fault(fault, _) => write!(f, "Fault({fault:?}, ..)"),
        }
    }
}

impl<V> fmt::Display for InsertError<V> {
    fn fmt(&self, f: &mut fmt::Formatter<'_>) -> fmt::Result {
        match self {
            InsertError::Present(_) => f.write_str("the map has the key, which keeps its value"),
            InsertError::Fault(fault, _) => fault.fmt(f),
        }
    }
}

impl<V> std::error::Error for InsertError<V> {}

impl<V> fmt::Debug for Map<V> {
    /// Writes how many keys it has and can have, its nodes and its workers. It shows no key, because
    /// a value may lack `Debug`. It takes no worker.
    fn fmt(&self, f: &mut fmt::Formatter<'_>) -> fmt::Result {
        self.place.show("Map", f)
    }
}

impl<V> fmt::Debug for MapWorker<'_, V> {
    fn fmt(&self, f: &mut fmt::Formatter<'_>) -> fmt::Result {
        f.debug_struct("MapWorker")
            .field("number", &self.number())
            .finish_non_exhaustive()
    }
}

impl<V> fmt::Debug for Guard<'_, '_, V> {
    fn fmt(&self, f: &mut fmt::Formatter<'_>) -> fmt::Result {
        f.debug_struct("Guard")
            .field("epoch", &self.epoch())
            .finish_non_exhaustive()
    }
}
