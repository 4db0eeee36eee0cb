//! The set that threads share.

use crate::fault::{answer, Fault, Full};
use crate::ffi::Change;
use crate::key::checked;
use crate::options::Options;
use crate::order::{self, Range, Scanned};
use crate::place::{millis, Place, Shared};
use crate::report::Report;
use crate::worker::Worker;
use crate::MOST_KEY;
use std::collections::BTreeSet;
use std::ops::RangeBounds;
use std::sync::Arc;
use std::time::Duration;

/// The number of keys that one call looks up together.
const TOGETHER: usize = 64;

/// A concurrent ordered set of the integers 0 to [`MOST_KEY`], with the interface of
/// [`BTreeSet<u64>`](BTreeSet). A clone is the same set.
///
/// Any thread may call it. Each call uses one of the set's workers that no thread uses at that
/// moment, usually the one that the thread used before. If there is none, the call borrows a worker
/// that is attached to a thread, if it is in no call and not pinned. If each worker is in a call or
/// pinned, or another thread is closing the set, the call **waits**, for at most
/// [`timeout_ms`](Options::timeout_ms), and then returns [`Fault::NoWorker`]. While a set gets a new
/// size, each call waits for the end of that, however long it takes. A thread that makes many calls
/// may take a [`Worker`] of its own by [`attach`](Set::attach).
///
/// [`contains`](Set::contains), [`insert`](Set::insert) and [`remove`](Set::remove) are **managed
/// calls**. A call that lost its tries to other threads is retried, at most
/// [`rounds`](Options::rounds) times, and a remove that has begun is finished. If
/// [`collect_after`](Options::collect_after) removed nodes wait with the worker, the call first
/// advances the epoch and collects. If that is not enough the call returns [`Fault::Contention`],
/// or [`Fault::Unfinished`] for a remove that has begun. The core (`nm_set.h`) does all of this
/// within a bound of steps, which is **proved**.
///
/// A pool around the core finds a worker for each call. It lets an insert wait for removed nodes
/// to be freed, for at most [`timeout_ms`](Options::timeout_ms), before the insert returns
/// [`Fault::Full`]. This part is **tested, not proved**.
///
/// A call that passes over several keys takes **no snapshot**: the answer for each key was right at
/// a moment of the call, and two keys may have different moments. This holds for iteration,
/// `retain`, `clear`, `extend` and the comparisons with a `BTreeSet`.
///
/// Besides the faults that its line names, each call returns `Closed` after a
/// [`close`](Set::close), and `Forked` in a forked child. A call that uses a worker for the first
/// time returns `NoMemory` if memory is refused. A managed call returns `NoWorker` and `Contention`.
///
/// ```
/// # fn main() -> Result<(), nm_set::Fault> {
/// let set = nm_set::Set::new()?;
/// std::thread::scope(|scope| {
///     for first in 0..4 {
///         let set = &set;
///         scope.spawn(move || {
///             for number in 0..1_000 {
///                 assert_eq!(set.insert(number * 4 + first), Ok(true));
///             }
///         });
///     }
/// });
/// assert!(set.contains(17)? && set.remove(17)? && !set.contains(17)?);
/// assert_eq!(set.close()?.len(), 3_999);
/// # Ok(())
/// # }
/// ```
#[derive(Clone)]
pub struct Set(Arc<Shared>);

impl Set {
    /// Makes the empty set, which grows, by [`Options::default`]. It has room for 10,000 keys at
    /// first. If an insert finds no free nodes, and none can be freed, the set gets half as
    /// many nodes more: all calls wait while its keys are copied.
    ///
    /// Errors: `NoMemory`.
    pub fn new() -> Result<Set, Fault> {
        Set::growing(Options::default())
    }

    /// Makes the empty set, which grows like that of [`new`](Set::new), by these options.
    ///
    /// Errors: `Workers`, `NoMemory`.
    pub fn growing(options: Options) -> Result<Set, Fault> {
        Ok(Set(Arc::new(Shared::new(None, &options)?)))
    }

    /// Makes the empty set with room for 7 to 268,435,456 nodes, by [`Options::default`]. It never
    /// grows by itself. n keys take 2 n + 5 nodes, and the removed nodes that wait to be freed take
    /// theirs: give the set four for each key.
    ///
    /// Errors: `Nodes`, `NoMemory`.
    pub fn with_nodes(nodes: u32) -> Result<Set, Fault> {
        Set::with_options(nodes, Options::default())
    }

    /// Makes the empty set with room for 7 to 268,435,456 nodes, by these options. It never grows by
    /// itself.
    ///
    /// Errors: `Nodes`, `Workers`, `NoMemory`.
    pub fn with_options(nodes: u32, options: Options) -> Result<Set, Fault> {
        Ok(Set(Arc::new(Shared::new(Some(nodes), &options)?)))
    }

    pub(crate) fn of(shared: Arc<Shared>) -> Set {
        Set(shared)
    }

    pub(crate) fn place(&self) -> Place<'_> {
        self.0.any()
    }

    #[cfg(test)]
    pub(crate) fn shared(&self) -> &Shared {
        &self.0
    }

    // ---- a key ----

    /// Returns whether the set has the key.
    ///
    /// Errors: `Key`.
    pub fn contains(&self, key: u64) -> Result<bool, Fault> {
        let key = checked(key)?;
        self.place().contains(key)
    }

    /// Returns for each of these keys, in their order, whether the set has it. One call of the
    /// library interleaves the searches, so that one goes on while others wait for memory. 8 to 64
    /// keys a call are fastest.
    ///
    /// Errors: `Key`, `NoMemory`.
    ///
    /// ```
    /// # fn main() -> Result<(), nm_set::Fault> {
    /// let set = nm_set::Set::from([5, 7]);
    /// assert_eq!(set.contains_many(&[5, 6, 7])?, [true, false, true]);
    /// # Ok(())
    /// # }
    /// ```
    pub fn contains_many(&self, keys: &[u64]) -> Result<Vec<bool>, Fault> {
        keys.iter().try_for_each(|&key| checked(key).map(drop))?;
        self.place().contains_many(keys)
    }

    /// Inserts a key; returns true if it was absent. If the set is full it waits for nodes, for at
    /// most [`timeout_ms`](Options::timeout_ms), and for no thread's call.
    ///
    /// Errors: `Key`, `Full`, `NoMemory`.
    pub fn insert(&self, key: u64) -> Result<bool, Fault> {
        let key = checked(key)?;
        self.place().insert(key)
    }

    /// Removes a key; returns true if it was present.
    ///
    /// Errors: `Key`, `NoMemory`. `Unfinished`: the key will be removed by this call and no other. It
    /// is found until the next call by the same worker. So remove it again: after false it is gone.
    pub fn remove(&self, key: u64) -> Result<bool, Fault> {
        let key = checked(key)?;
        self.place().remove(key)
    }

    // ---- keys in order ----

    /// Returns the least key of the set that is not below this one, or None if there is none. At a
    /// moment of the call the set had the key. For each key that was passed over there was a moment
    /// of the call at which the set did not have it. The moments of two keys may differ.
    ///
    /// Errors: `Key`.
    pub fn at_least(&self, key: u64) -> Result<Option<u64>, Fault> {
        let key = checked(key)?;
        self.place().at_least(key)
    }

    /// Returns the greatest key of the set that is not above this one, or None if there is none, in
    /// the way of [`at_least`](Set::at_least).
    ///
    /// Errors: `Key`.
    pub fn at_most(&self, key: u64) -> Result<Option<u64>, Fault> {
        let key = checked(key)?;
        self.place().at_most(key)
    }

    /// Returns the least key, or None if the set is empty.
    pub fn first(&self) -> Result<Option<u64>, Fault> {
        self.at_least(0)
    }

    /// Returns the greatest key, or None if the set is empty.
    pub fn last(&self) -> Result<Option<u64>, Fault> {
        self.at_most(MOST_KEY)
    }

    /// Removes the least key and returns it, or None if the set is empty. No two calls return one
    /// key, unless it was inserted again in between. No call passes over a key that was in the set
    /// during the whole call.
    ///
    /// ```
    /// # fn main() -> Result<(), nm_set::Fault> {
    /// let due = nm_set::Set::from([30, 10, 20]);
    /// assert_eq!(due.pop_first()?, Some(10));
    /// assert_eq!(due.pop_last()?, Some(30));
    /// # Ok(())
    /// # }
    /// ```
    pub fn pop_first(&self) -> Result<Option<u64>, Fault> {
        self.place().pop_first()
    }

    /// Removes the greatest key and returns it, or None if the set is empty, in the way of
    /// [`pop_first`](Set::pop_first).
    pub fn pop_last(&self) -> Result<Option<u64>, Fault> {
        self.place().pop_last()
    }

    /// Removes the least key and returns it, like [`pop_first`](Set::pop_first). If the set is empty
    /// it waits for a key, for at most `timeout`, and sleeps meanwhile: an insert wakes it. Returns
    /// None after that time. If the set is closed meanwhile, it returns `Closed`.
    ///
    /// ```
    /// # fn main() -> Result<(), nm_set::Fault> {
    /// use std::time::Duration;
    /// let set = nm_set::Set::new()?;
    /// let key = std::thread::scope(|scope| {
    ///     let taker = scope.spawn(|| set.wait_pop(Duration::from_secs(60)));
    ///     set.insert(7)?;
    ///     taker.join().unwrap()
    /// });
    /// assert_eq!(key?, Some(7));
    /// assert_eq!(set.wait_pop(Duration::from_millis(1))?, None);
    /// # Ok(())
    /// # }
    /// ```
    pub fn wait_pop(&self, timeout: Duration) -> Result<Option<u64>, Fault> {
        self.place().wait_pop(u64::MAX, timeout)
    }

    /// Does the same as [`wait_pop`](Set::wait_pop), with the least key that is below a bound.
    pub fn wait_pop_below(&self, below: u64, timeout: Duration) -> Result<Option<u64>, Fault> {
        self.place().wait_pop(below, timeout)
    }

    /// Returns the least key, and removes nothing: another thread may remove the key at any time. If
    /// the set is empty it waits like [`wait_pop`](Set::wait_pop), and each insert wakes it.
    ///
    /// ```
    /// # fn main() -> Result<(), nm_set::Fault> {
    /// use std::time::Duration;
    /// let set = nm_set::Set::new()?;
    /// assert_eq!(set.wait_first(Duration::from_millis(1))?, None);
    /// set.insert(7)?;
    /// assert_eq!(set.wait_first(Duration::from_secs(60))?, Some(7));
    /// assert_eq!(set.wait_first_below(7, Duration::from_millis(1))?, None);
    /// # Ok(())
    /// # }
    /// ```
    pub fn wait_first(&self, timeout: Duration) -> Result<Option<u64>, Fault> {
        self.place().wait_first(u64::MAX, timeout)
    }

    /// Does the same as [`wait_first`](Set::wait_first), with the least key that is below a bound.
    /// If an insert wakes it with another key, it sleeps on.
    pub fn wait_first_below(&self, below: u64, timeout: Duration) -> Result<Option<u64>, Fault> {
        self.place().wait_first(below, timeout)
    }

    /// Removes the least key if it is below a bound, and returns it, or None if none is.
    ///
    /// ```
    /// # fn main() -> Result<(), nm_set::Fault> {
    /// let due = nm_set::Set::from([10, 20, 30]);
    /// assert_eq!(due.pop_first_below(15)?, Some(10));
    /// assert_eq!(due.pop_first_below(15)?, None);
    /// assert_eq!(due.pop_first_many(100, 64)?, [20, 30]);
    /// # Ok(())
    /// # }
    /// ```
    pub fn pop_first_below(&self, below: u64) -> Result<Option<u64>, Fault> {
        self.place().pop_first_below(below)
    }

    /// Removes the greatest key if it is not below a bound, and returns it, or None if each is.
    pub fn pop_last_from(&self, from: u64) -> Result<Option<u64>, Fault> {
        self.place().pop_last_from(from)
    }

    /// Removes the least keys that are below a bound, one by one and at most `room`, and returns
    /// them. `usize::MAX` is allowed: it takes memory for the keys that it returns. It waits for each
    /// key. It returns a fault only if it has removed no key.
    pub fn pop_first_many(&self, below: u64, room: usize) -> Result<Vec<u64>, Fault> {
        self.place().pop_first_many(below, room)
    }

    /// Returns an iterator over the keys of a range, while the set is in use. It reads keys ahead,
    /// in blocks of 1, 8, 16 and so on to 512, each by one call. It may return or skip a key that is
    /// inserted or removed meanwhile. It returns no key that was removed before its block was
    /// read.
    ///
    /// ```
    /// # fn main() -> Result<(), nm_set::Fault> {
    /// let set = nm_set::Set::from([5, 7, 9]);
    /// let keys: Result<Vec<u64>, _> = set.range(6..).collect();
    /// assert_eq!(keys?, [7, 9]);
    /// let keys: Result<Vec<u64>, _> = set.range(..=7).rev().collect();
    /// assert_eq!(keys?, [7, 5]);
    /// # Ok(())
    /// # }
    /// ```
    ///
    /// # Panics
    ///
    /// Like `BTreeSet::range` it panics if the start of the range is after its end, or if both are one
    /// key that is excluded.
    #[track_caller]
    pub fn range(&self, bounds: impl RangeBounds<u64>) -> Range<&Set> {
        Range::of(self, bounds)
    }

    /// Returns an iterator over all keys, in the way of [`range`](Set::range).
    pub fn iter(&self) -> Range<&Set> {
        self.range(..)
    }

    /// Returns the least keys that are not below `from`, at most `room` of them, and where the next
    /// scan goes on. Up to 1,024 keys are read by one call of the library, unless other threads change
    /// the set during it. It waits for each call. It takes no snapshot. `usize::MAX` is allowed.
    ///
    /// ```
    /// # fn main() -> Result<(), nm_set::Fault> {
    /// let set = nm_set::Set::from([5, 7, 9]);
    /// let read = set.scan(0, 2)?;
    /// assert_eq!(read.entries, [5, 7]);
    /// let rest = set.scan(read.next.unwrap(), 2)?;
    /// assert_eq!((rest.entries, rest.next), (vec![9], None));
    /// # Ok(())
    /// # }
    /// ```
    pub fn scan(&self, from: u64, room: usize) -> Result<Scanned<u64>, Fault> {
        order::scan(self, from, room)
    }

    /// Returns how many keys of a range the set has. While others change the set, it counts each
    /// key as it finds it.
    ///
    /// ```
    /// # fn main() -> Result<(), nm_set::Fault> {
    /// let set = nm_set::Set::from([5, 7, 9]);
    /// assert_eq!((set.count(6..)?, set.count(..=7)?), (2, 2));
    /// # Ok(())
    /// # }
    /// ```
    ///
    /// # Panics
    ///
    /// It panics if the start of the range is after its end: see [`Set::range`](crate::Set::range).
    #[track_caller]
    pub fn count(&self, bounds: impl RangeBounds<u64>) -> Result<u64, Fault> {
        order::ends_of(bounds).map_or(Ok(0), |ends| self.place().count(ends))
    }

    // ---- several keys ----

    /// Inserts these keys, one by one; returns how many were absent. After a fault the keys before
    /// that one are inserted.
    ///
    /// Errors: `Key`, `Full`, `NoMemory`.
    pub fn extend(&self, keys: impl IntoIterator<Item = u64>) -> Result<usize, Fault> {
        order::extend(keys, |key| self.insert(key))
    }

    /// Inserts these keys, one by one, and appends to `answers` whether each was absent. A look-up
    /// of 64 of them at a time comes first: it is faster than single calls if the set is larger
    /// than the caches of the processor. After a fault the keys that have answers are inserted.
    ///
    /// ```
    /// # fn main() -> Result<(), nm_set::Fault> {
    /// let set = nm_set::Set::from([5, 7]);
    /// let mut answers = Vec::new();
    /// set.insert_many(&[5, 6], &mut answers)?;
    /// set.remove_many(&[7, 8], &mut answers)?;
    /// assert_eq!(answers, [false, true, true, false]);
    /// # Ok(())
    /// # }
    /// ```
    ///
    /// Errors: `Key`, before any key is inserted; `Full`, `NoMemory`.
    pub fn insert_many(&self, keys: &[u64], answers: &mut Vec<bool>) -> Result<(), Fault> {
        keys.iter().try_for_each(|&key| checked(key).map(drop))?;
        self.place().change_many(Change::Insert, keys, answers)
    }

    /// Removes these keys, one by one, and appends to `answers` whether each was present, in the
    /// way of [`insert_many`](Set::insert_many).
    pub fn remove_many(&self, keys: &[u64], answers: &mut Vec<bool>) -> Result<(), Fault> {
        keys.iter().try_for_each(|&key| checked(key).map(drop))?;
        self.place().change_many(Change::Remove, keys, answers)
    }

    /// Removes the keys of a range, one by one; returns how many it removed. A key that is inserted
    /// meanwhile may remain. If it returns a fault, the keys before it are removed.
    ///
    /// # Panics
    ///
    /// It panics if the start of the range is after its end: see [`Set::range`](crate::Set::range).
    #[track_caller]
    pub fn remove_range(&self, bounds: impl RangeBounds<u64>) -> Result<u64, Fault> {
        order::remove_range(self, bounds)
    }

    /// Removes each key for which `stays` returns false. A key that is inserted meanwhile may
    /// remain. After a fault a part of the keys is removed.
    pub fn retain(&self, stays: impl FnMut(u64) -> bool) -> Result<(), Fault> {
        order::retain(self, stays)
    }

    /// Removes all keys. A key that is inserted meanwhile may remain.
    pub fn clear(&self) -> Result<(), Fault> {
        self.retain(|_| false)
    }

    /// Returns whether the other set has each key of this one.
    pub fn is_subset(&self, other: &BTreeSet<u64>) -> Result<bool, Fault> {
        for key in self {
            if !other.contains(&key?) {
                return Ok(false);
            }
        }
        Ok(true)
    }

    /// Returns whether this set has each key of the other one.
    pub fn is_superset(&self, other: &BTreeSet<u64>) -> Result<bool, Fault> {
        let is_out = other.last().is_some_and(|&key| key > MOST_KEY);
        Ok(!is_out && self.all_of(other, true)?)
    }

    /// Returns whether this set has no key of the other one.
    pub fn is_disjoint(&self, other: &BTreeSet<u64>) -> Result<bool, Fault> {
        self.all_of(other, false)
    }

    /// Returns whether each number of the other set that can be a key is in this one, if `is_in`,
    /// or whether none is.
    fn all_of(&self, other: &BTreeSet<u64>, is_in: bool) -> Result<bool, Fault> {
        let keys: Vec<u64> = other.range(..=MOST_KEY).copied().collect();
        for some in keys.chunks(TOGETHER) {
            if self.contains_many(some)?.contains(&!is_in) {
                return Ok(false);
            }
        }
        Ok(true)
    }

    // ---- how full it is ----

    /// Returns how many keys the set has. It is exact if no thread makes a call meanwhile;
    /// otherwise it is off by at most the keys that calls insert and remove meanwhile. It never
    /// waits and uses no worker: it adds up one count for each worker.
    pub fn len(&self) -> Result<usize, Fault> {
        let mut keys = 0;
        answer(self.0.pool.size(&mut keys))?;
        Ok(usize::try_from(keys).unwrap_or(usize::MAX))
    }

    /// Returns whether the set has no key, by one search for the least key.
    pub fn is_empty(&self) -> Result<bool, Fault> {
        Ok(self.first()?.is_none())
    }

    /// Returns how many removed nodes wait to be freed. It asks each worker once and never waits.
    /// For a worker that is in a call it takes the number of an earlier time, when `waiting`,
    /// `free` or an insert into a full set last asked it.
    pub fn waiting(&self) -> Result<u64, Fault> {
        Ok(self.0.fullness()?.waiting)
    }

    /// Returns how many nodes are free, computed from [`len`](Set::len) and
    /// [`waiting`](Set::waiting). A new key takes two. It never waits.
    pub fn free(&self) -> Result<u64, Fault> {
        Ok(self.0.fullness()?.free)
    }

    /// Returns these numbers at once, for a program that watches the set: its nodes and keys, the
    /// waiting nodes, and which workers hold the epoch back.
    pub fn stats(&self) -> Result<Full, Fault> {
        Ok(self.0.fullness()?.into())
    }

    /// Returns how often the set has got a new size, because it grew or a caller asked, and for how
    /// long calls were stopped for that at most.
    pub fn growths(&self) -> Result<(u64, Duration), Fault> {
        self.0.growths()
    }

    /// Returns the number of nodes for which the set has room.
    pub fn nodes(&self) -> u64 {
        self.0.pool.nodes()
    }

    /// Returns how many keys the set can have if no removed node waits to be freed: (nodes - 5) /
    /// 2.
    pub fn capacity(&self) -> usize {
        (self.nodes() as usize - 5) / 2
    }

    /// Makes room for this many keys, if no removed node waits; it never makes the set smaller. It
    /// waits for the calls of all workers, for at most [`timeout_ms`](Options::timeout_ms). While
    /// the keys move, other calls wait. Workers stay attached; their [`stats`](Worker::stats) and
    /// stamps begin anew.
    ///
    /// Errors: `PinnedWorkers`, `InUse` (a call has not ended in that time), `Nodes` (there cannot
    /// be so many keys), `NoMemory`. The set goes on unchanged.
    ///
    /// ```
    /// # fn main() -> Result<(), nm_set::Fault> {
    /// let set = nm_set::Set::with_nodes(64)?;
    /// set.reserve(1_000)?;
    /// set.extend(0..1_000)?;
    /// assert_eq!((set.len()?, set.capacity()), (1_000, 1_000));
    /// # Ok(())
    /// # }
    /// ```
    pub fn reserve(&self, keys: usize) -> Result<(), Fault> {
        self.0.reserve(keys as u64)
    }

    /// Gives back memory: room is left for the keys, and for one more for each worker. It waits like
    /// [`reserve`](Set::reserve), and returns its errors.
    pub fn shrink_to_fit(&self) -> Result<(), Fault> {
        self.0.shrink_to_fit()
    }

    /// Returns how many workers the set has.
    pub fn workers(&self) -> u32 {
        self.0.pool.workers()
    }

    /// Advances the epoch as far as possible, and frees what has waited long enough with each
    /// worker that is in no call at this moment. Returns the number of freed nodes. It waits for no
    /// other call, but a call by a worker waits while the worker's nodes are collected.
    pub fn collect(&self) -> Result<u64, Fault> {
        let mut freed = 0;
        answer(self.0.pool.collect_all(&mut freed))?;
        Ok(freed)
    }

    // ---- workers for threads ----

    /// Attaches a worker to this thread, the least number first. It **waits** while each worker is
    /// attached or in a call, for at most [`timeout_ms`](Options::timeout_ms).
    ///
    /// Errors: `NoWorker`: no worker was free in that time.
    ///
    /// An attached worker is not exclusive: while all workers are attached, calls of the set borrow
    /// those that are in no call. See [`Worker`].
    pub fn attach(&self) -> Result<Worker, Fault> {
        self.attach_within(self.0.timeout_ms)
    }

    /// Attaches a worker to this thread, the least number first, and does not wait.
    ///
    /// Errors: `NoWorker`: no worker is free at this moment.
    pub fn try_attach(&self) -> Result<Worker, Fault> {
        self.attach_within(0)
    }

    /// Attaches a worker to this thread, the least number first, and waits for at most `timeout`.
    ///
    /// Errors: `NoWorker`: no worker was free in that time.
    pub fn attach_timeout(&self, timeout: Duration) -> Result<Worker, Fault> {
        self.attach_within(millis(timeout))
    }

    fn attach_within(&self, timeout_ms: u32) -> Result<Worker, Fault> {
        let number = self.0.attach(timeout_ms)?;
        Ok(Worker::of(Arc::clone(&self.0), number))
    }

    /// Attaches the worker of a number to this thread. It waits for the call of the set that
    /// another thread makes by this worker at this moment, for at most
    /// [`timeout_ms`](Options::timeout_ms).
    ///
    /// Errors: `Number`, `Attached` (the worker is attached), `InUse` (that call has not ended).
    pub fn worker(&self, number: u32) -> Result<Worker, Fault> {
        let number = self.0.attach_number(number)?;
        Ok(Worker::of(Arc::clone(&self.0), number))
    }

    // ---- the end ----

    /// Ends the set, and returns the report with the keys that it had. It waits for calls that
    /// other threads make of the set at this moment, for ten seconds at most. Each call that waits
    /// returns `Closed`, and so does each later call.
    ///
    /// Errors: `Attached`: a [`Worker`] was not dropped. `InUse`: a call has not ended in ten
    /// seconds. After these two the set goes on. `NoMemory`: only `close` goes on. `Closed`: the
    /// set was closed before.
    pub fn close(&self) -> Result<Report, Fault> {
        self.0.end()
    }
}
