//! A worker, by which one thread at a time makes calls.

use crate::fault::{answer, Fault};
use crate::ffi::{Change, Outcome, Pool, Stats};
use crate::key::checked;
use crate::numbers::Numbers;
use crate::order::{self, Range, Scanned};
use crate::place::{found, lookups_of, Advance, Place, Shared};
use crate::set::Set;
use crate::MOST_KEY;
use std::fmt;
use std::ops::RangeBounds;
use std::sync::Arc;
use std::time::Duration;

/// One worker of a [`Set`], for one thread at a time. Each call takes it by `&mut`, and it may be
/// sent to another thread between two calls.
///
/// When it is dropped, including by a panic, it is returned to its set and can be attached again.
/// The drop ends its pin, and finishes its remove if the bound allows. A worker that is forgotten
/// (`std::mem::forget`) is never returned, and its set cannot be closed.
///
/// Its calls up to [`clear`](Worker::clear) are those of [`Set`]. They return the same answers, and
/// the same faults except `NoWorker` and `Closed`, which they do not meet. The other calls are
/// those of the library, and do what its contract says. Those that begin with `try_` make at most
/// the given number of tries, and leave it to the caller to retry. Each call may return `InUse`, and
/// in a forked child `Forked`.
///
/// If all workers of the set are attached, calls of the set **borrow** one that is in no call and
/// not pinned. So [`stats`](Worker::stats), [`waiting`](Worker::waiting) and
/// [`publish`](Worker::publish) include calls that other threads made by this worker. Before such a
/// call gives the worker back, it finishes the remove that is pending, whichever call began it.
/// Then [`try_finish`](Worker::try_finish) returns false. A pin keeps a worker from being borrowed.
///
/// A call by the worker waits for a call that another thread makes by it at this moment: a borrowed
/// call, or one that collects its nodes or asks how many there are. Each of these ends within a
/// bound of steps, but takes longer if its thread is preempted. After
/// [`timeout_ms`](crate::Options::timeout_ms) the call returns [`Fault::InUse`]. A drop waits for ten
/// seconds at most; if the other call has not ended then, the worker remains attached.
///
/// ```
/// # fn main() -> Result<(), nm_set::Fault> {
/// let set = nm_set::Set::with_nodes(1_024)?;
/// let mut worker = set.attach()?;
/// assert!(worker.insert(5)?);
/// assert!(worker.contains(5)?);
/// assert!(worker.remove(5)?);
/// assert!(!worker.remove(5)?);
/// # Ok(())
/// # }
/// ```
///
/// Two threads cannot use one at the same time:
///
/// ```compile_fail,E0499
/// # fn main() -> Result<(), nm_set::Fault> {
/// let set = nm_set::Set::with_nodes(1_024)?;
/// let mut worker = set.attach()?;
/// std::thread::scope(|scope| {
///     scope.spawn(|| worker.insert(5));
///     scope.spawn(|| worker.insert(6));
/// });
/// # Ok(())
/// # }
/// ```
pub struct Worker {
    shared: Arc<Shared>,
    number: u32,
}

/// The epoch, and which workers hold it back.
#[derive(Clone, Copy, Debug, PartialEq, Eq)]
pub struct Behind {
    /// The epoch.
    pub epoch: u64,
    /// The workers that were found announcing another epoch.
    pub workers: Numbers,
}

/// The stamp of a worker: what it had done when it published the stamp.
#[derive(Clone, Copy, Debug, Default, PartialEq, Eq)]
pub struct Stamp {
    /// How many keys it had inserted.
    pub inserted: u64,
    /// How many keys it had removed, without a pending one.
    pub removed: u64,
}

/// A pin of the epoch by a worker, which ends when this guard is dropped: see [`Worker::pin`].
#[derive(Debug)]
#[must_use = "the pin ends when its guard is dropped"]
pub struct PinGuard<'a> {
    worker: &'a mut Worker,
    epoch: u64,
}

impl PinGuard<'_> {
    /// Returns the epoch that is pinned.
    pub fn epoch(&self) -> u64 {
        self.epoch
    }
}

impl Drop for PinGuard<'_> {
    fn drop(&mut self) {
        let _ = self.worker.by(|pool, worker, ms| pool.unpin(worker, ms));
    }
}

impl Worker {
    pub(crate) fn of(shared: Arc<Shared>, number: u32) -> Worker {
        Worker { shared, number }
    }

    pub(crate) fn place(&mut self) -> Place<'_> {
        self.shared.by(self.number)
    }

    /// Makes a call of the library by this worker, for at most the timeout of the options.
    fn by(&mut self, call: impl FnOnce(&Pool, u32, u32) -> Outcome) -> Result<bool, Fault> {
        let outcome = call(&self.shared.pool, self.number, self.shared.timeout_ms);
        match answer(outcome) {
            Err(Fault::InUse(_)) => Err(Fault::InUse([self.number].into_iter().collect())),
            // In a forked child the handle is closed, and a call of the pool returns `Forked`.
            Err(Fault::Closed) => self.place().contains(0),
            result => result,
        }
    }

    /// Returns its number, which is below the number of workers.
    pub fn number(&self) -> u32 {
        self.number
    }

    /// Returns its set, for the calls that a worker does not have.
    pub fn set(&self) -> Set {
        Set::of(Arc::clone(&self.shared))
    }

    // ---- the calls of a set ----

    /// Returns whether the set has the key: see [`Set::contains`].
    pub fn contains(&mut self, key: u64) -> Result<bool, Fault> {
        let key = checked(key)?;
        self.place().contains(key)
    }

    /// Returns for each of these keys whether the set has it: see [`Set::contains_many`].
    pub fn contains_many(&mut self, keys: &[u64]) -> Result<Vec<bool>, Fault> {
        keys.iter().try_for_each(|&key| checked(key).map(drop))?;
        self.place().contains_many(keys)
    }

    /// Inserts a key; returns true if it was absent: see [`Set::insert`].
    pub fn insert(&mut self, key: u64) -> Result<bool, Fault> {
        let key = checked(key)?;
        self.place().insert(key)
    }

    /// Removes a key; returns true if it was present: see [`Set::remove`].
    pub fn remove(&mut self, key: u64) -> Result<bool, Fault> {
        let key = checked(key)?;
        self.place().remove(key)
    }

    /// Returns the least key that is not below this one: see [`Set::at_least`].
    pub fn at_least(&mut self, key: u64) -> Result<Option<u64>, Fault> {
        let key = checked(key)?;
        self.place().at_least(key)
    }

    /// Returns the greatest key that is not above this one: see [`Set::at_most`].
    pub fn at_most(&mut self, key: u64) -> Result<Option<u64>, Fault> {
        let key = checked(key)?;
        self.place().at_most(key)
    }

    /// Returns the least key: see [`Set::first`].
    pub fn first(&mut self) -> Result<Option<u64>, Fault> {
        self.at_least(0)
    }

    /// Returns the greatest key: see [`Set::last`].
    pub fn last(&mut self) -> Result<Option<u64>, Fault> {
        self.at_most(MOST_KEY)
    }

    /// Removes the least key and returns it: see [`Set::pop_first`].
    pub fn pop_first(&mut self) -> Result<Option<u64>, Fault> {
        self.place().pop_first()
    }

    /// Removes the greatest key and returns it: see [`Set::pop_last`].
    pub fn pop_last(&mut self) -> Result<Option<u64>, Fault> {
        self.place().pop_last()
    }

    /// Removes the least key and returns it, after a wait for one of at most `timeout`: see
    /// [`Set::wait_pop`].
    pub fn wait_pop(&mut self, timeout: Duration) -> Result<Option<u64>, Fault> {
        self.place().wait_pop(u64::MAX, timeout)
    }

    /// Waits for a key below a bound: see [`Set::wait_pop_below`].
    pub fn wait_pop_below(&mut self, below: u64, timeout: Duration) -> Result<Option<u64>, Fault> {
        self.place().wait_pop(below, timeout)
    }

    /// Returns the least key, after a wait for one of at most `timeout`: see [`Set::wait_first`].
    pub fn wait_first(&mut self, timeout: Duration) -> Result<Option<u64>, Fault> {
        self.place().wait_first(u64::MAX, timeout)
    }

    /// Waits for a key below a bound: see [`Set::wait_first_below`].
    pub fn wait_first_below(
        &mut self,
        below: u64,
        timeout: Duration,
    ) -> Result<Option<u64>, Fault> {
        self.place().wait_first(below, timeout)
    }

    /// Removes the least key if it is below a bound: see [`Set::pop_first_below`].
    pub fn pop_first_below(&mut self, below: u64) -> Result<Option<u64>, Fault> {
        self.place().pop_first_below(below)
    }

    /// Removes the greatest key if it is not below a bound: see [`Set::pop_last_from`].
    pub fn pop_last_from(&mut self, from: u64) -> Result<Option<u64>, Fault> {
        self.place().pop_last_from(from)
    }

    /// Removes the least keys that are below a bound: see [`Set::pop_first_many`].
    pub fn pop_first_many(&mut self, below: u64, room: usize) -> Result<Vec<u64>, Fault> {
        self.place().pop_first_many(below, room)
    }

    /// Returns an iterator over the keys of a range, in both directions: see [`Set::range`].
    ///
    /// # Panics
    ///
    /// It panics if the start of the range is after its end: see [`Set::range`](crate::Set::range).
    #[track_caller]
    pub fn range(&mut self, bounds: impl RangeBounds<u64>) -> Range<&mut Worker> {
        Range::of(self, bounds)
    }

    /// Returns an iterator over all keys: see [`Set::range`].
    pub fn iter(&mut self) -> Range<&mut Worker> {
        self.range(..)
    }

    /// Returns at most `room` keys from one on, and where to go on: see [`Set::scan`].
    pub fn scan(&mut self, from: u64, room: usize) -> Result<Scanned<u64>, Fault> {
        order::scan(self, from, room)
    }

    /// Returns how many keys of a range the set has: see [`Set::count`].
    ///
    /// # Panics
    ///
    /// It panics if the start of the range is after its end: see [`Set::range`](crate::Set::range).
    #[track_caller]
    pub fn count(&mut self, bounds: impl RangeBounds<u64>) -> Result<u64, Fault> {
        order::ends_of(bounds).map_or(Ok(0), |ends| self.place().count(ends))
    }

    /// Inserts these keys, and appends the answer of each: see [`Set::insert_many`].
    pub fn insert_many(&mut self, keys: &[u64], answers: &mut Vec<bool>) -> Result<(), Fault> {
        keys.iter().try_for_each(|&key| checked(key).map(drop))?;
        self.place().change_many(Change::Insert, keys, answers)
    }

    /// Removes these keys, and appends the answer of each: see [`Set::remove_many`].
    pub fn remove_many(&mut self, keys: &[u64], answers: &mut Vec<bool>) -> Result<(), Fault> {
        keys.iter().try_for_each(|&key| checked(key).map(drop))?;
        self.place().change_many(Change::Remove, keys, answers)
    }

    /// Inserts these keys; returns how many were absent: see [`Set::extend`].
    pub fn extend(&mut self, keys: impl IntoIterator<Item = u64>) -> Result<usize, Fault> {
        order::extend(keys, |key| self.insert(key))
    }

    /// Removes the keys of a range, one by one; returns how many it removed. A key that is inserted
    /// meanwhile may remain. If it returns a fault, the keys before it are removed.
    ///
    /// # Panics
    ///
    /// It panics if the start of the range is after its end: see [`Set::range`](crate::Set::range).
    #[track_caller]
    pub fn remove_range(&mut self, bounds: impl RangeBounds<u64>) -> Result<u64, Fault> {
        order::remove_range(self, bounds)
    }

    /// Removes each key for which `stays` returns false: see [`Set::retain`].
    pub fn retain(&mut self, stays: impl FnMut(u64) -> bool) -> Result<(), Fault> {
        order::retain(self, stays)
    }

    /// Removes all keys: see [`Set::clear`].
    pub fn clear(&mut self) -> Result<(), Fault> {
        self.retain(|_| false)
    }

    // ---- with a number of tries ----

    /// Returns whether the set has the key, with at most `tries` tries.
    ///
    /// Errors: `Key`, `Busy`, `Pending`.
    pub fn try_contains(&mut self, key: u64, tries: u32) -> Result<bool, Fault> {
        let key = checked(key)?;
        self.by(|pool, worker, ms| pool.try_contains(worker, key, tries, ms))
    }

    /// Returns for each of these keys whether the set has it, with at most `tries` tries.
    ///
    /// Errors: `Key`, `Busy`, `Pending`, `NoMemory`.
    pub fn try_contains_many(&mut self, keys: &[u64], tries: u32) -> Result<Vec<bool>, Fault> {
        keys.iter().try_for_each(|&key| checked(key).map(drop))?;
        let mut lookups = lookups_of(keys);
        self.by(|pool, worker, ms| pool.try_contains_many(worker, &mut lookups, tries, ms))?;
        Ok(found(&lookups))
    }

    /// Returns the least key that is not below this one, or None, with at most `tries` tries. A
    /// call that runs alone takes up to three.
    ///
    /// Errors: `Key`, `Busy`, `Pending`.
    pub fn try_at_least(&mut self, key: u64, tries: u32) -> Result<Option<u64>, Fault> {
        let (key, mut found) = (checked(key)?, 0);
        let is_found =
            self.by(|pool, worker, ms| pool.try_next(worker, key, tries, &mut found, ms))?;
        Ok(is_found.then_some(found))
    }

    /// Returns the greatest key that is not above this one, or None, with at most `tries` tries.
    ///
    /// Errors: `Key`, `Busy`, `Pending`.
    pub fn try_at_most(&mut self, key: u64, tries: u32) -> Result<Option<u64>, Fault> {
        let (key, mut found) = (checked(key)?, 0);
        let is_found =
            self.by(|pool, worker, ms| pool.try_prev(worker, key, tries, &mut found, ms))?;
        Ok(is_found.then_some(found))
    }

    /// Inserts a key with at most `tries` tries; returns true if it was absent.
    ///
    /// Errors: `Key`, `Busy`, `NoNodes`, `Pending`, `NoMemory`.
    pub fn try_insert(&mut self, key: u64, tries: u32) -> Result<bool, Fault> {
        let key = checked(key)?;
        self.by(|pool, worker, ms| pool.try_insert(worker, key, tries, ms))
    }

    /// Removes a key with at most `tries` tries; returns true if it was present, which takes at
    /// least two tries.
    ///
    /// Errors: `Key`, `Busy`, `Unfinished`, `Pending`, `NoMemory`.
    pub fn try_remove(&mut self, key: u64, tries: u32) -> Result<bool, Fault> {
        let key = checked(key)?;
        self.by(|pool, worker, ms| pool.try_remove(worker, key, tries, ms))
    }

    /// Goes on with the remove that is pending, with at most `tries` tries. Returns true if it is
    /// finished now, and false if none is pending, for example because a call of the set that
    /// borrowed this worker has finished it.
    ///
    /// Errors: `Unfinished`.
    pub fn try_finish(&mut self, tries: u32) -> Result<bool, Fault> {
        self.by(|pool, worker, ms| pool.finish(worker, tries, ms))
    }

    // ---- on the epoch ----

    /// Pins the epoch until the guard is dropped: no node that is in the set now is freed
    /// meanwhile, so inserts of all threads may find the set full. It is for tests and proofs.
    ///
    /// Errors: `Contention`.
    ///
    /// ```
    /// # fn main() -> Result<(), nm_set::Fault> {
    /// let set = nm_set::Set::with_nodes(1_024)?;
    /// let (mut reader, mut other) = (set.attach()?, set.attach()?);
    /// let guard = reader.pin()?;
    /// other.advance()?;
    /// assert_eq!(other.behind()?.workers.to_string(), "0");
    /// drop(guard);
    /// assert!(other.behind()?.workers.is_empty());
    /// # Ok(())
    /// # }
    /// ```
    pub fn pin(&mut self) -> Result<PinGuard<'_>, Fault> {
        let epoch = self.place().pin()?;
        Ok(PinGuard {
            worker: self,
            epoch,
        })
    }

    /// Advances the epoch by one, if no worker holds it back.
    pub fn advance(&mut self) -> Result<Advance, Fault> {
        self.place().advance()
    }

    /// Returns which workers hold the epoch back.
    pub fn behind(&mut self) -> Result<Behind, Fault> {
        let (mut epoch, mut mask) = (0, 0);
        self.by(|pool, worker, ms| pool.behind(worker, &mut epoch, &mut mask, ms))?;
        let workers = Numbers::of(mask);
        Ok(Behind { epoch, workers })
    }

    /// Frees what has waited long enough in its own queue; returns the number of freed nodes.
    pub fn collect(&mut self) -> Result<u64, Fault> {
        let (mut epoch, mut freed) = (0, 0);
        self.by(|pool, worker, ms| pool.collect(worker, &mut epoch, &mut freed, ms))?;
        Ok(freed)
    }

    // ---- of itself ----

    /// Returns how many nodes wait in its queue, including those that borrowed calls removed.
    pub fn waiting(&mut self) -> Result<u64, Fault> {
        Ok(self.stats()?.queued)
    }

    /// Returns the key of a remove that has begun and is not finished, or None.
    pub fn pending(&mut self) -> Result<Option<u64>, Fault> {
        let mut key = 0;
        let is_pending = self.by(|pool, worker, ms| pool.pending(worker, &mut key, ms))?;
        Ok(is_pending.then_some(key))
    }

    /// Returns what calls by it have won, including borrowed ones, and what became of the nodes
    /// that they cut off.
    pub fn stats(&mut self) -> Result<Stats, Fault> {
        let mut stats = Stats::default();
        self.by(|pool, worker, ms| pool.stats(worker, &mut stats, ms))?;
        Ok(stats)
    }

    // ---- stamps between workers ----

    /// Publishes a stamp of all that the worker has seen, in place of its earlier one. Returns what
    /// it has done so far. No answer of the set depends on stamps: they are for proofs about the
    /// order of two workers' calls.
    ///
    /// Errors: `Busy` (another worker is observing the earlier stamp at this moment).
    pub fn publish(&mut self) -> Result<Stamp, Fault> {
        let (mut inserted, mut removed) = (0, 0);
        self.by(|pool, worker, ms| pool.publish(worker, &mut inserted, &mut removed, ms))?;
        Ok(Stamp { inserted, removed })
    }

    /// Observes the stamp that the worker of a number has published. Returns what that worker had
    /// done by then, or None if it has published none. All that this worker is asked from now on
    /// happens after all that the other one had seen when it published the stamp.
    ///
    /// Errors: `Number`, `Busy` (another worker is at that stamp at this moment).
    pub fn observe(&mut self, number: u32) -> Result<Option<Stamp>, Fault> {
        let workers = self.shared.pool.workers();
        if number >= workers {
            return Err(Fault::Number { number, workers });
        }
        let (mut inserted, mut removed) = (0, 0);
        let is_published = self
            .by(|pool, worker, ms| pool.observe(worker, number, &mut inserted, &mut removed, ms))?;
        Ok(is_published.then_some(Stamp { inserted, removed }))
    }
}

impl Drop for Worker {
    fn drop(&mut self) {
        self.shared.detach(self.number);
    }
}

impl fmt::Debug for Worker {
    fn fmt(&self, f: &mut fmt::Formatter<'_>) -> fmt::Result {
        f.debug_struct("Worker")
            .field("number", &self.number)
            .finish_non_exhaustive()
    }
}
