//! The calls of a map that replace a value in one step: of a worker, and of a worker under the guard
//! of another one, which return references to values.

use crate::fault::Fault;
use crate::ffi::map::{word_of, Change, Given};
use crate::ffi::Outcome;
use crate::key::checked;
use crate::map::MapWorker;
use crate::map_order::GuardedWorker;
use crate::map_place::found;
use std::fmt;

/// The outcomes of a call that gives the map a value.
const INSERTED: Outcome = 3;
const ABSENT: Outcome = 5;
const OTHER: Outcome = 6;

/// Why a put or a replacement has not given a key a value. Each has the value, which the map does not
/// have.
#[derive(Clone, Copy, PartialEq, Eq)]
pub enum PutError<V> {
    /// The map does not have the key: of a replacement.
    Absent(V),
    /// The key has another value than the expected one: of [`GuardedWorker::compare_replace`].
    Other(V),
    /// The call failed. The map is unchanged.
    Fault(Fault, V),
}

impl<V> PutError<V> {
    /// Returns why a call has not given a key a value: by its fault, or by its outcome.
    fn of(fault: Option<Fault>, outcome: Outcome, value: V) -> PutError<V> {
        match (fault, outcome) {
            (Some(fault), _) => PutError::Fault(fault, value),
            (None, ABSENT) => PutError::Absent(value),
            (None, OTHER) => PutError::Other(value),
            (None, _) => PutError::Fault(Fault::Other(outcome), value),
        }
    }

    /// Returns the error with what a function makes of the value.
    pub(crate) fn map<T>(self, make: impl FnOnce(V) -> T) -> PutError<T> {
        match self {
            PutError::Absent(value) => PutError::Absent(make(value)),
            PutError::Other(value) => PutError::Other(make(value)),
            PutError::Fault(fault, value) => PutError::Fault(fault, make(value)),
        }
    }

    /// Returns the value.
    pub fn into_value(self) -> V {
        match self {
            PutError::Absent(value) | PutError::Other(value) | PutError::Fault(_, value) => value,
        }
    }

    /// Returns why the call failed, or None if the key is absent or has another value.
    pub fn fault(&self) -> Option<Fault> {
        match self {
            PutError::Fault(fault, _) => Some(*fault),
            PutError::Absent(_) | PutError::Other(_) => None,
        }
    }
}

impl<V> fmt::Debug for PutError<V> {
    fn fmt(&self, f: &mut fmt::Formatter<'_>) -> fmt::Result {
        match self {
            PutError::Absent(_) => f.write_str("Absent(..)"),
            PutError::Other(_) => f.write_str("Other(..)"),
            PutError::Fault(fault, _) => write!(f, "Fault({fault:?}, ..)"),
        }
    }
}

impl<V> fmt::Display for PutError<V> {
    fn fmt(&self, f: &mut fmt::Formatter<'_>) -> fmt::Result {
        match self {
            PutError::Absent(_) => f.write_str("the map does not have the key"),
            PutError::Other(_) => f.write_str("the key has another value than the expected one"),
            PutError::Fault(fault, _) => fault.fmt(f),
        }
    }
}

impl<V> std::error::Error for PutError<V> {}

impl<V> MapWorker<'_, V> {
    /// Inserts a key with a value, or replaces the value that it has, in one step: no call finds the
    /// key absent meanwhile. Returns true if the key was absent. The old value is dropped later, as
    /// after [`remove`](MapWorker::remove); [`GuardedWorker::put`] returns a reference to it. It waits
    /// like [`insert`](MapWorker::insert). An insert takes two nodes, and a replacement one.
    ///
    /// Errors: `Fault` with `Key`, `MapFull`, `Contention`, `NoMemory`, `Pinned`.
    ///
    /// ```
    /// # fn main() -> Result<(), Box<dyn std::error::Error>> {
    /// let map = nm_set::Map::new(64, 1)?;
    /// let mut worker = map.attach()?;
    /// assert!(worker.put(5, "five")?);
    /// assert!(!worker.put(5, "cinq")?);
    /// assert_eq!(worker.pin()?.get(5)?, Some(&"cinq"));
    /// # Ok(())
    /// # }
    /// ```
    pub fn put(&mut self, key: u64, value: V) -> Result<bool, PutError<V>> {
        let outcome = self.give(key, Change::Put, value)?;
        Ok(outcome == INSERTED)
    }

    /// Replaces the value that a key has, in the same way.
    ///
    /// Errors: `Absent`, and those of [`put`](MapWorker::put).
    pub fn replace(&mut self, key: u64, value: V) -> Result<(), PutError<V>> {
        self.give(key, Change::Replace, value).map(|_| ())
    }

    /// Gives a key a value; returns the outcome of a call that did.
    fn give(&mut self, key: u64, change: Change, value: V) -> Result<Outcome, PutError<V>> {
        let key = match checked(key) {
            Ok(key) => key,
            Err(fault) => return Err(PutError::Fault(fault, value)),
        };
        match self.handle.give(key, change, Box::new(value), &mut 0) {
            (outcome, None) => Ok(outcome),
            (outcome, Some(value)) => {
                Err(PutError::of(self.handle.fault_of(outcome), outcome, *value))
            }
        }
    }
}

/// A worker that finds the values of keys, and gives keys values: under a guard, or in place.
pub(crate) trait Gives {
    /// What a call gives the map.
    type Owned;
    /// What a call returns for the value of a key.
    type Found: Copy;

    /// Returns the value of a key.
    fn find(&mut self, key: u64) -> (Outcome, Option<Self::Found>);

    /// Gives a key a value.
    fn give(
        &mut self,
        key: u64,
        change: Change,
        value: Self::Owned,
    ) -> Given<Self::Found, Self::Owned>;

    /// Returns the word of a value that it has found.
    fn word(found: Self::Found) -> u64;

    /// Returns the fault of a call that has not given a key a value, or None if the key or its value is
    /// in the way.
    fn fault_of(&mut self, outcome: Outcome) -> Option<Fault>;
}

/// Gives a key a value; returns the value that it had, if it had one.
pub(crate) fn give<G: Gives>(
    calls: &mut G,
    key: u64,
    change: Change,
    value: G::Owned,
) -> Result<Option<G::Found>, PutError<G::Owned>> {
    let key = match checked(key) {
        Ok(key) => key,
        Err(fault) => return Err(PutError::Fault(fault, value)),
    };
    let given = calls.give(key, change, value);
    match given.new {
        Ok(_) => Ok(given.old),
        Err(value) => {
            let fault = calls.fault_of(given.outcome);
            Err(PutError::of(fault, given.outcome, value))
        }
    }
}

/// Gives a key what a function makes of its value; returns the new value.
pub(crate) fn update<G: Gives>(
    calls: &mut G,
    key: u64,
    mut make: impl FnMut(Option<G::Found>) -> G::Owned,
) -> Result<G::Found, Fault> {
    let key = checked(key)?;
    let mut now = found(calls.find(key))?;
    loop {
        let change = now.map_or(Change::Insert, |old| Change::Compare(G::word(old)));
        let given = calls.give(key, change, make(now));
        if let Ok(new) = given.new {
            return Ok(new);
        }
        if let Some(fault) = calls.fault_of(given.outcome) {
            return Err(fault);
        }
        now = match given.old {
            None => found(calls.find(key))?,
            other => other,
        };
    }
}

/// Returns the value of a key, after an insert of what a function makes if the key is absent.
pub(crate) fn get_or_insert_with<G: Gives>(
    calls: &mut G,
    key: u64,
    make: impl FnOnce() -> G::Owned,
) -> Result<G::Found, Fault> {
    let key = checked(key)?;
    if let Some(value) = found(calls.find(key))? {
        return Ok(value);
    }
    let mut new = make();
    loop {
        let given = calls.give(key, Change::Insert, new);
        new = match given.new {
            Ok(value) => return Ok(value),
            Err(left) => left,
        };
        if let Some(fault) = calls.fault_of(given.outcome) {
            return Err(fault);
        }
        if let Some(value) = found(calls.find(key))? {
            return Ok(value);
        }
    }
}

impl<'g, V> Gives for GuardedWorker<'_, '_, 'g, V> {
    type Owned = Box<V>;
    type Found = &'g V;

    fn find(&mut self, key: u64) -> (Outcome, Option<&'g V>) {
        self.handle.get(key)
    }

    fn give(&mut self, key: u64, change: Change, value: Box<V>) -> Given<&'g V, Box<V>> {
        self.handle.give(key, change, value)
    }

    fn word(found: &'g V) -> u64 {
        word_of(found)
    }

    fn fault_of(&mut self, outcome: Outcome) -> Option<Fault> {
        self.handle.worker().fault_of(outcome)
    }
}

impl<'g, V> GuardedWorker<'_, '_, 'g, V> {
    /// Inserts a key with a value, or replaces the value that it has, in one step: no call finds the
    /// key absent meanwhile. Returns the value that the key had, or None if it was absent. No two
    /// calls return one value. It is dropped later, when the guard has ended. It waits like
    /// [`MapWorker::put`](crate::MapWorker::put).
    ///
    /// Errors: `Fault` with `Key`, `MapFull`, `Contention`, `NoMemory`, `Pinned`.
    ///
    /// ```
    /// # fn main() -> Result<(), Box<dyn std::error::Error>> {
    /// let map = nm_set::Map::new(64, 2)?;
    /// let (mut reader, mut worker) = (map.attach()?, map.attach()?);
    /// let guard = reader.pin()?;
    /// let mut calls = worker.under(&guard)?;
    /// assert_eq!(calls.put(5, "five")?, None);
    /// assert_eq!(calls.put(5, "cinq")?, Some(&"five"));
    /// assert_eq!(calls.update(5, |old| old.copied().unwrap_or("fünf"))?, &"cinq");
    /// assert_eq!(calls.get_or_insert_with(7, || "seven")?, &"seven");
    /// # Ok(())
    /// # }
    /// ```
    pub fn put(&mut self, key: u64, value: V) -> Result<Option<&'g V>, PutError<V>> {
        self.given(key, Change::Put, value)
    }

    /// Replaces the value that a key has, in the same way, and returns that value.
    ///
    /// Errors: `Absent`, and those of [`put`](GuardedWorker::put).
    pub fn replace(&mut self, key: u64, value: V) -> Result<&'g V, PutError<V>> {
        let old = self.given(key, Change::Replace, value)?;
        Ok(old.expect("a replaced value is written"))
    }

    /// Replaces the value that a key has, in the same way, if it is the expected one: the same
    /// object, and not an equal one. So `expected` is a reference that a call has returned.
    ///
    /// Errors: `Absent`; `Other`, if the key has another value; and those of
    /// [`put`](GuardedWorker::put).
    pub fn compare_replace(&mut self, key: u64, expected: &V, value: V) -> Result<(), PutError<V>> {
        let change = Change::Compare(word_of(expected));
        self.given(key, change, value).map(|_| ())
    }

    /// Removes a key if it has the expected value, which is compared as by
    /// [`compare_replace`](GuardedWorker::compare_replace). Returns whether it did, also if the bound of
    /// the call is reached before the key is cut off, like [`take`](GuardedWorker::take). After false
    /// the key is absent or has another value.
    ///
    /// Errors: `Key`, `Contention`, `NoMemory`, `Pinned`.
    pub fn compare_remove(&mut self, key: u64, expected: &V) -> Result<bool, Fault> {
        self.handle.worker().compare_remove(key, word_of(expected))
    }

    /// Gives a key the value that a function makes of the one that it has, or of None if the key is
    /// absent; returns the new value. It calls the function again as often as another call changes
    /// the key in between, without a bound. The function may make calls by other workers: no lock is held, and of the
    /// map only the guard is pinned.
    ///
    /// Errors: `Key`, `MapFull`, `Contention`, `NoMemory`, `Pinned`.
    pub fn update(
        &mut self,
        key: u64,
        mut make: impl FnMut(Option<&V>) -> V,
    ) -> Result<&'g V, Fault> {
        update(self, key, |old| Box::new(make(old)))
    }

    /// Returns the value of a key, after an insert of the value that a function makes if the key is
    /// absent. The new value is dropped again if another call has inserted the key in between. It
    /// tries again as often as other calls insert and remove the key in between, without a bound.
    ///
    /// Errors: `Key`, `MapFull`, `Contention`, `NoMemory`, `Pinned`.
    pub fn get_or_insert_with(
        &mut self,
        key: u64,
        make: impl FnOnce() -> V,
    ) -> Result<&'g V, Fault> {
        get_or_insert_with(self, key, || Box::new(make()))
    }

    /// Gives a key a value; returns the value that it had, if it had one.
    fn given(&mut self, key: u64, change: Change, value: V) -> Result<Option<&'g V>, PutError<V>> {
        give(self, key, change, Box::new(value)).map_err(|error| error.map(|value| *value))
    }
}
