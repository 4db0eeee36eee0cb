//! What maps of boxed values and of values in place share: the map without its values, and the calls of
//! a worker that return no value.

use crate::fault::{answer, Fault};
use crate::ffi::map::{collect_after, Change, MapHandle, Storage, WorkerHandle};
use crate::ffi::{CallOptions, Outcome};
use crate::key::checked;
use crate::map::{InsertError, Reclaimed};
use crate::map_order::taken;
use crate::options::Options;
use crate::order::ends_of;
use crate::place::millis;
use std::collections::BTreeMap;
use std::fmt;
use std::ops::RangeBounds;
use std::time::Duration;

/// The outcomes of an attach and of the making of a map that have numbers, and others that mean
/// something of their own.
const NODES: Outcome = -6;
const WORKERS: Outcome = -7;
const BUSY: Outcome = -9;
const FULL: Outcome = -10;
const PENDING: Outcome = -12;
const NO_WORKER: Outcome = -23;

/// In place of the number of a worker: none.
const NOBODY: u32 = u32::MAX;

/// The most nodes of a map.
const MOST_NODES: usize = 268_435_456;

/// How many nodes a map has at least that is made of keys without a number of nodes.
const LEAST_NODES: usize = 4_096;

/// A map without the type of its values.
pub(crate) struct MapPlace<S: Storage> {
    handle: MapHandle<S>,
    nodes: u32,
    workers: u32,
}

impl<S: Storage> MapPlace<S> {
    /// Makes an empty map for so many workers.
    pub(crate) fn new(nodes: u32, workers: u32) -> Result<MapPlace<S>, Fault> {
        let options = Options {
            workers,
            ..Options::default()
        };
        MapPlace::with_options(nodes, options)
    }

    /// Makes an empty map.
    pub(crate) fn with_options(nodes: u32, options: Options) -> Result<MapPlace<S>, Fault> {
        let workers = options.workers;
        let bounds = CallOptions {
            tries: options.tries,
            rounds: options.rounds,
            collect_after: options
                .collect_after
                .unwrap_or_else(|| collect_after(nodes, workers)),
        };
        match MapHandle::new(nodes, workers, bounds, options.timeout_ms) {
            Ok(handle) => Ok(MapPlace {
                handle,
                nodes,
                workers,
            }),
            Err(NODES) => Err(Fault::Nodes(nodes.into())),
            Err(WORKERS) => Err(Fault::Workers(workers)),
            Err(outcome) => Err(Fault::of(outcome)),
        }
    }

    /// Attaches a worker, after a wait of at most the timeout of the options.
    pub(crate) fn attach(&self) -> Result<WorkerHandle<'_, S>, Fault> {
        self.attached(self.handle.timeout_ms())
    }

    /// Attaches a worker, after a wait of at most `timeout`.
    pub(crate) fn attach_timeout(&self, timeout: Duration) -> Result<WorkerHandle<'_, S>, Fault> {
        self.attached(millis(timeout))
    }

    fn attached(&self, timeout_ms: u32) -> Result<WorkerHandle<'_, S>, Fault> {
        self.handle
            .attach(timeout_ms)
            .map_err(|outcome| match outcome {
                NO_WORKER => Fault::NoWorker {
                    workers: self.workers,
                },
                outcome => Fault::of(outcome),
            })
    }

    /// Returns the number of keys.
    pub(crate) fn len(&self) -> Result<usize, Fault> {
        let keys = self.handle.keys().map_err(Fault::of)?;
        Ok(usize::try_from(keys).unwrap_or(usize::MAX))
    }

    /// Returns the number of nodes that wait to be freed.
    pub(crate) fn waiting(&self) -> Result<u64, Fault> {
        self.handle.waiting().map_err(Fault::of)
    }

    /// Returns the number of nodes for which it has room.
    pub(crate) fn nodes(&self) -> u32 {
        self.nodes
    }

    /// Returns how many keys it can have if no removed node waits.
    pub(crate) fn capacity(&self) -> usize {
        (self.nodes as usize - 5) / 2
    }

    /// Returns how many workers it has.
    pub(crate) fn workers(&self) -> u32 {
        self.workers
    }

    /// Writes the numbers of the map for `Debug`.
    pub(crate) fn show(&self, name: &str, f: &mut fmt::Formatter<'_>) -> fmt::Result {
        let mut shown = f.debug_struct(name);
        match self.len() {
            Ok(keys) => shown.field("keys", &keys),
            Err(fault) => shown.field("keys", &format_args!("{fault}")),
        };
        shown
            .field("capacity", &self.capacity())
            .field("nodes", &self.nodes)
            .field("workers", &self.workers)
            .finish_non_exhaustive()
    }
}

/// Fills a map by the `extend` of a worker. Of several values for one key it takes the last one.
pub(crate) fn fill<V>(
    entries: impl IntoIterator<Item = (u64, V)>,
    extend: impl FnOnce(BTreeMap<u64, V>) -> Result<usize, InsertError<V>>,
) -> Result<(), Fault> {
    match extend(entries.into_iter().collect()) {
        Err(InsertError::Fault(fault, _)) => Err(fault),
        _ => Ok(()),
    }
}

/// Makes a map of entries by its `from_entries`, for a trait that returns no faults: four nodes for each
/// key, and at least 4,096. It panics if that returns a fault.
pub(crate) fn collected<V, M>(
    entries: impl IntoIterator<Item = (u64, V)>,
    from_entries: impl FnOnce(u32, Options, Vec<(u64, V)>) -> Result<M, Fault>,
) -> M {
    let entries: Vec<(u64, V)> = entries.into_iter().collect();
    let nodes = entries.len().saturating_mul(4);
    let nodes = nodes.clamp(LEAST_NODES, MOST_NODES) as u32;
    from_entries(nodes, Options::default(), entries).unwrap_or_else(|fault| panic!("{fault}"))
}

/// Inserts entries by a call for one; returns how many keys were absent.
pub(crate) fn extend_by<K, V>(
    entries: impl IntoIterator<Item = (K, V)>,
    mut insert: impl FnMut(K, V) -> Result<(), InsertError<V>>,
) -> Result<usize, InsertError<V>> {
    let mut added = 0;
    for (key, value) in entries {
        match insert(key, value) {
            Ok(()) => added += 1,
            Err(InsertError::Present(_)) => {}
            Err(error) => return Err(error),
        }
    }
    Ok(added)
}

/// Returns whether the answer is not no, or the fault of an error of a managed call.
pub(crate) fn managed(outcome: Outcome) -> Result<bool, Fault> {
    match outcome {
        BUSY | PENDING => Err(Fault::Contention),
        _ => answer(outcome),
    }
}

/// Returns what a call has found, or the fault of an error.
pub(crate) fn found<T>((outcome, found): (Outcome, Option<T>)) -> Result<Option<T>, Fault> {
    managed(outcome).map(|_| found)
}

impl<S: Storage> WorkerHandle<'_, S> {
    /// Inserts a key with a value, which the error has.
    pub(crate) fn insert(
        &mut self,
        key: u64,
        value: S::Owned,
    ) -> Result<(), InsertError<S::Owned>> {
        let key = match checked(key) {
            Ok(key) => key,
            Err(fault) => return Err(InsertError::Fault(fault, value)),
        };
        let (outcome, left) = self.give(key, Change::Insert, value, &mut 0);
        match left {
            None => Ok(()),
            Some(value) => Err(match self.fault_of(outcome) {
                None => InsertError::Present(value),
                Some(fault) => InsertError::Fault(fault, value),
            }),
        }
    }

    /// Returns the fault of a call that has not given a key a value, or None if the outcome is an
    /// answer.
    pub(crate) fn fault_of(&mut self, outcome: Outcome) -> Option<Fault> {
        match outcome {
            FULL => Some(Fault::MapFull(self.fullness().into())),
            _ => managed(outcome).err(),
        }
    }

    /// Returns whether the map has the key.
    pub(crate) fn contains(&mut self, key: u64) -> Result<bool, Fault> {
        managed(self.get(checked(key)?).0)
    }

    /// Removes a key if its value has this word; returns whether it did, also if the remove is not
    /// finished.
    pub(crate) fn compare_remove(&mut self, key: u64, expected: u64) -> Result<bool, Fault> {
        taken(self.take_if(checked(key)?, expected)).map(|word| word.is_some())
    }

    /// Returns how many keys of a range there are.
    #[track_caller]
    pub(crate) fn count_of(&mut self, bounds: impl RangeBounds<u64>) -> Result<u64, Fault> {
        let Some(ends) = ends_of(bounds) else {
            return Ok(0);
        };
        let (outcome, count) = self.count(ends);
        managed(outcome).map(|_| count)
    }

    /// Drops the values that were reclaimed.
    pub(crate) fn reclaimed(&mut self) -> Result<Reclaimed, Fault> {
        let (outcome, values, behind) = self.reclaim();
        answer(outcome)?;
        let behind = (behind != NOBODY).then_some(behind);
        Ok(Reclaimed { values, behind })
    }

    /// Returns the key of an unfinished remove, or None.
    pub(crate) fn pending_key(&mut self) -> Result<Option<u64>, Fault> {
        let mut key = 0;
        let is_pending = managed(self.pending(&mut key))?;
        Ok(is_pending.then_some(key))
    }
}
