//! Calls by a worker that return references, under the pin of another worker of the same map.

use super::{object, word_of, Boxed, Change, Entry, Given, Pinned, WorkerHandle, YES};
use crate::ffi::{Order, Outcome};
use std::marker::PhantomData;

/// A key with its value.
pub(crate) type Found<'g, V> = (u64, &'g V);

/// A worker that makes calls while another one is pinned, whose [`Pinned`] is borrowed for `'g`.
pub(crate) struct Guarded<'w, 'a, 'g, V> {
    worker: &'w mut WorkerHandle<'a, Boxed<V>>,
    under: PhantomData<&'g V>,
}

impl<'w, 'a, 'g, V> Guarded<'w, 'a, 'g, V> {
    /// Returns a guarded worker, or None if the two workers are of different maps.
    pub(crate) fn new(
        worker: &'w mut WorkerHandle<'a, Boxed<V>>,
        pinned: &'g Pinned<'_, '_, V>,
    ) -> Option<Guarded<'w, 'a, 'g, V>> {
        std::ptr::eq(worker.map, pinned.worker.map).then_some(Guarded {
            worker,
            under: PhantomData,
        })
    }

    /// Returns the worker, for calls that return no value of a key.
    pub(crate) fn worker(&mut self) -> &mut WorkerHandle<'a, Boxed<V>> {
        self.worker
    }

    /// Returns the value of a word that a call of this worker has written, or has given a key.
    fn value(word: u64) -> &'g V {
        // SAFETY: the pointer is of a box that the map had at a moment of that call. The other
        // worker was pinned before the call and is until the end of `'g`, so the pointer does not
        // come back before.
        unsafe { &*object::<V>(word) }
    }

    fn found(is_there: bool, entry: Entry) -> Option<Found<'g, V>> {
        is_there.then(|| (entry.key, Self::value(entry.value)))
    }

    /// Looks up a key.
    pub(crate) fn get(&mut self, key: u64) -> (Outcome, Option<&'g V>) {
        let (outcome, word) = self.worker.get(key);
        (outcome, word.map(Self::value))
    }

    /// Removes a key, and returns its value, also if the remove is not finished.
    pub(crate) fn take(&mut self, key: u64) -> (Outcome, Option<&'g V>) {
        let (outcome, word) = self.worker.take(key);
        (outcome, word.map(Self::value))
    }

    /// Gives a key a value.
    pub(crate) fn give(&mut self, key: u64, change: Change, value: Box<V>) -> Given<&'g V, Box<V>> {
        let (new, mut old) = (word_of(&*value), 0);
        let (outcome, left) = self.worker.give(key, change, value, &mut old);
        Given::of(outcome, left, new, old, Self::value)
    }

    /// Finds the nearest key: see [`WorkerHandle::nearest`].
    pub(crate) fn nearest(&mut self, order: Order, key: u64) -> (Outcome, Option<Found<'g, V>>) {
        let (outcome, entry) = self.worker.nearest(order, key);
        (outcome, Self::found(outcome == YES, entry))
    }

    /// Removes a key at one end: see [`WorkerHandle::pop`]. The value of an unfinished one is
    /// unknown.
    pub(crate) fn pop(&mut self, order: Order, bound: u64) -> (Outcome, Option<Found<'g, V>>) {
        let (outcome, entry) = self.worker.pop(order, bound);
        (outcome, Self::found(outcome == YES, entry))
    }

    /// Reads keys with their values: see [`WorkerHandle::read_keys`].
    pub(crate) fn read(
        &mut self,
        order: Order,
        range: (u64, u64),
        room: usize,
    ) -> (Outcome, Vec<Found<'g, V>>, u64) {
        let (outcome, entries, next) = self.worker.read_entries(order, range, room);
        let found = |entry: Entry| (entry.key, Self::value(entry.value));
        (outcome, entries.into_iter().map(found).collect(), next)
    }
}
