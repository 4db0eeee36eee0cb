//! The functions of `nm_set.h` and `nm_map.h` for maps, and the values of a map: a [`MapHandle`],
//! its [`WorkerHandle`]s and their [`Pinned`] ones.
//!
//! A map has a word of 64 bits under each key ([`Storage`]). That of a map [`InPlace`] is the value
//! itself, and needs no care. That of a map of [`Boxed`] values is the pointer of a box, which the map
//! owns from an insert that succeeded until the pointer comes back. What makes the `unsafe` here right:
//!
//! - *Each pointer in the map is of a box of this `V`.* Only [`WorkerHandle::give`] puts one in.
//! - *Each pointer comes back once*, by [`release`], which drops the box.
//! - *No pointer comes back while a worker is pinned that may have got it.* This is what the
//!   library
//!   is proved for. A [`Pinned`] has its worker borrowed, and a reference that it returned has the
//!   `Pinned` borrowed. So the pin ends after the last use of the reference.
//! - *A call by another worker returns a pointer that does not come back while this one is pinned*,
//!   if it was pinned before that call: the value was in the map at a moment of the call, so it is
//!   cut off later. A [`Guarded`](guarded::Guarded) borrows the `Pinned` for as long as its
//!   references exist, and tests that both workers are of one map.
//! - *In a forked child nothing is called*, and no box is dropped: the boxes are the parent's.
//! - *Boxes are dropped by whichever thread finds that they come back*, and several threads have
//!   references to one at the same time. So what a thread may share asks for `V: Send + Sync`.

pub(crate) mod guarded;

use super::{CallOptions, Fullness, Order, Outcome, Word};
use std::any::Any;
use std::cell::UnsafeCell;
use std::ffi::{c_int, c_void};
use std::marker::PhantomData;
use std::panic::{catch_unwind, resume_unwind, AssertUnwindSafe, RefUnwindSafe, UnwindSafe};
use std::ptr::{addr_of_mut, null_mut, NonNull};

/// Takes a value that came back: `nm_map_release`.
type Release = unsafe extern "C" fn(context: *mut c_void, value: u64);

/// The outcome yes, those of a call that gives the map a value, that of a remove that is not finished,
/// and that of each call in a forked child.
const YES: Outcome = 1;
const INSERTED: Outcome = 3;
const REPLACED: Outcome = 4;
const OTHER: Outcome = 6;
const UNFINISHED: Outcome = -11;
const FORKED: Outcome = -30;

/// A key with the word of its value: `nm_entry`.
#[repr(C)]
#[derive(Clone, Copy, Default)]
pub(crate) struct Entry {
    pub key: u64,
    pub value: u64,
}

/// A look-up beside others: `nm_map_lookup`.
#[repr(C)]
#[derive(Clone, Copy)]
struct Lookup {
    key: u64,
    /// 1 if the map had the key, else 0.
    found: u64,
    value: u64,
}

/// `nm_map_counts`, of which only the library knows the fields.
#[repr(C)]
struct RawCounts {
    _private: [u8; 0],
}

/// A call that finds a key from another one on.
type Nearest =
    unsafe extern "C" fn(*mut Word, u64, *const CallOptions, *mut u64, *mut u64) -> c_int;

/// A call that reads a range into a block.
type Read<T> = unsafe extern "C" fn(
    *mut Word,
    u64,
    u64,
    *mut T,
    usize,
    *mut usize,
    *mut u64,
    *const CallOptions,
) -> c_int;

extern "C" {
    fn nm_drop(handle: *mut Word) -> c_int;
    fn nm_map_new(map: *mut Word, nodes: u32, workers: u32) -> c_int;
    fn nm_map_get(
        worker: *mut Word,
        key: u64,
        options: *const CallOptions,
        value: *mut u64,
    ) -> c_int;
    fn nm_map_remove(
        worker: *mut Word,
        key: u64,
        options: *const CallOptions,
        value: *mut u64,
    ) -> c_int;
    fn nm_map_remove_if(
        worker: *mut Word,
        key: u64,
        expected: u64,
        options: *const CallOptions,
        found: *mut u64,
    ) -> c_int;
    fn nm_map_unpin(worker: *mut Word) -> c_int;
    fn nm_map_get_pinned(worker: *mut Word, key: u64, value: *mut u64) -> c_int;
    fn nm_map_pop_first_below(
        worker: *mut Word,
        below: u64,
        options: *const CallOptions,
        taken: *mut u64,
        value: *mut u64,
    ) -> c_int;
    fn nm_map_pop_last_from(
        worker: *mut Word,
        from: u64,
        options: *const CallOptions,
        taken: *mut u64,
        value: *mut u64,
    ) -> c_int;
    fn nm_map_at_least(
        worker: *mut Word,
        key: u64,
        options: *const CallOptions,
        found: *mut u64,
        value: *mut u64,
    ) -> c_int;
    fn nm_map_at_most(
        worker: *mut Word,
        key: u64,
        options: *const CallOptions,
        found: *mut u64,
        value: *mut u64,
    ) -> c_int;
    fn nm_map_read_keys(
        worker: *mut Word,
        from: u64,
        below: u64,
        keys: *mut u64,
        room: usize,
        count: *mut usize,
        next: *mut u64,
        options: *const CallOptions,
    ) -> c_int;
    fn nm_map_read_keys_back(
        worker: *mut Word,
        from: u64,
        below: u64,
        keys: *mut u64,
        room: usize,
        count: *mut usize,
        next: *mut u64,
        options: *const CallOptions,
    ) -> c_int;
    fn nm_map_count(
        worker: *mut Word,
        from: u64,
        below: u64,
        count: *mut u64,
        options: *const CallOptions,
    ) -> c_int;
    fn nm_map_read_entries(
        worker: *mut Word,
        from: u64,
        below: u64,
        entries: *mut Entry,
        room: usize,
        count: *mut usize,
        next: *mut u64,
        options: *const CallOptions,
    ) -> c_int;
    fn nm_map_read_entries_back(
        worker: *mut Word,
        from: u64,
        below: u64,
        entries: *mut Entry,
        room: usize,
        count: *mut usize,
        next: *mut u64,
        options: *const CallOptions,
    ) -> c_int;
    fn nm_map_get_many(
        worker: *mut Word,
        lookups: *mut Lookup,
        count: usize,
        options: *const CallOptions,
    ) -> c_int;
    fn nm_map_get_many_pinned(worker: *mut Word, lookups: *mut Lookup, count: usize) -> c_int;
    fn nm_map_counts_new(counts: *mut *mut RawCounts, nodes: u32, workers: u32) -> c_int;
    fn nm_map_counts_free(counts: *mut RawCounts);
    fn nm_map_count_insert(counts: *mut RawCounts, worker: u32, outcome: c_int);
    fn nm_map_count_remove(counts: *mut RawCounts, worker: u32, outcome: c_int);
    fn nm_map_counts_keys(counts: *const RawCounts) -> u64;
    fn nm_map_counts_waiting(counts: *const RawCounts) -> u64;
    fn nm_map_wait_first(
        worker: *mut Word,
        below: u64,
        options: *const CallOptions,
        counts: *mut RawCounts,
        found: *mut u64,
        value: *mut u64,
        timeout_ms: u32,
    ) -> c_int;
    fn nm_map_is_forked(counts: *const RawCounts) -> c_int;
    fn nm_map_fullness(nodes: u64, keys: u64, waiting: u64, behind: u32, fullness: *mut Fullness);
    fn nm_map_pending(worker: *mut Word, key: *mut u64) -> c_int;
    fn nm_map_number(worker: *mut Word, number: *mut u32) -> c_int;
    fn nm_map_queue_len(worker: *mut Word, nodes: *mut u64) -> c_int;
    fn nm_map_collect_after(nodes: u32, workers: u32) -> u32;
    fn nm_map_lend(
        map: *mut Word,
        counts: *mut RawCounts,
        worker: *mut Word,
        timeout_ms: u32,
    ) -> c_int;
    fn nm_map_return(counts: *mut RawCounts, worker: *mut Word) -> c_int;
    fn nm_map_drop_returned(counts: *mut RawCounts);
    fn nm_map_hold(worker: *mut Word, options: *const CallOptions, epoch: *mut u64) -> c_int;
    fn nm_map_take_back(
        worker: *mut Word,
        counts: *mut RawCounts,
        release: Release,
        context: *mut c_void,
        behind: *mut u32,
    ) -> c_int;
    fn nm_map_tend(
        worker: *mut Word,
        options: *const CallOptions,
        counts: *mut RawCounts,
        release: Release,
        context: *mut c_void,
    ) -> c_int;
    fn nm_map_wait_insert(
        map: *mut Word,
        worker: *mut Word,
        key: u64,
        value: u64,
        options: *const CallOptions,
        counts: *mut RawCounts,
        release: Release,
        context: *mut c_void,
        timeout_ms: u32,
    ) -> c_int;
    fn nm_map_wait_put(
        map: *mut Word,
        worker: *mut Word,
        key: u64,
        value: u64,
        options: *const CallOptions,
        counts: *mut RawCounts,
        release: Release,
        context: *mut c_void,
        old: *mut u64,
        timeout_ms: u32,
    ) -> c_int;
    fn nm_map_wait_replace(
        map: *mut Word,
        worker: *mut Word,
        key: u64,
        value: u64,
        options: *const CallOptions,
        counts: *mut RawCounts,
        release: Release,
        context: *mut c_void,
        old: *mut u64,
        timeout_ms: u32,
    ) -> c_int;
    fn nm_map_wait_compare_replace(
        map: *mut Word,
        worker: *mut Word,
        key: u64,
        expected: u64,
        value: u64,
        options: *const CallOptions,
        counts: *mut RawCounts,
        release: Release,
        context: *mut c_void,
        found: *mut u64,
        timeout_ms: u32,
    ) -> c_int;
    fn nm_map_drain(
        map: *mut Word,
        release: Release,
        context: *mut c_void,
        timeout_ms: u32,
    ) -> c_int;
}

/// What a call does with the value that it gives a key.
#[derive(Clone, Copy)]
pub(crate) enum Change {
    /// It inserts the key if that is absent.
    Insert,
    /// It inserts the key, or replaces its value.
    Put,
    /// It replaces the value of the key if that is present.
    Replace,
    /// It replaces the value of the key if that has this word.
    Compare(u64),
}

/// What became of a value that was given to a key.
pub(crate) struct Given<F, O> {
    pub outcome: Outcome,
    /// The value that the key had, if it was replaced or is another one.
    pub old: Option<F>,
    /// The new value if the map owns it, or else what it was given.
    pub new: Result<F, O>,
}

impl<F, O> Given<F, O> {
    /// Returns what became of a value, by what [`WorkerHandle::give`] has returned and written, and the
    /// word of the new value. A function returns the value of a word that the call has written or
    /// given.
    fn of(
        outcome: Outcome,
        left: Option<O>,
        new: u64,
        old: u64,
        value: impl Fn(u64) -> F,
    ) -> Given<F, O> {
        Given {
            outcome,
            old: matches!(outcome, REPLACED | OTHER).then(|| value(old)),
            new: left.map_or_else(|| Ok(value(new)), Err),
        }
    }
}

/// How a map stores values in words: each in a box, or in place.
pub(crate) trait Storage {
    /// What a call gives the map.
    type Owned;

    /// Returns the word of a value, which the word owns.
    fn into_word(owned: Self::Owned) -> u64;

    /// Returns the value of a word, which owns it no more.
    ///
    /// # Safety
    ///
    /// `into_word` has returned the word, which owns a value.
    unsafe fn from_word(word: u64) -> Self::Owned;
}

/// Values in boxes. Their words are pointers.
pub(crate) struct Boxed<V>(PhantomData<V>);

impl<V> Storage for Boxed<V> {
    type Owned = Box<V>;

    fn into_word(owned: Box<V>) -> u64 {
        Box::into_raw(owned) as usize as u64
    }

    unsafe fn from_word(word: u64) -> Box<V> {
        // SAFETY: by the condition the pointer is of a box, which nothing else owns.
        unsafe { Box::from_raw(object::<V>(word)) }
    }
}

/// Values that are words.
pub(crate) enum InPlace {}

impl Storage for InPlace {
    type Owned = u64;

    fn into_word(owned: u64) -> u64 {
        owned
    }

    unsafe fn from_word(word: u64) -> u64 {
        word
    }
}

/// Returns whether a remove takes its key: it has, or it will, and no other call does.
fn is_taken(outcome: Outcome) -> bool {
    matches!(outcome, YES | UNFINISHED)
}

/// Returns the word of a value that a map has in a box.
pub(crate) fn word_of<V>(value: &V) -> u64 {
    value as *const V as usize as u64
}

/// Returns the number of waiting nodes from which the workers of a map collect, if it is not given.
pub(crate) fn collect_after(nodes: u32, workers: u32) -> u32 {
    // SAFETY: it has no condition.
    unsafe { nm_map_collect_after(nodes, workers) }
}

/// The values that came back during one call: how many, and the panic of the first one whose drop
/// has panicked.
#[derive(Default)]
struct Taken {
    values: u64,
    panic: Option<Box<dyn Any + Send>>,
}

impl Taken {
    /// Makes a call of C that hands over values, with what it passes on to [`release`].
    fn by<R>(&mut self, call: impl FnOnce(*mut c_void) -> R) -> R {
        call((self as *mut Taken).cast())
    }

    /// Goes on with a panic, unless this thread panics already.
    fn resume(self) {
        if let (Some(panic), false) = (self.panic, std::thread::panicking()) {
            resume_unwind(panic);
        }
    }
}

/// Drops a value that came back. No panic leaves it, because its caller is in C.
///
/// # Safety
///
/// `context` is of a [`Taken`] that nothing else uses meanwhile. The value is a word of this storage
/// that the caller hands over.
unsafe extern "C" fn release<S: Storage>(context: *mut c_void, value: u64) {
    // SAFETY: by the condition.
    let (taken, value) = unsafe { (&mut *context.cast::<Taken>(), S::from_word(value)) };
    taken.values += 1;
    match (catch_unwind(AssertUnwindSafe(|| drop(value))), &taken.panic) {
        (Ok(()), _) => {}
        (Err(panic), None) => taken.panic = Some(panic),
        (Err(panic), Some(_)) => std::mem::forget(panic), // its drop might panic again
    }
}

fn object<V>(value: u64) -> *mut V {
    value as usize as *mut V
}

/// How many keys the workers of a map have inserted and not removed, and in which process it was
/// made.
struct Counts(NonNull<RawCounts>);

// SAFETY: several threads may call the functions of counts at the same time.
unsafe impl Send for Counts {}
// SAFETY: the same.
unsafe impl Sync for Counts {}

impl Counts {
    /// Makes the counts, or returns the outcome of an error.
    fn new(nodes: u32, workers: u32) -> Result<Counts, Outcome> {
        let mut counts = null_mut();
        // SAFETY: the place is borrowed for this call.
        let outcome = unsafe { nm_map_counts_new(&mut counts, nodes, workers) };
        NonNull::new(counts).map(Counts).ok_or(outcome)
    }

    fn keys(&self) -> u64 {
        // SAFETY: the counts exist as long as `self`.
        unsafe { nm_map_counts_keys(self.0.as_ptr()) }
    }

    fn waiting(&self) -> u64 {
        // SAFETY: the counts exist as long as `self`.
        unsafe { nm_map_counts_waiting(self.0.as_ptr()) }
    }

    fn is_forked(&self) -> bool {
        // SAFETY: the counts exist as long as `self`.
        unsafe { nm_map_is_forked(self.0.as_ptr()) != 0 }
    }

    /// Counts the outcome of a call that gives the map a value, by the worker of a number. One thread
    /// has that worker.
    fn insert(&self, worker: u32, outcome: Outcome) {
        // SAFETY: the counts exist as long as `self`.
        unsafe { nm_map_count_insert(self.0.as_ptr(), worker, outcome) }
    }

    /// Counts the outcome of a remove or a pop.
    fn remove(&self, worker: u32, outcome: Outcome) {
        // SAFETY: the counts exist as long as `self`.
        unsafe { nm_map_count_remove(self.0.as_ptr(), worker, outcome) }
    }
}

impl Drop for Counts {
    fn drop(&mut self) {
        // SAFETY: nothing has the counts any more. In a forked child the function does nothing.
        unsafe { nm_map_counts_free(self.0.as_ptr()) }
    }
}

/// The handle of a map, which owns a value of each key. Its drop empties the map.
pub(crate) struct MapHandle<S: Storage> {
    handle: UnsafeCell<Word>,
    counts: Counts,
    nodes: u32,
    options: CallOptions,
    timeout_ms: u32,
    // A value goes in and out by shared references, so no lifetime in it may grow or shrink.
    of: PhantomData<fn(S) -> S>,
}

// SAFETY: the library's handle may move between threads. The values are owned, and so move with it.
unsafe impl<S: Storage> Send for MapHandle<S> where S::Owned: Send {}
// SAFETY: several threads may attach workers by one handle at the same time. By these a thread gets
// references to values that other threads inserted (`Sync`), and drops such values (`Send`).
unsafe impl<S: Storage> Sync for MapHandle<S> where S::Owned: Send + Sync {}

// No call of the library unwinds, so that a panic never comes in the middle of one.
impl<S: Storage> UnwindSafe for MapHandle<S> where S::Owned: RefUnwindSafe {}
impl<S: Storage> RefUnwindSafe for MapHandle<S> where S::Owned: RefUnwindSafe {}

impl<S: Storage> MapHandle<S> {
    /// Makes an empty map, or returns the outcome of an error.
    pub(crate) fn new(
        nodes: u32,
        workers: u32,
        options: CallOptions,
        timeout_ms: u32,
    ) -> Result<MapHandle<S>, Outcome> {
        let map = MapHandle {
            handle: UnsafeCell::new(Word::closed()),
            counts: Counts::new(nodes, workers)?,
            nodes,
            options,
            timeout_ms,
            of: PhantomData,
        };
        // SAFETY: the handle is closed, and its place exists.
        match unsafe { nm_map_new(map.handle.get(), nodes, workers) } {
            outcome @ 0.. => {
                debug_assert_eq!(outcome, 2);
                Ok(map)
            }
            outcome => Err(outcome),
        }
    }

    pub(crate) fn timeout_ms(&self) -> u32 {
        self.timeout_ms
    }

    /// Returns how many keys there are, or the outcome of an error.
    pub(crate) fn keys(&self) -> Result<u64, Outcome> {
        if self.counts.is_forked() {
            return Err(FORKED);
        }
        Ok(self.counts.keys())
    }

    /// Returns how many removed nodes wait, or the outcome of an error.
    pub(crate) fn waiting(&self) -> Result<u64, Outcome> {
        if self.counts.is_forked() {
            return Err(FORKED);
        }
        Ok(self.counts.waiting())
    }

    /// Attaches a worker, one that was returned if there is one, or returns the outcome of an error.
    pub(crate) fn attach(&self, timeout_ms: u32) -> Result<WorkerHandle<'_, S>, Outcome> {
        let mut worker = WorkerHandle {
            map: self,
            handle: UnsafeCell::new(Word::closed()),
            number: u32::MAX,
        };
        // SAFETY: the worker's handle is closed, and no other call has it. That of the map may be
        // used by several calls at the same time.
        let counts = self.counts.0.as_ptr();
        let outcome = worker
            .by(|handle, _| unsafe { nm_map_lend(self.handle.get(), counts, handle, timeout_ms) });
        if outcome < 0 {
            return Err(outcome);
        }
        // SAFETY: the handle exists, and the number is borrowed for this call.
        unsafe { nm_map_number(worker.handle.get(), &mut worker.number) };
        Ok(worker)
    }
}

impl<S: Storage> Drop for MapHandle<S> {
    fn drop(&mut self) {
        // No worker is attached, unless it was forgotten: each has the map borrowed. So only a lack
        // of memory is waited for.
        const LONGEST: u32 = 10_000;
        if self.counts.is_forked() {
            return;
        }
        let mut taken = Taken::default();
        // SAFETY: the handle is borrowed for these calls. `release` gets words of this storage.
        taken.by(|context| unsafe {
            nm_map_drop_returned(self.counts.0.as_ptr());
            nm_map_drain(self.handle.get(), release::<S>, context, LONGEST);
            nm_drop(self.handle.get())
        });
        taken.resume();
    }
}

/// The handle of an attached worker. Its drop returns the worker.
pub(crate) struct WorkerHandle<'a, S: Storage> {
    map: &'a MapHandle<S>,
    // Calls by a shared reference write it. No two of them run at the same time, because it is not
    // `Sync`.
    handle: UnsafeCell<Word>,
    number: u32,
}

// SAFETY: the library's handle may move between threads. By the map's reference it shares values.
unsafe impl<S: Storage> Send for WorkerHandle<'_, S> where S::Owned: Send + Sync {}

impl<S: Storage> WorkerHandle<'_, S> {
    /// Makes a call of C with the handle and the options, which exist during the call. In a forked
    /// child it makes none.
    fn by(&self, call: impl FnOnce(*mut Word, *const CallOptions) -> c_int) -> Outcome {
        if self.map.counts.is_forked() {
            return FORKED;
        }
        call(self.handle.get(), &self.map.options)
    }

    /// Gives a key a value. Returns the outcome, and the value unless the map owns it now. Writes the
    /// word of the value that the key had, if it was replaced or is another one.
    pub(crate) fn give(
        &mut self,
        key: u64,
        change: Change,
        value: S::Owned,
        old: &mut u64,
    ) -> (Outcome, Option<S::Owned>) {
        let new = S::into_word(value);
        let mut taken = Taken::default();
        let (map, ms) = (self.map.handle.get(), self.map.timeout_ms);
        let (counts, drop) = (self.map.counts.0.as_ptr(), release::<S> as Release);
        // SAFETY: both handles and the counts exist, and `self` and the place are borrowed. `release`
        // gets words of this storage.
        let outcome = taken.by(|to| {
            self.by(|it, options| unsafe {
                match change {
                    Change::Insert => {
                        nm_map_wait_insert(map, it, key, new, options, counts, drop, to, ms)
                    }
                    Change::Put => {
                        nm_map_wait_put(map, it, key, new, options, counts, drop, to, old, ms)
                    }
                    Change::Replace => {
                        nm_map_wait_replace(map, it, key, new, options, counts, drop, to, old, ms)
                    }
                    Change::Compare(was) => nm_map_wait_compare_replace(
                        map, it, key, was, new, options, counts, drop, to, old, ms,
                    ),
                }
            })
        });
        self.map.counts.insert(self.number, outcome);
        let is_owned = matches!(outcome, YES | INSERTED | REPLACED);
        // SAFETY: after any other outcome the map does not have the word.
        let left = (!is_owned).then(|| unsafe { S::from_word(new) });
        taken.resume();
        (outcome, left)
    }

    /// Returns how full the map is, after a call that found no nodes.
    pub(crate) fn fullness(&mut self) -> Fullness {
        let waiting = self.map.counts.waiting();
        let (_, _, behind) = self.reclaim();
        let mut fullness = Fullness::default();
        let (nodes, keys) = (self.map.nodes.into(), self.map.counts.keys());
        // SAFETY: the place is borrowed for this call.
        unsafe { nm_map_fullness(nodes, keys, waiting, behind, &mut fullness) };
        fullness
    }

    /// Frees what came back if enough nodes wait, and removes a key by a call of C.
    fn removed(&mut self, remove: impl FnOnce(*mut Word, *const CallOptions) -> c_int) -> Outcome {
        let mut taken = Taken::default();
        // SAFETY: the handle exists, and `self` is borrowed. `release` gets words of this storage. What
        // is removed is not dropped here: its pointer comes back later.
        let outcome = taken.by(|context| {
            self.by(|worker, options| {
                let counts = self.map.counts.0.as_ptr();
                unsafe { nm_map_tend(worker, options, counts, release::<S>, context) };
                remove(worker, options)
            })
        });
        self.map.counts.remove(self.number, outcome);
        taken.resume();
        outcome
    }

    /// Removes a key. Returns the outcome, and the word of its value, also if the remove is not
    /// finished.
    pub(crate) fn take(&mut self, key: u64) -> (Outcome, Option<u64>) {
        let mut value = 0;
        // SAFETY: the handle exists during the call, and the place is borrowed for it.
        let outcome = self
            .removed(|worker, options| unsafe { nm_map_remove(worker, key, options, &mut value) });
        (outcome, is_taken(outcome).then_some(value))
    }

    /// Removes a key if its value has this word, which is returned like that of
    /// [`take`](WorkerHandle::take).
    pub(crate) fn take_if(&mut self, key: u64, expected: u64) -> (Outcome, Option<u64>) {
        let mut found = 0;
        // SAFETY: the handle exists during the call, and the place is borrowed for it.
        let outcome = self.removed(|worker, options| unsafe {
            nm_map_remove_if(worker, key, expected, options, &mut found)
        });
        (outcome, is_taken(outcome).then_some(expected))
    }

    /// Removes the least key that is below a bound, or the greatest one that is not below it.
    pub(crate) fn pop(&mut self, order: Order, bound: u64) -> (Outcome, Entry) {
        let mut entry = Entry::default();
        let pop = match order {
            Order::Ascending => nm_map_pop_first_below,
            Order::Descending => nm_map_pop_last_from,
        };
        // SAFETY: the handle exists during the call, and the places are borrowed for it.
        let outcome = self.removed(|worker, options| unsafe {
            pop(worker, bound, options, &mut entry.key, &mut entry.value)
        });
        (outcome, entry)
    }

    /// Looks up a key. Returns the outcome, and the word of its value if the map has the key.
    pub(crate) fn get(&mut self, key: u64) -> (Outcome, Option<u64>) {
        let mut value = 0;
        // SAFETY: the handle exists, and `self` and the place are borrowed for this call.
        let outcome =
            self.by(|worker, options| unsafe { nm_map_get(worker, key, options, &mut value) });
        (outcome, (outcome == YES).then_some(value))
    }

    /// Finds the least key that is not below a key, or the greatest that is not above it.
    pub(crate) fn nearest(&mut self, order: Order, key: u64) -> (Outcome, Entry) {
        let mut entry = Entry::default();
        let nearest: Nearest = match order {
            Order::Ascending => nm_map_at_least,
            Order::Descending => nm_map_at_most,
        };
        // SAFETY: the handle exists, and `self` and the places are borrowed for this call.
        let outcome = self.by(|worker, options| unsafe {
            nearest(worker, key, options, &mut entry.key, &mut entry.value)
        });
        (outcome, entry)
    }

    /// Finds the least key that is below a bound, after a wait for one.
    pub(crate) fn wait_first(&mut self, below: u64, timeout_ms: u32) -> (Outcome, Entry) {
        let mut entry = Entry::default();
        let counts = self.map.counts.0.as_ptr();
        // SAFETY: the handle and the counts exist, and `self` and the places are borrowed for this
        // call.
        let outcome = self.by(|worker, options| unsafe {
            let (key, value) = (&mut entry.key, &mut entry.value);
            nm_map_wait_first(worker, below, options, counts, key, value, timeout_ms)
        });
        (outcome, entry)
    }

    /// Reads at most `room` keys from `low` to `high`, in an order. Returns the outcome, the keys,
    /// and where the next call goes on: at a key, or in descending order below one.
    pub(crate) fn read_keys(
        &mut self,
        order: Order,
        range: (u64, u64),
        room: usize,
    ) -> (Outcome, Vec<u64>, u64) {
        self.read(
            match order {
                Order::Ascending => nm_map_read_keys,
                Order::Descending => nm_map_read_keys_back,
            },
            range,
            room,
        )
    }

    /// Reads keys with the words of their values, in the same way.
    pub(crate) fn read_entries(
        &mut self,
        order: Order,
        range: (u64, u64),
        room: usize,
    ) -> (Outcome, Vec<Entry>, u64) {
        self.read(
            match order {
                Order::Ascending => nm_map_read_entries,
                Order::Descending => nm_map_read_entries_back,
            },
            range,
            room,
        )
    }

    /// Reads a range by a call of C.
    fn read<T: Copy + Default>(
        &mut self,
        read: Read<T>,
        (low, high): (u64, u64),
        room: usize,
    ) -> (Outcome, Vec<T>, u64) {
        let mut block = vec![T::default(); room];
        let (mut count, mut next) = (0, low);
        let first = block.as_mut_ptr();
        // SAFETY: the handle exists, and all is borrowed for this call. `first` has room for so
        // many.
        let outcome = self.by(|worker, options| unsafe {
            read(
                worker,
                low,
                high + 1,
                first,
                room,
                &mut count,
                &mut next,
                options,
            )
        });
        block.truncate(count);
        (outcome, block, next)
    }

    /// Looks up several keys. Returns the outcome, and for each key the word of its value if the map
    /// has it.
    pub(crate) fn get_many(&mut self, keys: &[u64]) -> (Outcome, Vec<Option<u64>>) {
        // SAFETY: the handle exists, and `self` and the lookups are borrowed for this call.
        looked_up(keys, |lookups, count| {
            self.by(|worker, options| unsafe { nm_map_get_many(worker, lookups, count, options) })
        })
    }

    /// Counts the keys from `low` to `high`.
    pub(crate) fn count(&mut self, (low, high): (u64, u64)) -> (Outcome, u64) {
        let mut count = 0;
        // SAFETY: the handle exists, and `self` and the place are borrowed for this call.
        let outcome = self.by(|worker, options| unsafe {
            nm_map_count(worker, low, high + 1, &mut count, options)
        });
        (outcome, count)
    }

    /// Frees what came back. Returns the outcome, how many values these are, and the number of the
    /// worker that holds back others, or `u32::MAX`.
    pub(crate) fn reclaim(&mut self) -> (Outcome, u64, u32) {
        let (mut taken, mut behind) = (Taken::default(), u32::MAX);
        // SAFETY: the handle exists, and `self` is borrowed. `release` gets words of this storage.
        let outcome = taken.by(|context| {
            self.by(|worker, _| unsafe {
                let counts = self.map.counts.0.as_ptr();
                nm_map_take_back(worker, counts, release::<S>, context, &mut behind)
            })
        });
        let values = taken.values;
        taken.resume();
        (outcome, values, behind)
    }

    /// Writes the key of a remove that is pending.
    pub(crate) fn pending(&mut self, key: &mut u64) -> Outcome {
        // SAFETY: the handle exists, and `self` and the place are borrowed for this call.
        self.by(|worker, _| unsafe { nm_map_pending(worker, key) })
    }

    pub(crate) fn number(&self) -> u32 {
        self.number
    }

    /// Returns how many nodes wait with the worker.
    pub(crate) fn waiting(&mut self) -> u64 {
        let mut nodes = 0;
        // SAFETY: the handle exists, and `self` is borrowed.
        self.by(|worker, _| unsafe { nm_map_queue_len(worker, &mut nodes) });
        nodes
    }
}

impl<S: Storage> Drop for WorkerHandle<'_, S> {
    fn drop(&mut self) {
        let mut taken = Taken::default();
        // SAFETY: the handle exists, and no other call has it. `release` gets words of this storage.
        // The pin is one whose `Pinned` was forgotten; nothing that it returned is used any more.
        taken.by(|context| {
            self.by(|worker, _| unsafe {
                nm_map_unpin(worker);
                let mut waiting = 0;
                nm_map_queue_len(worker, &mut waiting);
                let counts = self.map.counts.0.as_ptr();
                if waiting != 0 {
                    nm_map_take_back(worker, counts, release::<S>, context, null_mut());
                }
                nm_map_return(counts, worker);
                nm_drop(worker) // if it was not returned
            })
        });
        taken.resume();
    }
}

/// Looks up keys by a call of C. Returns its outcome, and the words that it found. A look-up that was
/// not made has not found its key.
fn looked_up(
    keys: &[u64],
    look_up: impl FnOnce(*mut Lookup, usize) -> Outcome,
) -> (Outcome, Vec<Option<u64>>) {
    let of = |&key| Lookup {
        key,
        found: 0,
        value: 0,
    };
    let mut lookups: Vec<Lookup> = keys.iter().map(of).collect();
    let outcome = look_up(lookups.as_mut_ptr(), lookups.len());
    let found = |lookup: &Lookup| (lookup.found == 1).then_some(lookup.value);
    (outcome, lookups.iter().map(found).collect())
}

impl WorkerHandle<'_, InPlace> {
    /// Gives a key a word; returns what became of it, in words.
    pub(crate) fn give_word(&mut self, key: u64, change: Change, new: u64) -> Given<u64, u64> {
        let mut old = 0;
        let (outcome, left) = self.give(key, change, new, &mut old);
        Given::of(outcome, left, new, old, |word| word)
    }
}

/// A worker that is pinned, until this is dropped.
pub(crate) struct Pinned<'w, 'a, V> {
    worker: &'w mut WorkerHandle<'a, Boxed<V>>,
    epoch: u64,
}

impl<'w, 'a, V> Pinned<'w, 'a, V> {
    /// Pins a worker, or returns the outcome of an error.
    pub(crate) fn new(
        worker: &'w mut WorkerHandle<'a, Boxed<V>>,
    ) -> Result<Pinned<'w, 'a, V>, Outcome> {
        let mut epoch = 0;
        // SAFETY: the handle exists, and the worker is borrowed.
        let outcome = worker
            .by(|handle, options| unsafe { nm_map_hold(handle, options, addr_of_mut!(epoch)) });
        if outcome < 0 {
            return Err(outcome);
        }
        Ok(Pinned { worker, epoch })
    }

    pub(crate) fn epoch(&self) -> u64 {
        self.epoch
    }

    /// Returns the outcome of a look-up, and the value of the key if the map has it.
    pub(crate) fn get(&self, key: u64) -> (Outcome, Option<&V>) {
        let mut value = 0;
        // SAFETY: the handle exists. No other call has it, because neither `Pinned` nor the worker
        // is `Sync`.
        let outcome = self
            .worker
            .by(|handle, _| unsafe { nm_map_get_pinned(handle, key, &mut value) });
        // SAFETY: the pointer is of a box that the map owns. It does not come back before the
        // unpin, which is in the drop of `self`, and the reference has `self` borrowed.
        let found = (outcome == YES).then(|| unsafe { &*object::<V>(value) });
        (outcome, found)
    }

    /// Looks up several keys. Returns the outcome, and for each key its value if the map has it.
    pub(crate) fn get_many(&self, keys: &[u64]) -> (Outcome, Vec<Option<&V>>) {
        // SAFETY: as in `get`. The lookups are borrowed for this call.
        let (outcome, words) = looked_up(keys, |lookups, count| {
            self.worker
                .by(|handle, _| unsafe { nm_map_get_many_pinned(handle, lookups, count) })
        });
        // SAFETY: as in `get`.
        let value = |word: Option<u64>| word.map(|word| unsafe { &*object::<V>(word) });
        (outcome, words.into_iter().map(value).collect())
    }
}

impl<V> Drop for Pinned<'_, '_, V> {
    fn drop(&mut self) {
        // SAFETY: the handle exists, and the worker is borrowed. No reference of `get` is left, nor
        // of a `Guarded`.
        self.worker.by(|handle, _| unsafe { nm_map_unpin(handle) });
    }
}

#[cfg(test)]
mod tests {
    use super::super::forking;
    use crate::{CopyMap, Fault, InsertError, Map, PutError};
    use std::sync::atomic::{AtomicU64, Ordering::SeqCst};
    use std::sync::Arc;

    /// A value that counts its drop.
    struct Counted(Arc<AtomicU64>);

    impl Drop for Counted {
        fn drop(&mut self) {
            self.0.fetch_add(1, SeqCst);
        }
    }

    #[test]
    fn a_forked_child_makes_no_call_and_drops_no_value() {
        let dropped = Arc::new(AtomicU64::new(0));
        let map = Map::new(256, 3).unwrap();
        let (mut reader, mut worker) = (map.attach().unwrap(), map.attach().unwrap());
        for key in 0..10 {
            assert!(worker.insert(key, Counted(Arc::clone(&dropped))).is_ok());
        }
        assert_eq!(worker.remove(3), Ok(true));
        let guard = reader.pin().unwrap();
        // SAFETY: the child only makes calls that are refused, and ends.
        let child = unsafe { forking::child() };
        if child == 0 {
            let error = worker
                .insert(20, Counted(Arc::clone(&dropped)))
                .unwrap_err();
            let unput = worker.put(5, Counted(Arc::clone(&dropped))).unwrap_err();
            let mut is_right = map.attach().err() == Some(Fault::Forked)
                && map.len() == Err(Fault::Forked)
                && error.fault() == Some(Fault::Forked)
                && unput.fault() == Some(Fault::Forked)
                && guard.get(5).err() == Some(Fault::Forked)
                && guard.get_many(&[5]).err() == Some(Fault::Forked)
                && worker.remove(5) == Err(Fault::Forked)
                && worker.pop_first() == Err(Fault::Forked)
                && worker.reclaim().err() == Some(Fault::Forked)
                && worker.range(..).next() == Some(Err(Fault::Forked))
                && worker.under(&guard).unwrap().first().err() == Some(Fault::Forked);
            std::mem::forget::<(InsertError<Counted>, PutError<Counted>)>((error, unput));
            drop((guard, worker));
            drop(reader);
            drop(map);
            is_right &= dropped.load(SeqCst) == 0;
            forking::end(is_right);
        }
        forking::must_be_right(child);
        assert!(guard.get(5).unwrap().is_some());
        drop(guard);
        assert_eq!((worker.remove(5), map.len()), (Ok(true), Ok(8)));
        drop((reader, worker));
        drop(map);
        assert_eq!(dropped.load(SeqCst), 10);
    }

    #[test]
    fn a_forked_child_makes_no_call_by_values_in_place() {
        let map = CopyMap::from([(5, 50)]);
        let mut worker = map.attach().unwrap();
        // SAFETY: the child only makes calls that are refused, and ends.
        let child = unsafe { forking::child() };
        if child == 0 {
            let is_right = worker.get(5) == Err(Fault::Forked)
                && worker.get_many(&[5]) == Err(Fault::Forked)
                && worker.put(5, 51) == Err(PutError::Fault(Fault::Forked, 51))
                && worker.update(5, |_| 51) == Err(Fault::Forked)
                && worker.remove(5) == Err(Fault::Forked)
                && worker.compare_remove(5, 50) == Err(Fault::Forked)
                && worker.range(..).next() == Some(Err(Fault::Forked))
                && map.len() == Err(Fault::Forked);
            forking::end(is_right);
        }
        forking::must_be_right(child);
        assert_eq!(worker.remove(5), Ok(Some(50)));
    }
}
