//! The functions of `nm_pool.h` and `nm_set.h`, and the one place with `unsafe`: a [`Pool`], a
//! [`ReportHandle`] and, in [`map`], a map and its workers. They meet the conditions that the headers
//! ask of their callers.
//!
//! What the headers ask, and why it holds here:
//!
//! - *A pool is not used after its `nm_pool_free`.* Only the drop of a [`Pool`] calls that.
//! - *A handle is all zero before its first use, and only the library writes it.* The handles of
//!   workers are in the pool. That of a report begins as null, and its field is private.
//! - *Pointers are to places of their type that no other call is using, and two parameters are at
//!   different places.* They are made from `&mut`, and from `&` if the library only reads.
//! - *An open handle is not lost.* A dropped `ReportHandle` gives up what it owns.
//!
//! If two calls have one worker at the same time, the library refuses the second one, which then
//! touches nothing. The pool, or [`Pool::by`] here, repeats it.

pub(crate) mod map;

use std::ffi::{c_char, c_int};
use std::panic::{RefUnwindSafe, UnwindSafe};
use std::ptr::{null_mut, NonNull};

/// In place of the number of a worker: any worker that can make the call.
pub(crate) const ANY: u32 = u32::MAX;

/// In place of the number of nodes: the set grows.
pub(crate) const GROWS: u64 = u64::MAX;

/// `nm_handle`: a pointer that is null or owns a set, a worker or a report, and whether a call has
/// the handle.
#[repr(C)]
pub(crate) struct Word {
    at: *mut u8,
    in_use: u64,
}

impl Word {
    /// Returns a closed handle.
    fn closed() -> Word {
        Word {
            at: null_mut(),
            in_use: 0,
        }
    }
}

/// `nm_pool`, of which only the library knows the fields.
#[repr(C)]
struct RawPool {
    _private: [u8; 0],
}

/// How a pool is made: `nm_pool_options`.
#[repr(C)]
pub(crate) struct PoolOptions {
    pub workers: u32,
    pub shape: u32,
    pub tries: u32,
    pub rounds: u32,
    pub collect_after: u32,
}

/// How full a set is: `nm_fullness`.
#[repr(C)]
#[derive(Clone, Copy, Default)]
pub(crate) struct Fullness {
    pub nodes: u64,
    pub keys: u64,
    pub waiting: u64,
    pub free: u64,
    pub unasked: u64,
    pub behind: u64,
    pub hindering: u64,
}

/// What is full.
#[derive(Clone, Copy)]
pub(crate) enum Filled {
    Set,
    Map,
}

/// Returns what a fullness says after an insert that found no nodes.
pub(crate) fn full_words(what: Filled, fullness: &Fullness) -> String {
    let mut text = [0_u8; 640];
    let words = match what {
        Filled::Set => nm_full_words,
        Filled::Map => nm_map_full_words,
    };
    // SAFETY: both places are borrowed for this call, and the text has this size.
    unsafe { words(fullness, text.as_mut_ptr().cast(), text.len()) };
    let end = text.iter().position(|&byte| byte == 0);
    String::from_utf8_lossy(&text[..end.unwrap_or(text.len())]).into_owned()
}

/// One wait of `nm_pool_again`, all zero before it begins: `nm_pool_wait`.
#[repr(C)]
#[derive(Default)]
struct PoolWait {
    end: u64,
    pause: u32,
    looks: u32,
    ended: u32,
}

/// What a worker has won, and what became of the nodes that it cut off: `nm_stats`.
#[repr(C)]
#[derive(Clone, Copy, Debug, Default, PartialEq, Eq)]
pub struct Stats {
    /// The links that it has won: one for each key that it inserted.
    pub links: u64,
    /// The flags that it has won: one for each key that it removed, a pending one included.
    pub flags: u64,
    /// The splices that it has won, each of which cuts off one or more keys.
    pub splices: u64,
    /// The nodes that its splices cut off.
    pub retired: u64,
    /// Those of them that were freed.
    pub freed: u64,
    /// Those of them that wait.
    pub queued: u64,
}

/// What a managed call may spend: `nm_options`.
#[repr(C)]
#[derive(Clone, Copy)]
pub(crate) struct CallOptions {
    pub tries: u32,
    pub rounds: u32,
    pub collect_after: u32,
}

/// A key that is looked up beside others, and whether the set had it: `nm_lookup`.
#[repr(C)]
#[derive(Clone, Copy)]
pub(crate) struct Lookup {
    pub key: u64,
    /// 1 if the set had the key, else 0.
    pub found: u64,
}

/// A node that waited in a worker's queue when the set was closed: `nm_waiting`.
#[repr(C)]
#[derive(Clone, Copy, Debug, Default, PartialEq, Eq)]
pub struct Waiting {
    /// The slot of the node.
    pub slot: u64,
    /// How often the slot had been put to use when the node was made.
    pub generation: u64,
    /// The epoch that the worker read after it cut the node off.
    pub label: u64,
}

extern "C" {
    fn nm_pool_new(pool: *mut *mut RawPool, nodes: u64, options: *const PoolOptions) -> c_int;
    fn nm_pool_close(
        pool: *mut RawPool,
        timeout_ms: u32,
        report: *mut Word,
        missing: *mut u64,
    ) -> c_int;
    fn nm_pool_free(pool: *mut RawPool);
    fn nm_pool_contains(pool: *mut RawPool, worker: u32, key: u64, timeout_ms: u32) -> c_int;
    fn nm_pool_insert(pool: *mut RawPool, worker: u32, key: u64, timeout_ms: u32) -> c_int;
    fn nm_pool_remove(pool: *mut RawPool, worker: u32, key: u64, timeout_ms: u32) -> c_int;
    fn nm_pool_pop_first(pool: *mut RawPool, worker: u32, taken: *mut u64, ms: u32) -> c_int;
    fn nm_pool_pop_last(pool: *mut RawPool, worker: u32, taken: *mut u64, ms: u32) -> c_int;
    fn nm_pool_pop_first_below(
        pool: *mut RawPool,
        worker: u32,
        below: u64,
        taken: *mut u64,
        timeout_ms: u32,
    ) -> c_int;
    fn nm_pool_pop_last_from(
        pool: *mut RawPool,
        worker: u32,
        from: u64,
        taken: *mut u64,
        timeout_ms: u32,
    ) -> c_int;
    fn nm_pool_pop_first_many(
        pool: *mut RawPool,
        worker: u32,
        below: u64,
        keys: *mut u64,
        room: usize,
        count: *mut usize,
        timeout_ms: u32,
    ) -> c_int;
    fn nm_pool_wait_pop(
        pool: *mut RawPool,
        worker: u32,
        below: u64,
        taken: *mut u64,
        timeout_ms: u32,
    ) -> c_int;
    fn nm_pool_wait_first(
        pool: *mut RawPool,
        worker: u32,
        below: u64,
        found: *mut u64,
        timeout_ms: u32,
    ) -> c_int;
    fn nm_pool_next(pool: *mut RawPool, worker: u32, key: u64, found: *mut u64, ms: u32) -> c_int;
    fn nm_pool_prev(pool: *mut RawPool, worker: u32, key: u64, found: *mut u64, ms: u32) -> c_int;
    fn nm_pool_contains_many(
        pool: *mut RawPool,
        worker: u32,
        lookups: *mut Lookup,
        count: usize,
        timeout_ms: u32,
    ) -> c_int;
    fn nm_pool_scan(
        pool: *mut RawPool,
        worker: u32,
        from: u64,
        below: u64,
        keys: *mut u64,
        room: usize,
        count: *mut usize,
        next: *mut u64,
        timeout_ms: u32,
    ) -> c_int;
    fn nm_pool_scan_back(
        pool: *mut RawPool,
        worker: u32,
        below: u64,
        from: u64,
        keys: *mut u64,
        room: usize,
        count: *mut usize,
        next: *mut u64,
        timeout_ms: u32,
    ) -> c_int;
    fn nm_pool_count(
        pool: *mut RawPool,
        worker: u32,
        from: u64,
        below: u64,
        count: *mut u64,
        timeout_ms: u32,
    ) -> c_int;
    fn nm_pool_insert_many(
        pool: *mut RawPool,
        worker: u32,
        keys: *const u64,
        count: usize,
        answers: *mut u8,
        done: *mut usize,
        timeout_ms: u32,
    ) -> c_int;
    fn nm_pool_remove_many(
        pool: *mut RawPool,
        worker: u32,
        keys: *const u64,
        count: usize,
        answers: *mut u8,
        done: *mut usize,
        timeout_ms: u32,
    ) -> c_int;
    fn nm_pool_try_insert(pool: *mut RawPool, worker: u32, key: u64, tries: u32, ms: u32) -> c_int;
    fn nm_pool_try_remove(pool: *mut RawPool, worker: u32, key: u64, tries: u32, ms: u32) -> c_int;
    fn nm_pool_size(pool: *mut RawPool, keys: *mut u64) -> c_int;
    fn nm_pool_fullness(pool: *mut RawPool, fullness: *mut Fullness) -> c_int;
    fn nm_pool_growths(pool: *mut RawPool, count: *mut u64, longest_ns: *mut u64) -> c_int;
    fn nm_full_words(fullness: *const Fullness, text: *mut c_char, size: usize) -> *const c_char;
    fn nm_map_full_words(
        fullness: *const Fullness,
        text: *mut c_char,
        size: usize,
    ) -> *const c_char;
    fn nm_pool_collect(pool: *mut RawPool, freed: *mut u64) -> c_int;
    fn nm_pool_reserve(pool: *mut RawPool, keys: u64, ms: u32, missing: *mut u64) -> c_int;
    fn nm_pool_shrink_to_fit(pool: *mut RawPool, ms: u32, missing: *mut u64) -> c_int;
    fn nm_pool_nodes(pool: *const RawPool) -> u64;
    fn nm_pool_workers(pool: *const RawPool) -> u32;
    fn nm_pool_call_options(pool: *const RawPool) -> *const CallOptions;
    fn nm_pool_attach(pool: *mut RawPool, worker: *mut u32, timeout_ms: u32) -> c_int;
    fn nm_pool_attach_number(pool: *mut RawPool, number: u32, worker: *mut u32, ms: u32) -> c_int;
    fn nm_pool_detach(pool: *mut RawPool, worker: *mut u32, timeout_ms: u32) -> c_int;
    fn nm_pool_handle(pool: *mut RawPool, worker: u32) -> *mut Word;
    fn nm_pool_again(
        pool: *mut RawPool,
        worker: u32,
        wait: *mut PoolWait,
        outcome: c_int,
        timeout_ms: u32,
    ) -> c_int;
    fn nm_drop(handle: *mut Word) -> c_int;
    fn nm_worker_try_contains(worker: *mut Word, key: u64, tries: u32) -> c_int;
    fn nm_worker_contains_many(
        worker: *mut Word,
        lookups: *mut Lookup,
        count: usize,
        tries: u32,
    ) -> c_int;
    fn nm_worker_next(worker: *mut Word, key: u64, tries: u32, found: *mut u64) -> c_int;
    fn nm_worker_prev(worker: *mut Word, key: u64, tries: u32, found: *mut u64) -> c_int;
    fn nm_worker_finish(worker: *mut Word, tries: u32) -> c_int;
    fn nm_worker_pin(worker: *mut Word, tries: u32, epoch: *mut u64) -> c_int;
    fn nm_worker_unpin(worker: *mut Word) -> c_int;
    fn nm_worker_advance(worker: *mut Word, epoch: *mut u64, behind: *mut u32) -> c_int;
    fn nm_worker_behind(worker: *mut Word, epoch: *mut u64, mask: *mut u64) -> c_int;
    fn nm_worker_collect(worker: *mut Word, epoch: *mut u64, freed: *mut u64) -> c_int;
    fn nm_worker_pending(worker: *mut Word, key: *mut u64) -> c_int;
    fn nm_worker_stats(worker: *mut Word, stats: *mut Stats) -> c_int;
    fn nm_worker_publish(worker: *mut Word, inserted: *mut u64, removed: *mut u64) -> c_int;
    fn nm_worker_observe(
        worker: *mut Word,
        number: u32,
        inserted: *mut u64,
        removed: *mut u64,
    ) -> c_int;
    fn nm_report_slots(report: *mut Word, free: *mut u32, reached: *mut u32) -> c_int;
    fn nm_report_keys(report: *mut Word, count: *mut u64) -> c_int;
    fn nm_report_key(report: *mut Word, index: u64, key: *mut u64) -> c_int;
    fn nm_report_waiting(report: *mut Word, worker: u32, waiting: *mut Waiting) -> c_int;
}

/// The outcome of a call, a number of `nm_outcome`: an answer, 0 or above, or an error, below 0.
pub(crate) type Outcome = c_int;

/// The order in which a scan reads keys.
#[derive(Clone, Copy, Debug, PartialEq, Eq)]
pub(crate) enum Order {
    Ascending,
    Descending,
}

/// Where a scan writes: keys, how many it wrote, and where the next scan goes on.
pub(crate) struct Block {
    pub keys: Vec<u64>,
    pub count: usize,
    pub next: u64,
}

/// What a call does with each of several keys.
#[derive(Clone, Copy, Debug, PartialEq, Eq)]
pub(crate) enum Change {
    Insert,
    Remove,
}

/// A pool that threads share. Its set ends when it is dropped.
pub(crate) struct Pool(NonNull<RawPool>);

// SAFETY: each function of a pool may be called by any thread, and by several at the same time. Only
// the drop calls `nm_pool_free`, when no other thread has the pool.
unsafe impl Send for Pool {}
// SAFETY: as above.
unsafe impl Sync for Pool {}

// No call of the library unwinds, so that a panic never comes in the middle of one.
impl UnwindSafe for Pool {}
impl RefUnwindSafe for Pool {}

/// Makes safe methods that each call a function of the pool.
macro_rules! pool_calls {
    ($($name:ident = $function:ident($($parameter:ident: $type:ty),*);)*) => {
        $(pub(crate) fn $name(&self, $($parameter: $type),*) -> Outcome {
            // SAFETY: the pool exists as long as `self`. Each place to write is borrowed for this
            // call alone, so it is valid and apart from the others.
            unsafe { $function(self.0.as_ptr(), $($parameter),*) }
        })*
    };
}

/// Makes safe methods that each call a function with the handle of an attached worker, and repeat it
/// while another call has the worker, for at most `timeout_ms` milliseconds.
macro_rules! worker_calls {
    ($($name:ident = $function:ident($($parameter:ident: $type:ty),*);)*) => {
        $(pub(crate) fn $name(&self, worker: u32, $($parameter: $type,)* timeout_ms: u32) -> Outcome {
            // SAFETY: the handle is that of a worker of this pool, or a closed one. If another call
            // has it, the library touches nothing. Each place to write is borrowed for this call.
            self.by(worker, timeout_ms, |handle| unsafe { $function(handle, $($parameter),*) })
        })*
    };
}

impl Pool {
    /// Makes a pool with room for this many nodes, or [`GROWS`]. Returns the outcome of an error.
    pub(crate) fn new(nodes: u64, options: &PoolOptions) -> Result<Pool, Outcome> {
        let mut pool = null_mut();
        // SAFETY: both places are borrowed for this call.
        let outcome = unsafe { nm_pool_new(&mut pool, nodes, options) };
        NonNull::new(pool).map(Pool).ok_or(outcome)
    }

    pool_calls! {
        contains = nm_pool_contains(worker: u32, key: u64, timeout_ms: u32);
        insert = nm_pool_insert(worker: u32, key: u64, timeout_ms: u32);
        remove = nm_pool_remove(worker: u32, key: u64, timeout_ms: u32);
        pop_first = nm_pool_pop_first(worker: u32, taken: &mut u64, timeout_ms: u32);
        pop_last = nm_pool_pop_last(worker: u32, taken: &mut u64, timeout_ms: u32);
        pop_first_below = nm_pool_pop_first_below(
            worker: u32, below: u64, taken: &mut u64, timeout_ms: u32
        );
        pop_last_from = nm_pool_pop_last_from(
            worker: u32, from: u64, taken: &mut u64, timeout_ms: u32
        );
        wait_pop = nm_pool_wait_pop(worker: u32, below: u64, taken: &mut u64, timeout_ms: u32);
        wait_first = nm_pool_wait_first(worker: u32, below: u64, found: &mut u64, timeout_ms: u32);
        reserve = nm_pool_reserve(keys: u64, timeout_ms: u32, missing: &mut u64);
        shrink_to_fit = nm_pool_shrink_to_fit(timeout_ms: u32, missing: &mut u64);
        next = nm_pool_next(worker: u32, key: u64, found: &mut u64, timeout_ms: u32);
        prev = nm_pool_prev(worker: u32, key: u64, found: &mut u64, timeout_ms: u32);
        try_insert = nm_pool_try_insert(worker: u32, key: u64, tries: u32, timeout_ms: u32);
        try_remove = nm_pool_try_remove(worker: u32, key: u64, tries: u32, timeout_ms: u32);
        count = nm_pool_count(
            worker: u32, from: u64, below: u64, count: &mut u64, timeout_ms: u32
        );
        size = nm_pool_size(keys: &mut u64);
        fullness = nm_pool_fullness(fullness: &mut Fullness);
        growths = nm_pool_growths(count: &mut u64, longest_ns: &mut u64);
        collect_all = nm_pool_collect(freed: &mut u64);
        attach = nm_pool_attach(worker: &mut u32, timeout_ms: u32);
        attach_number = nm_pool_attach_number(number: u32, worker: &mut u32, timeout_ms: u32);
        detach = nm_pool_detach(worker: &mut u32, timeout_ms: u32);
    }

    worker_calls! {
        try_contains = nm_worker_try_contains(key: u64, tries: u32);
        try_next = nm_worker_next(key: u64, tries: u32, found: &mut u64);
        try_prev = nm_worker_prev(key: u64, tries: u32, found: &mut u64);
        finish = nm_worker_finish(tries: u32);
        pin = nm_worker_pin(tries: u32, epoch: &mut u64);
        unpin = nm_worker_unpin();
        advance = nm_worker_advance(epoch: &mut u64, behind: &mut u32);
        behind = nm_worker_behind(epoch: &mut u64, mask: &mut u64);
        collect = nm_worker_collect(epoch: &mut u64, freed: &mut u64);
        pending = nm_worker_pending(key: &mut u64);
        stats = nm_worker_stats(stats: &mut Stats);
        publish = nm_worker_publish(inserted: &mut u64, removed: &mut u64);
        observe = nm_worker_observe(number: u32, inserted: &mut u64, removed: &mut u64);
    }

    /// Makes a call by the handle of an attached worker, and repeats it while another call has the
    /// worker.
    fn by(
        &self,
        worker: u32,
        timeout_ms: u32,
        mut call: impl FnMut(*mut Word) -> Outcome,
    ) -> Outcome {
        let (pool, mut wait) = (self.0.as_ptr(), PoolWait::default());
        loop {
            // SAFETY: the pool exists as long as `self`.
            let outcome = call(unsafe { nm_pool_handle(pool, worker) });
            // SAFETY: as above; the wait is borrowed for this call.
            if unsafe { nm_pool_again(pool, worker, &mut wait, outcome, timeout_ms) } == 0 {
                return outcome;
            }
        }
    }

    /// Reads keys in an order into a block, from its `next` on, up to the other end of the range.
    pub(crate) fn scan(
        &self,
        worker: u32,
        order: Order,
        (from, below): (u64, u64),
        block: &mut Block,
        timeout_ms: u32,
    ) -> Outcome {
        let Block { keys, count, next } = block;
        let (pool, first, room) = (self.0.as_ptr(), keys.as_mut_ptr(), keys.len());
        let scan = match order {
            Order::Ascending => nm_pool_scan,
            Order::Descending => nm_pool_scan_back,
        };
        let (begin, end) = match order {
            Order::Ascending => (from, below),
            Order::Descending => (below, from),
        };
        // SAFETY: the pool exists as long as `self`. The block is borrowed for this call alone, and
        // `first` is not null, even if there is no room.
        unsafe {
            scan(
                pool, worker, begin, end, first, room, count, next, timeout_ms,
            )
        }
    }

    /// Removes the least keys below a bound, as many as there is room for. Returns the outcome, and
    /// the number of keys.
    pub(crate) fn pop_first_many(
        &self,
        worker: u32,
        below: u64,
        keys: &mut [u64],
        timeout_ms: u32,
    ) -> (Outcome, usize) {
        let (first, room, mut count) = (keys.as_mut_ptr(), keys.len(), 0);
        let pool = self.0.as_ptr();
        // SAFETY: the pool exists as long as `self`. The slice is borrowed for this call alone.
        let outcome = unsafe {
            nm_pool_pop_first_many(pool, worker, below, first, room, &mut count, timeout_ms)
        };
        (outcome, count)
    }

    /// Looks up several keys.
    pub(crate) fn contains_many(&self, worker: u32, lookups: &mut [Lookup], ms: u32) -> Outcome {
        let (first, count) = (lookups.as_mut_ptr(), lookups.len());
        // SAFETY: the slice is borrowed for this call alone.
        unsafe { nm_pool_contains_many(self.0.as_ptr(), worker, first, count, ms) }
    }

    /// Inserts or removes several keys, and writes 1 or 0 to the answer of each. Returns the
    /// outcome, and how many have their answers.
    pub(crate) fn change_many(
        &self,
        worker: u32,
        change: Change,
        keys: &[u64],
        answers: &mut [u8],
        timeout_ms: u32,
    ) -> (Outcome, usize) {
        assert_eq!(keys.len(), answers.len());
        let mut done = 0;
        let call = match change {
            Change::Insert => nm_pool_insert_many,
            Change::Remove => nm_pool_remove_many,
        };
        let (first, bytes, count) = (keys.as_ptr(), answers.as_mut_ptr(), keys.len());
        // SAFETY: the pool exists as long as `self`. There is a byte for each key, and all of it is
        // borrowed for this call alone.
        let outcome = unsafe {
            call(
                self.0.as_ptr(),
                worker,
                first,
                count,
                bytes,
                &mut done,
                timeout_ms,
            )
        };
        (outcome, done)
    }

    /// Looks up several keys by an attached worker, with a number of tries.
    pub(crate) fn try_contains_many(
        &self,
        worker: u32,
        lookups: &mut [Lookup],
        tries: u32,
        timeout_ms: u32,
    ) -> Outcome {
        let (first, count) = (lookups.as_mut_ptr(), lookups.len());
        // SAFETY: see `worker_calls`. The slice is borrowed for this call alone, and its pointer is
        // not null, even if the slice is empty.
        let call = |handle| unsafe { nm_worker_contains_many(handle, first, count, tries) };
        self.by(worker, timeout_ms, call)
    }

    /// Ends the set. Returns the outcome, and which workers are missing.
    pub(crate) fn close(&self, timeout_ms: u32, report: &mut ReportHandle) -> (Outcome, u64) {
        let mut missing = 0;
        // SAFETY: both places are borrowed for this call.
        let outcome =
            unsafe { nm_pool_close(self.0.as_ptr(), timeout_ms, &mut report.0, &mut missing) };
        (outcome, missing)
    }

    /// Returns the number of nodes for which the set has room.
    pub(crate) fn nodes(&self) -> u64 {
        // SAFETY: the pool exists as long as `self`.
        unsafe { nm_pool_nodes(self.0.as_ptr()) }
    }

    /// Returns how many workers the set has.
    pub(crate) fn workers(&self) -> u32 {
        // SAFETY: the pool exists as long as `self`.
        unsafe { nm_pool_workers(self.0.as_ptr()) }
    }

    /// Returns the bounds of managed calls.
    pub(crate) fn call_options(&self) -> CallOptions {
        // SAFETY: the options are a part of the pool, which never writes them again.
        unsafe { *nm_pool_call_options(self.0.as_ptr()) }
    }

    /// Makes a worker look as if a thread stopped in the middle of a call by it, or as if that call
    /// ended.
    #[cfg(test)]
    pub(crate) fn set_in_use(&self, worker: u32, is_in_use: bool) {
        use std::sync::atomic::{AtomicU64, Ordering};
        // SAFETY: the word exists as long as the pool, and all threads change it by atomic steps.
        let in_use = unsafe {
            let handle = nm_pool_handle(self.0.as_ptr(), worker);
            &*std::ptr::addr_of_mut!((*handle).in_use).cast::<AtomicU64>()
        };
        in_use.store(is_in_use.into(), Ordering::SeqCst);
    }
}

impl Drop for Pool {
    fn drop(&mut self) {
        // SAFETY: no other thread has the pool, and no worker of it is used later: each has the
        // pool.
        unsafe { nm_pool_free(self.0.as_ptr()) }
    }
}

/// The handle of a report, which gives up the report when it is dropped.
pub(crate) struct ReportHandle(Word);

/// Makes safe methods that each call a function with the handle of a report.
macro_rules! report_calls {
    ($($name:ident = $function:ident($($parameter:ident: $type:ty),*);)*) => {
        $(pub(crate) fn $name(&mut self, $($parameter: $type),*) -> Outcome {
            // SAFETY: the handle and each place to write are borrowed for this call alone.
            unsafe { $function(&mut self.0, $($parameter),*) }
        })*
    };
}

impl ReportHandle {
    /// Returns a closed handle.
    pub(crate) fn closed() -> ReportHandle {
        ReportHandle(Word::closed())
    }

    report_calls! {
        slots = nm_report_slots(free: &mut u32, reached: &mut u32);
        keys = nm_report_keys(count: &mut u64);
        key = nm_report_key(index: u64, key: &mut u64);
        waiting = nm_report_waiting(worker: u32, waiting: &mut Waiting);
    }
}

impl Drop for ReportHandle {
    fn drop(&mut self) {
        // SAFETY: the handle is borrowed for this call alone.
        unsafe { nm_drop(&mut self.0) };
    }
}

/// Forked children of a test.
#[cfg(test)]
mod forking {
    use std::ffi::c_int;

    extern "C" {
        fn fork() -> c_int;
        fn waitpid(child: c_int, status: *mut c_int, options: c_int) -> c_int;
        fn _exit(status: c_int) -> !;
    }

    /// Forks this process. Returns the number of the child, or 0 in the child, which ends by
    /// [`end`].
    ///
    /// # Safety
    ///
    /// The child only makes calls that are refused, and ends.
    pub unsafe fn child() -> c_int {
        // SAFETY: by the condition.
        unsafe { fork() }
    }

    /// Ends the child, and tells its parent whether all was right.
    pub fn end(is_right: bool) -> ! {
        // SAFETY: the child has nothing left to do.
        unsafe { _exit(c_int::from(!is_right)) }
    }

    /// Waits for the child, and panics unless all was right there.
    pub fn must_be_right(child: c_int) {
        let mut status = -1;
        // SAFETY: the place is borrowed for this call.
        assert_eq!(unsafe { waitpid(child, &mut status, 0) }, child);
        assert_eq!(status, 0);
    }
}

#[cfg(test)]
mod tests {
    use super::forking;
    use crate::{Fault, Set};

    #[test]
    fn each_call_in_a_forked_child_is_refused() {
        let set = Set::from([5, 7]);
        let mut worker = set.attach().unwrap();
        // SAFETY: the child only makes calls that are refused, and ends.
        let child = unsafe { forking::child() };
        if child == 0 {
            let is_refused = set.contains(5) == Err(Fault::Forked)
                && worker.insert(6) == Err(Fault::Forked)
                && set.len() == Err(Fault::Forked)
                && worker.stats() == Err(Fault::Forked)
                && set.close().err() == Some(Fault::Forked);
            drop(worker);
            drop(set);
            forking::end(is_refused);
        }
        forking::must_be_right(child);
        assert_eq!((worker.insert(6), set.len()), (Ok(true), Ok(3)));
    }
}
