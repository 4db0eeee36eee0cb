//! The place of a call: the library's pool, and the number of a worker there or any worker.

use crate::fault::{answer, Fault};
use crate::ffi::{
    Block, CallOptions, Change, Fullness, Lookup, Order, Outcome, Pool, ReportHandle, ANY, GROWS,
};
use crate::numbers::Numbers;
use crate::options::Options;
use crate::order::Scanned;
use crate::report::Report;
use std::time::Duration;

/// The outcomes of a pool that concern its workers.
const NODES: Outcome = -6;
const FULL: Outcome = -10;
const UNFINISHED: Outcome = -11;
const PINNED: Outcome = -13;
const ATTACHED: Outcome = -18;
const IN_USE: Outcome = -22;
const NO_WORKER: Outcome = -23;

/// The outcomes of an advance that did not advance the epoch.
const BEHIND: Outcome = -15;
const LOST: Outcome = -16;
const SPENT: Outcome = -17;

/// How long a close, and the end of a worker, wait for other threads' calls, in milliseconds.
const LONGEST: u32 = 10_000;

/// For how many keys a pop of several keys takes memory at a time.
const POPPED: usize = 512;

/// What the clones of a set share.
pub(crate) struct Shared {
    pub pool: Pool,
    pub options: CallOptions,
    pub timeout_ms: u32,
}

/// Returns a time in milliseconds, at most the longest time of a call of the library.
pub(crate) fn millis(timeout: Duration) -> u32 {
    u32::try_from(timeout.as_millis()).unwrap_or(u32::MAX)
}

/// The pool of a set, and the number of a worker there, or [`ANY`].
#[derive(Clone, Copy)]
pub(crate) struct Place<'a> {
    pub shared: &'a Shared,
    pub worker: u32,
}

/// Returns the keys as the library takes them.
pub(crate) fn lookups_of(keys: &[u64]) -> Vec<Lookup> {
    keys.iter().map(|&key| Lookup { key, found: 0 }).collect()
}

/// Returns for each lookup whether the set had the key.
pub(crate) fn found(lookups: &[Lookup]) -> Vec<bool> {
    lookups.iter().map(|lookup| lookup.found != 0).collect()
}

impl Shared {
    /// Makes what the clones of a new set share. Without a number of nodes the set grows.
    pub fn new(nodes: Option<u32>, options: &Options) -> Result<Shared, Fault> {
        let asked = nodes.map_or(GROWS, u64::from);
        let pool = Pool::new(asked, &options.of_pool()).map_err(|outcome| match outcome {
            NODES => Fault::Nodes(asked),
            -7 => Fault::Workers(options.workers),
            _ => Fault::of(outcome),
        })?;
        Ok(Shared {
            options: pool.call_options(),
            pool,
            timeout_ms: options.timeout_ms,
        })
    }

    /// Returns the place of the calls of the set.
    pub fn any(&self) -> Place<'_> {
        self.by(ANY)
    }

    /// Returns the place of the calls of an attached worker.
    pub fn by(&self, worker: u32) -> Place<'_> {
        Place {
            shared: self,
            worker,
        }
    }

    /// Returns how full the set is.
    pub fn fullness(&self) -> Result<Fullness, Fault> {
        let mut fullness = Fullness::default();
        answer(self.pool.fullness(&mut fullness))?;
        Ok(fullness)
    }

    /// Returns how often the set has got a new size, and the longest pause for that.
    pub fn growths(&self) -> Result<(u64, Duration), Fault> {
        let (mut count, mut longest) = (0, 0);
        answer(self.pool.growths(&mut count, &mut longest))?;
        Ok((count, Duration::from_nanos(longest)))
    }

    fn full(&self) -> Fault {
        self.fullness()
            .map_or_else(|fault| fault, |fullness| Fault::Full(fullness.into()))
    }

    pub fn no_worker(&self) -> Fault {
        let workers = self.pool.workers();
        Fault::NoWorker { workers }
    }

    /// Attaches a worker; returns its number.
    pub fn attach(&self, timeout_ms: u32) -> Result<u32, Fault> {
        let mut worker = ANY;
        match self.pool.attach(&mut worker, timeout_ms) {
            NO_WORKER => Err(self.no_worker()),
            outcome => answer(outcome).map(|_| worker),
        }
    }

    /// Attaches the worker of a number.
    pub fn attach_number(&self, number: u32) -> Result<u32, Fault> {
        let (mut worker, workers) = (ANY, self.pool.workers());
        let named = || [number].into_iter().collect();
        if number >= workers {
            return Err(Fault::Number { number, workers });
        }
        match self
            .pool
            .attach_number(number, &mut worker, self.timeout_ms)
        {
            ATTACHED => Err(Fault::Attached(named())),
            IN_USE => Err(Fault::InUse(named())),
            outcome => answer(outcome).map(|_| worker),
        }
    }

    /// Returns a worker to the pool.
    pub fn detach(&self, mut worker: u32) {
        self.pool.detach(&mut worker, LONGEST);
    }

    /// Returns the answer of a call that changes the size, with the workers that prevented it.
    fn sized(&self, outcome: Outcome, missing: u64) -> Result<(), Fault> {
        match outcome {
            PINNED => Err(Fault::PinnedWorkers(Numbers::of(missing))),
            IN_USE => Err(Fault::InUse(Numbers::of(missing))),
            outcome => answer(outcome).map(drop),
        }
    }

    /// Makes room for this many keys.
    pub fn reserve(&self, keys: u64) -> Result<(), Fault> {
        let mut missing = 0;
        match self.pool.reserve(keys, self.timeout_ms, &mut missing) {
            NODES => Err(Fault::Nodes(keys.saturating_mul(2).saturating_add(5))),
            outcome => self.sized(outcome, missing),
        }
    }

    /// Leaves room for the keys, and for one more for each worker.
    pub fn shrink_to_fit(&self) -> Result<(), Fault> {
        let mut missing = 0;
        let outcome = self.pool.shrink_to_fit(self.timeout_ms, &mut missing);
        self.sized(outcome, missing)
    }

    /// Ends the set, and returns its report.
    pub fn end(&self) -> Result<Report, Fault> {
        let mut handle = ReportHandle::closed();
        match self.pool.close(LONGEST, &mut handle) {
            (ATTACHED, missing) => Err(Fault::Attached(Numbers::of(missing))),
            (IN_USE, missing) => Err(Fault::InUse(Numbers::of(missing))),
            (outcome, _) => answer(outcome).map(|_| Report::of(handle, self.pool.workers())),
        }
    }
}

/// The managed calls.
impl Place<'_> {
    /// Returns the answer of a managed call. `Contention`: the bound was reached before the call, or
    /// the remove of an earlier call, was done.
    fn answer(&self, outcome: Outcome) -> Result<bool, Fault> {
        match answer(outcome) {
            Ok(answer) => Ok(answer),
            Err(fault) => Err(self.fault(outcome, fault)),
        }
    }

    #[cold]
    fn fault(&self, outcome: Outcome, fault: Fault) -> Fault {
        match (outcome, fault) {
            (FULL, _) => self.shared.full(),
            (NO_WORKER, _) => self.shared.no_worker(),
            (IN_USE, _) => Fault::InUse([self.worker].into_iter().collect()),
            (_, Fault::Busy | Fault::Pending) => Fault::Contention,
            (_, fault) => fault,
        }
    }

    /// Returns a key that a call has written, or None after the answer no.
    fn key(&self, outcome: Outcome, key: u64) -> Result<Option<u64>, Fault> {
        Ok(self.answer(outcome)?.then_some(key))
    }

    pub fn contains(&self, key: u64) -> Result<bool, Fault> {
        let Shared {
            pool, timeout_ms, ..
        } = self.shared;
        self.answer(pool.contains(self.worker, key, *timeout_ms))
    }

    pub fn insert(&self, key: u64) -> Result<bool, Fault> {
        let Shared {
            pool, timeout_ms, ..
        } = self.shared;
        self.answer(pool.insert(self.worker, key, *timeout_ms))
    }

    pub fn remove(&self, key: u64) -> Result<bool, Fault> {
        let Shared {
            pool, timeout_ms, ..
        } = self.shared;
        self.answer(pool.remove(self.worker, key, *timeout_ms))
    }

    pub fn pop_first(&self) -> Result<Option<u64>, Fault> {
        self.taken(Pool::pop_first)
    }

    pub fn pop_last(&self) -> Result<Option<u64>, Fault> {
        self.taken(Pool::pop_last)
    }

    pub fn pop_first_below(&self, below: u64) -> Result<Option<u64>, Fault> {
        self.taken(|pool, worker, taken, ms| pool.pop_first_below(worker, below, taken, ms))
    }

    pub fn pop_last_from(&self, from: u64) -> Result<Option<u64>, Fault> {
        self.taken(|pool, worker, taken, ms| pool.pop_last_from(worker, from, taken, ms))
    }

    pub fn pop_first_many(&self, below: u64, room: usize) -> Result<Vec<u64>, Fault> {
        let mut keys = Vec::new();
        while keys.len() < room {
            let most = POPPED.min(room - keys.len());
            match self.pop_block(below, most, &mut keys) {
                Err(fault) if keys.is_empty() => return Err(fault),
                Ok(count) if count == most => {}
                _ => break,
            }
        }
        Ok(keys)
    }

    /// Removes the least keys that are below a bound, at most `room`, and appends them. Returns how
    /// many they are, or a fault if it has removed none.
    fn pop_block(&self, below: u64, room: usize, keys: &mut Vec<u64>) -> Result<usize, Fault> {
        keys.try_reserve(room).map_err(|_| Fault::NoMemory)?;
        let had = keys.len();
        keys.resize(had + room, 0);
        let Shared {
            pool, timeout_ms, ..
        } = self.shared;
        let (outcome, count) =
            pool.pop_first_many(self.worker, below, &mut keys[had..], *timeout_ms);
        keys.truncate(had + count);
        self.answer(outcome).map(|_| count)
    }

    pub fn wait_pop(&self, below: u64, timeout: Duration) -> Result<Option<u64>, Fault> {
        let most = millis(timeout);
        self.taken(|pool, worker, taken, _| pool.wait_pop(worker, below, taken, most))
    }

    pub fn wait_first(&self, below: u64, timeout: Duration) -> Result<Option<u64>, Fault> {
        let most = millis(timeout);
        self.taken(|pool, worker, found, _| pool.wait_first(worker, below, found, most))
    }

    /// Removes a key, and returns it. It returns a key whose remove is unfinished too, because this
    /// call will remove it, and no other call will.
    fn taken(
        &self,
        call: impl Fn(&Pool, u32, &mut u64, u32) -> Outcome,
    ) -> Result<Option<u64>, Fault> {
        let mut taken = 0;
        let shared = self.shared;
        match call(&shared.pool, self.worker, &mut taken, shared.timeout_ms) {
            UNFINISHED => Ok(Some(taken)),
            outcome => self.key(outcome, taken),
        }
    }

    pub fn contains_many(&self, keys: &[u64]) -> Result<Vec<bool>, Fault> {
        let mut lookups = lookups_of(keys);
        let Shared {
            pool, timeout_ms, ..
        } = self.shared;
        self.answer(pool.contains_many(self.worker, &mut lookups, *timeout_ms))?;
        Ok(found(&lookups))
    }

    /// Inserts or removes these keys, one by one, and appends the answer of each.
    pub fn change_many(
        &self,
        change: Change,
        keys: &[u64],
        answers: &mut Vec<bool>,
    ) -> Result<(), Fault> {
        let Shared {
            pool, timeout_ms, ..
        } = self.shared;
        let mut bytes = Vec::new();
        // All memory is taken before the first key is changed.
        bytes
            .try_reserve_exact(keys.len())
            .and_then(|()| answers.try_reserve(keys.len()))
            .map_err(|_| Fault::NoMemory)?;
        bytes.resize(keys.len(), 0);
        let (outcome, done) = pool.change_many(self.worker, change, keys, &mut bytes, *timeout_ms);
        answers.extend(bytes[..done].iter().map(|&byte| byte != 0));
        self.answer(outcome).map(drop)
    }

    pub fn at_least(&self, key: u64) -> Result<Option<u64>, Fault> {
        self.nearest(key, Pool::next)
    }

    pub fn at_most(&self, key: u64) -> Result<Option<u64>, Fault> {
        self.nearest(key, Pool::prev)
    }

    /// Returns the key that a call finds from `key` on, or None if there is none.
    fn nearest(
        &self,
        key: u64,
        call: impl Fn(&Pool, u32, u64, &mut u64, u32) -> Outcome,
    ) -> Result<Option<u64>, Fault> {
        let mut found = 0;
        let shared = self.shared;
        let outcome = call(
            &shared.pool,
            self.worker,
            key,
            &mut found,
            shared.timeout_ms,
        );
        self.key(outcome, found)
    }

    /// Returns keys from `low` to `high` in an order, at most `room` of them.
    pub fn scan(
        &self,
        order: Order,
        (low, high): (u64, u64),
        room: usize,
    ) -> Result<Scanned<u64>, Fault> {
        let mut block = Block {
            keys: vec![0; room],
            count: 0,
            next: low,
        };
        let Shared {
            pool, timeout_ms, ..
        } = self.shared;
        let outcome = pool.scan(self.worker, order, (low, high + 1), &mut block, *timeout_ms);
        let has_more = self.answer(outcome)?;
        block.keys.truncate(block.count);
        Ok(Scanned {
            entries: block.keys,
            next: has_more.then_some(block.next),
        })
    }

    /// Returns how many keys the set has from `low` to `high`.
    pub fn count(&self, (low, high): (u64, u64)) -> Result<u64, Fault> {
        let mut count = 0;
        let Shared {
            pool, timeout_ms, ..
        } = self.shared;
        self.answer(pool.count(self.worker, low, high + 1, &mut count, *timeout_ms))?;
        Ok(count)
    }

    /// Pins the epoch by an attached worker, after the remove that is pending; returns the epoch.
    pub fn pin(&self) -> Result<u64, Fault> {
        let Shared {
            pool,
            options,
            timeout_ms,
            ..
        } = self.shared;
        let mut epoch = 0;
        for _ in 0..=options.rounds {
            match answer(pool.pin(self.worker, options.tries, &mut epoch, *timeout_ms)) {
                Err(Fault::Pending) => {
                    pool.finish(self.worker, options.tries, *timeout_ms);
                }
                Err(Fault::Busy) => {}
                result => return result.map(|_| epoch),
            }
        }
        Err(Fault::Contention)
    }

    /// Advances the epoch by one, if no worker holds it back.
    pub fn advance(&self) -> Result<Advance, Fault> {
        let (mut epoch, mut worker) = (0, 0);
        let Shared {
            pool, timeout_ms, ..
        } = self.shared;
        match pool.advance(self.worker, &mut epoch, &mut worker, *timeout_ms) {
            BEHIND => Ok(Advance::Held { worker, epoch }),
            LOST => Ok(Advance::Lost { epoch }),
            SPENT => Ok(Advance::Spent),
            // In a forked child the handle is closed, and a call of the pool returns `Forked`.
            outcome if outcome < 0 => self
                .contains(0)
                .and_then(|_| self.answer(outcome).map(|_| Advance::Moved { epoch })),
            _ => Ok(Advance::Moved { epoch }),
        }
    }
}

/// The result of an advance of the epoch.
#[derive(Clone, Copy, Debug, PartialEq, Eq)]
pub enum Advance {
    /// It advanced the epoch by one.
    Moved {
        /// The new epoch.
        epoch: u64,
    },
    /// A worker holds the epoch back.
    Held {
        /// The number of the worker.
        worker: u32,
        /// The epoch that it announces.
        epoch: u64,
    },
    /// Another worker advanced the epoch first.
    Lost {
        /// The epoch to which the other worker advanced it.
        epoch: u64,
    },
    /// The epoch is the last one, 2^62.
    Spent,
}

#[cfg(test)]
mod tests {
    use super::Numbers;
    use crate::{Fault, Full, Options, Set};
    use std::time::{Duration, Instant};

    fn with_timeout(nodes: u32, timeout_ms: u32) -> Set {
        let options = Options {
            workers: 3,
            timeout_ms,
            ..Options::default()
        };
        Set::with_options(nodes, options).unwrap()
    }

    /// A thread that stopped in the middle of a call by worker 0 has the worker's handle in use.
    #[test]
    fn nothing_that_asks_how_full_a_set_is_waits_for_a_thread_that_has_stopped() {
        let set = with_timeout(9, 50);
        let (mut stopped, mut other) = (set.attach().unwrap(), set.attach().unwrap());
        assert_eq!((stopped.insert(4), stopped.insert(5)), (Ok(true), Ok(true)));
        assert_eq!((stopped.remove(4), set.waiting()), (Ok(true), Ok(2)));
        let pool = &set.shared().pool;
        pool.set_in_use(0, true);
        let begin = Instant::now();
        let numbers = (set.len(), set.waiting(), set.free(), set.collect());
        assert_eq!(numbers, (Ok(1), Ok(2), Ok(0), Ok(0)));
        assert_eq!(format!("{set:?}"), "{5}");
        assert!(
            begin.elapsed() < Duration::from_millis(40),
            "{:?}",
            begin.elapsed()
        );
        let full = Fault::Full(Full {
            nodes: 9,
            keys: 1,
            waiting: 2,
            unasked: Numbers::of(1),
            ..Full::default()
        });
        for call in [&mut || set.insert(6), &mut || other.insert(6)] as [&mut dyn FnMut() -> _; 2] {
            let begin = Instant::now();
            assert_eq!(call(), Err(full));
            let took = begin.elapsed();
            assert!(took >= Duration::from_millis(50), "{took:?}");
            assert!(took < Duration::from_millis(250), "{took:?}");
        }
        let text = "the set is full: its 1 keys take 7 of its 9 nodes, and 2 wait to be freed; \
                    worker 0 is in a call, so what waits there is counted as last seen";
        assert_eq!(full.to_string(), text);
        pool.set_in_use(0, false);
        assert_eq!((other.insert(6), set.len()), (Ok(true), Ok(2)));
    }

    #[test]
    fn an_insert_into_a_full_set_waits_no_longer_than_its_timeout() {
        for timeout_ms in [0, 1, 50] {
            let set = with_timeout(7, timeout_ms);
            let mut reader = set.attach().unwrap();
            let _guard = reader.pin().unwrap();
            assert_eq!((set.insert(5), set.remove(5)), (Ok(true), Ok(true)));
            let begin = Instant::now();
            let full = set.insert(6).unwrap_err();
            let (took, least) = (begin.elapsed(), Duration::from_millis(timeout_ms.into()));
            assert!(took >= least, "{took:?}");
            assert!(took < least + Duration::from_millis(200), "{took:?}");
            let text =
                "the set is full: its 0 keys take 5 of its 7 nodes, and 2 wait to be freed; \
                        worker 0 is in their way, by a pin or in a call";
            assert_eq!(full.to_string(), text);
        }
    }
}
