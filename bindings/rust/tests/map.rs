//! Tests of maps: each value is dropped once, no guard returns a value that was dropped, and what
//! is refused leaves the caller its value.

use nm_set::{Fault, GuardedWorker, InsertError, Map, MapWorker, Options, PutError};
use std::panic::{catch_unwind, AssertUnwindSafe};
use std::sync::atomic::{AtomicU64, Ordering::SeqCst};
use std::sync::Arc;
use std::time::{Duration, Instant};

/// How many values there are, and how many of them were dropped.
#[derive(Default)]
struct Counts {
    made: AtomicU64,
    dropped: AtomicU64,
}

impl Counts {
    fn alive(&self) -> u64 {
        self.made.load(SeqCst) - self.dropped.load(SeqCst)
    }

    fn value(self: &Arc<Counts>, key: u64) -> Value {
        self.made.fetch_add(1, SeqCst);
        Value {
            key,
            mark: AtomicU64::new(!key),
            counts: Arc::clone(self),
        }
    }
}

/// A value of a key that knows whether it was dropped.
struct Value {
    key: u64,
    mark: AtomicU64,
    counts: Arc<Counts>,
}

impl Value {
    fn is_of(&self, key: u64) -> bool {
        self.key == key && self.mark.load(SeqCst) == !key
    }
}

impl Drop for Value {
    fn drop(&mut self) {
        assert!(self.is_of(self.key));
        self.mark.store(0, SeqCst);
        self.counts.dropped.fetch_add(1, SeqCst);
    }
}

fn options(workers: u32, timeout_ms: u32) -> Options {
    Options {
        workers,
        timeout_ms,
        ..Options::default()
    }
}

#[test]
fn a_map_answers_like_a_map() {
    let map = Map::new(1_024, 2).unwrap();
    let mut worker = map.attach().unwrap();
    assert!(worker.insert(5, "five").is_ok() && worker.insert(7, "seven").is_ok());
    assert_eq!(worker.insert(5, "six"), Err(InsertError::Present("six")));
    assert_eq!(
        (worker.contains(5), worker.contains(6)),
        (Ok(true), Ok(false))
    );
    let guard = worker.pin().unwrap();
    assert_eq!(guard.get(5), Ok(Some(&"five")));
    assert_eq!(guard.get(6), Ok(None));
    assert_eq!(guard.get(u64::MAX), Err(Fault::Key(u64::MAX)));
    drop(guard);
    assert_eq!((worker.remove(5), worker.remove(5)), (Ok(true), Ok(false)));
    assert!(worker.insert(5, "again").is_ok());
    assert_eq!(worker.keys(..), Ok(vec![5, 7]));
    assert_eq!(
        (map.nodes(), map.capacity(), map.workers()),
        (1_024, 509, 2)
    );
    let text = "Map { keys: 2, capacity: 509, nodes: 1024, workers: 2, .. }";
    assert_eq!(format!("{map:?}"), text);
    assert_eq!(format!("{worker:?}"), "MapWorker { number: 0, .. }");
}

#[test]
fn keys_are_read_in_order() {
    let map = Map::new(8_192, 1).unwrap();
    let mut worker = map.attach().unwrap();
    let mut wanted: Vec<u64> = (0..2_000).map(|key| key * 7919 % 10_007).collect();
    wanted.push(nm_set::MOST_KEY);
    for &key in &wanted {
        worker.insert(key, ()).unwrap();
    }
    wanted.sort_unstable();
    assert_eq!(worker.keys(..).unwrap(), wanted);
    assert_eq!(worker.keys(wanted[10]..wanted[20]).unwrap(), wanted[10..20]);
    assert_eq!(worker.keys(7..7).unwrap(), []);
}

#[test]
fn each_value_is_dropped_once() {
    let counts = Arc::new(Counts::default());
    let map = Map::new(1_024, 2).unwrap();
    let mut worker = map.attach().unwrap();
    for key in 0..100 {
        worker.insert(key, counts.value(key)).unwrap();
    }
    for key in (0..100).step_by(2) {
        assert_eq!(worker.remove(key), Ok(true));
    }
    let before = counts.alive();
    let reclaimed = worker.reclaim().unwrap();
    assert_eq!((before - reclaimed.values, reclaimed.behind), (50, None));
    assert_eq!((counts.alive(), worker.waiting()), (50, 0));
    drop(worker);
    assert_eq!(counts.alive(), 50);
    drop(map);
    assert_eq!((counts.alive(), counts.made.load(SeqCst)), (0, 100));
}

#[test]
fn a_guard_holds_values_back() {
    let counts = Arc::new(Counts::default());
    let map = Map::new(1_024, 2).unwrap();
    let (mut reader, mut remover) = (map.attach().unwrap(), map.attach().unwrap());
    remover.insert(5, counts.value(5)).unwrap();
    let guard = reader.pin().unwrap();
    let found = guard.get(5).unwrap().unwrap();
    assert_eq!(remover.remove(5), Ok(true));
    let reclaimed = remover.reclaim().unwrap();
    assert_eq!((reclaimed.values, reclaimed.behind), (0, Some(0)));
    assert!(found.is_of(5) && guard.get(5).unwrap().is_none());
    drop(guard);
    assert_eq!(remover.reclaim().unwrap().values, 1);
    assert_eq!(counts.alive(), 0);
}

#[test]
fn a_worker_drops_values_by_itself() {
    let counts = Arc::new(Counts::default());
    let often = Options {
        collect_after: Some(8),
        ..options(1, 0)
    };
    let map = Map::with_options(1_024, often).unwrap();
    let mut worker = map.attach().unwrap();
    for key in 0..1_000 {
        worker.insert(key, counts.value(key)).unwrap();
        assert_eq!(worker.remove(key), Ok(true));
        assert!(worker.waiting() <= 10 && counts.alive() <= 5);
    }
}

#[test]
fn a_refused_insert_gives_the_value_back() {
    let counts = Arc::new(Counts::default());
    let map = Map::with_options(7, options(2, 20)).unwrap();
    let (mut reader, mut worker) = (map.attach().unwrap(), map.attach().unwrap());
    let error = worker.insert(u64::MAX, counts.value(1)).unwrap_err();
    assert_eq!(error.fault(), Some(Fault::Key(u64::MAX)));
    assert!(error.into_value().is_of(1));
    worker.insert(5, counts.value(5)).unwrap();
    let error = worker.insert(5, counts.value(2)).unwrap_err();
    assert_eq!(error.fault(), None);
    assert!(error.into_value().is_of(2));
    let guard = reader.pin().unwrap();
    assert_eq!(worker.remove(5), Ok(true));
    let begin = Instant::now();
    let error = worker.insert(6, counts.value(6)).unwrap_err();
    assert!(begin.elapsed() >= Duration::from_millis(20));
    let text = "the map is full: its 0 keys take 5 of its 7 nodes, and 2 wait to be freed; \
                worker 0 is in their way, by a pin or in a call";
    assert_eq!(error.to_string(), text);
    let value = error.into_value();
    drop(guard);
    assert!(value.is_of(6) && worker.insert(6, value).is_ok());
    assert_eq!(counts.alive(), 1);
}

/// The keys of a full map take all nodes, and no node waits. Then an insert waits for nothing.
#[test]
fn a_full_map_is_reported_at_once() {
    let map = Map::with_options(100, options(2, 20_000)).unwrap();
    let mut worker = map.attach().unwrap();
    worker.extend((0..47).map(|key| (key, key))).unwrap();
    let begin = Instant::now();
    let error = worker.insert(47, 47).unwrap_err();
    assert!(begin.elapsed() < Duration::from_secs(10));
    let Some(Fault::MapFull(full)) = error.fault() else {
        panic!("{error}")
    };
    assert_eq!((full.nodes, full.keys, full.waiting), (100, 47, 0));
    assert!(full.behind.is_empty());
    let text = "the map is full: its 47 keys take 99 of its 100 nodes, and 0 wait to be freed";
    assert_eq!((error.to_string().as_str(), error.into_value()), (text, 47));
    assert_eq!(worker.remove(5), Ok(true));
    worker.insert(47, 47).unwrap();
}

#[test]
fn nodes_of_a_worker_that_was_returned_are_freed() {
    let counts = Arc::new(Counts::default());
    let map = Map::with_options(9, options(3, 0)).unwrap();
    let (mut reader, mut worker) = (map.attach().unwrap(), map.attach().unwrap());
    let guard = reader.pin().unwrap();
    let mut gone = map.attach().unwrap();
    for key in [5, 6] {
        gone.insert(key, counts.value(key)).unwrap();
        assert_eq!(gone.remove(key), Ok(true));
    }
    drop(gone);
    drop(guard);
    assert_eq!((counts.alive(), worker.waiting()), (2, 0));
    worker.insert(7, counts.value(7)).unwrap();
    assert_eq!(counts.alive(), 1);
}

#[test]
fn wrong_sizes_and_more_workers_are_refused() {
    assert_eq!(Map::<u64>::new(6, 1).unwrap_err(), Fault::Nodes(6));
    assert_eq!(Map::<u64>::new(64, 0).unwrap_err(), Fault::Workers(0));
    assert_eq!(Map::<u64>::new(64, 65).unwrap_err(), Fault::Workers(65));
    let map = Map::<u64>::new(64, 1).unwrap();
    let worker = map.attach().unwrap();
    let refused = map.attach_timeout(Duration::from_millis(5)).unwrap_err();
    assert_eq!(refused, Fault::NoWorker { workers: 1 });
    drop(worker);
    assert_eq!(map.attach().unwrap().number(), 0);
}

#[test]
fn what_a_guard_held_back_is_dropped_with_the_map() {
    let counts = Arc::new(Counts::default());
    let map = Map::new(4_096, 8).unwrap();
    let mut reader = map.attach().unwrap();
    let guard = reader.pin().unwrap();
    let mut removers: Vec<MapWorker<'_, Value>> = (0..7).map(|_| map.attach().unwrap()).collect();
    for remover in &mut removers {
        for key in 0..100 {
            remover.insert(key, counts.value(key)).unwrap();
            assert_eq!(remover.remove(key), Ok(true));
        }
    }
    drop(removers);
    assert_eq!(counts.alive(), 700);
    drop(guard);
    drop(reader);
    drop(map);
    assert_eq!(counts.alive(), 0);
}

/// A guard that was forgotten leaves its worker pinned: nothing is dropped too early, and the drop
/// of the worker ends the pin.
#[test]
fn a_forgotten_guard_only_holds_back() {
    let counts = Arc::new(Counts::default());
    let map = Map::new(1_024, 2).unwrap();
    let (mut reader, mut remover) = (map.attach().unwrap(), map.attach().unwrap());
    remover.insert(5, counts.value(5)).unwrap();
    std::mem::forget(reader.pin().unwrap());
    assert_eq!(reader.remove(5), Err(Fault::Pinned));
    assert_eq!(reader.pin().unwrap_err(), Fault::Pinned);
    assert_eq!((remover.remove(5), counts.alive()), (Ok(true), 1));
    assert_eq!(remover.reclaim().unwrap().values, 0);
    drop(reader);
    assert_eq!((remover.reclaim().unwrap().values, counts.alive()), (1, 0));
}

/// A worker that was forgotten keeps what waits with it. All other values are dropped, and the drop
/// of the map does not wait.
#[test]
fn a_forgotten_worker_keeps_what_waits_with_it() {
    let counts = Arc::new(Counts::default());
    let map = Map::new(1_024, 3).unwrap();
    let (mut lost, mut worker) = (map.attach().unwrap(), map.attach().unwrap());
    for key in 0..10 {
        worker.insert(key, counts.value(key)).unwrap();
    }
    assert_eq!((lost.remove(0), worker.remove(1)), (Ok(true), Ok(true)));
    std::mem::forget(lost);
    drop(worker);
    let begin = Instant::now();
    drop(map);
    assert!(begin.elapsed() < Duration::from_secs(5));
    assert_eq!(counts.alive(), 1);
}

/// A value whose drop panics.
struct Bomb(Arc<Counts>, bool);

impl Drop for Bomb {
    fn drop(&mut self) {
        self.0.dropped.fetch_add(1, SeqCst);
        assert!(!self.1, "the bomb");
    }
}

#[test]
fn a_drop_that_panics_keeps_no_other_value() {
    let counts = Arc::new(Counts::default());
    let map = Map::new(1_024, 1).unwrap();
    let mut worker = map.attach().unwrap();
    for key in 0..20 {
        let is_bomb = key == 3 || key == 15;
        assert!(worker
            .insert(key, Bomb(Arc::clone(&counts), is_bomb))
            .is_ok());
    }
    for key in 0..10 {
        assert_eq!(worker.remove(key), Ok(true));
    }
    assert!(catch_unwind(AssertUnwindSafe(|| worker.reclaim())).is_err());
    assert_eq!(counts.dropped.load(SeqCst), 10);
    assert_eq!(worker.contains(10), Ok(true));
    drop(worker);
    assert!(catch_unwind(AssertUnwindSafe(|| drop(map))).is_err());
    assert_eq!(counts.dropped.load(SeqCst), 20);
}

#[test]
fn a_panic_of_a_thread_returns_its_worker() {
    let counts = Arc::new(Counts::default());
    let map = Map::new(1_024, 1).unwrap();
    let ended = catch_unwind(AssertUnwindSafe(|| {
        let mut worker = map.attach().unwrap();
        worker.insert(5, counts.value(5)).unwrap();
        let guard = worker.pin().unwrap();
        assert!(guard.get(5).unwrap().is_none(), "on purpose");
    }));
    assert!(ended.is_err());
    let mut worker = map.attach_timeout(Duration::ZERO).unwrap();
    assert_eq!(worker.remove(5), Ok(true));
    assert_eq!(worker.reclaim().unwrap().values, 1);
}

/// Values without a size, and values that own others.
#[test]
fn values_of_other_kinds_are_dropped() {
    let units = Map::new(64, 1).unwrap();
    let mut worker = units.attach().unwrap();
    assert!(worker.insert(5, ()).is_ok() && worker.insert(6, ()).is_ok());
    assert_eq!(worker.pin().unwrap().get(5), Ok(Some(&())));
    assert_eq!(worker.remove(5), Ok(true));
    let counts = Arc::new(Counts::default());
    let texts: Map<Box<dyn FnOnce() -> u64 + Send + Sync>> = Map::new(64, 1).unwrap();
    let (held, mut worker) = (counts.value(9), texts.attach().unwrap());
    let owner = Box::new(move || {
        let value = held;
        value.key
    });
    worker.insert(5, owner).unwrap();
    assert_eq!(counts.alive(), 1);
    drop(worker);
    drop(texts);
    assert_eq!(counts.alive(), 0);
}

const RANGE: u64 = 64;

/// A number of the environment, for a longer run: `NM_SET_THREADS` and `NM_SET_CALLS`, which are
/// those of each thread.
fn number_of(name: &str, usual: u64) -> u64 {
    let named = std::env::var(name).ok();
    named.map_or(usual, |text| text.parse().expect("a number"))
}

fn drawn(seed: &mut u64) -> u64 {
    *seed ^= *seed << 13;
    *seed ^= *seed >> 7;
    *seed ^= *seed << 17;
    *seed
}

fn read_some(worker: &mut MapWorker<'_, Value>, seed: &mut u64) {
    let guard = worker.pin().unwrap();
    let keys: [u64; 4] = [0; 4].map(|_| drawn(seed) % RANGE);
    let found = keys.map(|key| guard.get(key).unwrap());
    for (key, value) in keys.into_iter().zip(found) {
        assert!(value.map_or(true, |value| value.is_of(key)));
    }
}

/// Tests the value that a call has replaced, if it has. A call under a guard may find no node, because the
/// guards of all threads hold them back.
fn must_be_of(key: u64, replaced: Result<Option<&Value>, PutError<Value>>) {
    match replaced {
        Ok(old) => assert!(old.map_or(true, |old| old.is_of(key))),
        Err(error) => must_be_full(error.fault()),
    }
}

fn must_be_full(fault: Option<Fault>) {
    assert!(matches!(fault, None | Some(Fault::MapFull(_))), "{fault:?}");
}

/// Removes a key under a guard, if it has the value that it had right before.
fn remove_found(calls: &mut GuardedWorker<'_, '_, '_, Value>, key: u64) {
    if let Some(value) = calls.get(key).unwrap() {
        calls.compare_remove(key, value).unwrap();
        assert!(value.is_of(key));
    }
}

/// Gives a key a value under a guard, or removes or pops a key, and reads what the call has taken out. A
/// pop may find that other threads take each key that it finds.
fn swap_some(
    calls: &mut GuardedWorker<'_, '_, '_, Value>,
    counts: &Arc<Counts>,
    key: u64,
    kind: u64,
) {
    match kind % 6 {
        0 => must_be_of(key, calls.put(key, counts.value(key))),
        1 => must_be_of(key, calls.replace(key, counts.value(key)).map(Some)),
        2 => {
            if let Some(old) = calls.get(key).unwrap() {
                let compared = calls.compare_replace(key, old, counts.value(key));
                must_be_of(key, compared.map(|()| Some(old)));
            }
        }
        3 => {
            let updated = calls.update(key, |old| {
                assert!(old.map_or(true, |old| old.is_of(key)));
                counts.value(key)
            });
            updated.map_or_else(
                |fault| must_be_full(Some(fault)),
                |new| assert!(new.is_of(key)),
            );
        }
        4 => remove_found(calls, key),
        _ => match calls.pop_first_below(key) {
            Ok(popped) => {
                assert!(popped.map_or(true, |(below, value)| below < key && value.is_of(below)))
            }
            Err(fault) => assert_eq!(fault, Fault::Contention),
        },
    }
}

/// Gives a key a value without a guard.
fn give(worker: &mut MapWorker<'_, Value>, counts: &Arc<Counts>, key: u64, kind: u64) {
    let value = counts.value(key);
    must_be_full(match kind % 3 {
        0 => worker
            .insert(key, value)
            .map_or_else(|error| error.fault(), |()| None),
        1 => worker
            .put(key, value)
            .map_or_else(|error| error.fault(), |_| None),
        _ => worker
            .replace(key, value)
            .map_or_else(|error| error.fault(), |()| None),
    });
}

fn work(map: &Map<Value>, counts: &Arc<Counts>, calls: u64, mut seed: u64) {
    let attached = || map.attach_timeout(Duration::from_secs(60)).unwrap();
    let (mut reader, mut worker) = (attached(), attached());
    for call in 1..=calls {
        let (key, kind) = (drawn(&mut seed) % RANGE, drawn(&mut seed));
        match drawn(&mut seed) % 8 {
            0 | 1 => give(&mut worker, counts, key, kind),
            2 => {
                let guard = reader.pin().unwrap();
                swap_some(&mut worker.under(&guard).unwrap(), counts, key, kind);
            }
            3 => drop(worker.remove(key).unwrap()),
            _ => read_some(&mut worker, &mut seed),
        }
        if call % 1_000 == 0 {
            worker = attached();
        }
    }
}

#[test]
fn no_reader_gets_a_value_that_was_dropped() {
    let threads = number_of("NM_SET_THREADS", 4);
    let calls = number_of("NM_SET_CALLS", 20_000);
    let counts = Arc::new(Counts::default());
    let map = Map::with_options(4_096, options(3 * threads as u32, 1)).unwrap();
    std::thread::scope(|scope| {
        for number in 1..=threads {
            let (map, counts) = (&map, &counts);
            scope.spawn(move || work(map, counts, calls, 88_172_645_463_325_252 + number));
        }
    });
    let left = map.attach().unwrap().keys(..).unwrap().len() as u64;
    assert!(left <= RANGE && counts.alive() >= left);
    drop(map);
    assert_eq!(counts.alive(), 0);
    assert!(counts.dropped.load(SeqCst) > threads * calls / 10);
}

/// Many more threads than workers call a map: each takes a worker for a call, and returns it.
#[test]
fn many_threads_take_a_worker_for_a_call() {
    const TURNS: u64 = 50;
    let options = Options {
        workers: 8,
        timeout_ms: 60_000,
        ..Options::default()
    };
    let map: Map<u64> = Map::with_options(65_536, options).unwrap();
    std::thread::scope(|scope| {
        for thread in 0..200 {
            let map = &map;
            scope.spawn(move || {
                for key in thread * TURNS..(thread + 1) * TURNS {
                    map.attach().unwrap().insert(key, key).unwrap();
                    let mut reader = map.attach().unwrap();
                    assert_eq!(reader.pin().unwrap().get(key).unwrap(), Some(&key));
                    drop(reader);
                    if key % 2 == 0 {
                        assert!(map.attach().unwrap().remove(key).unwrap());
                    }
                }
            });
        }
    });
    assert_eq!(map.len().unwrap() as u64, 200 * TURNS / 2);
    assert!(map
        .attach()
        .unwrap()
        .keys(..)
        .unwrap()
        .iter()
        .all(|key| key % 2 == 1));
}
