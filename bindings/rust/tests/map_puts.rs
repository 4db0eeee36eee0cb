//! Tests of the calls of maps that replace a value in one step: each answer; each value is dropped
//! once, and not while a guard can return it; a reader always finds a key that others put; counters
//! lose no step; a full map goes on by replacements; and what is refused leaves the caller its value.

use nm_set::{Fault, Map, MapOf, MapWorker, Options, PutError};
use std::sync::atomic::{AtomicBool, AtomicU64, Ordering::SeqCst};
use std::sync::Arc;
use std::thread;
use std::time::Duration;

const THREADS: usize = 4;
const STEPS: u64 = 10_000;
const PUTS: u64 = 100_000;

/// How many values there are.
#[derive(Clone, Default)]
struct Alive(Arc<AtomicU64>);

impl Alive {
    fn value(&self, number: u64) -> Value {
        self.0.fetch_add(1, SeqCst);
        Value {
            number,
            alive: self.clone(),
        }
    }

    fn count(&self) -> u64 {
        self.0.load(SeqCst)
    }
}

/// A value with a number, which has another one after its drop.
struct Value {
    number: u64,
    alive: Alive,
}

impl Drop for Value {
    fn drop(&mut self) {
        assert_ne!(self.number, u64::MAX);
        self.number = u64::MAX;
        self.alive.0.fetch_sub(1, SeqCst);
    }
}

fn options(workers: u32, timeout_ms: u32) -> Options {
    Options {
        workers,
        timeout_ms,
        ..Options::default()
    }
}

/// Returns the number of the value that an error has left.
fn left(error: PutError<Value>) -> u64 {
    error.into_value().number
}

#[test]
fn values_are_replaced() {
    let alive = Alive::default();
    let map = Map::new(64, 1).unwrap();
    let mut worker = map.attach().unwrap();
    let error = worker.replace(5, alive.value(1)).unwrap_err();
    assert!(matches!(error, PutError::Absent(_)) && error.fault().is_none());
    assert_eq!((left(error), worker.contains(5)), (1, Ok(false)));
    assert!(matches!(worker.put(5, alive.value(2)), Ok(true)));
    assert!(matches!(worker.put(5, alive.value(3)), Ok(false)));
    assert!(worker.replace(5, alive.value(4)).is_ok());
    assert_eq!(worker.pin().unwrap().get(5).unwrap().unwrap().number, 4);
    assert_eq!((map.len(), map.waiting(), alive.count()), (Ok(1), Ok(2), 3));
    assert_eq!(worker.waiting(), 2);
    assert_eq!(worker.reclaim().unwrap().values, 2);
    assert_eq!((map.waiting(), alive.count()), (Ok(0), 1));
    assert_eq!(
        worker
            .insert(5, alive.value(5))
            .unwrap_err()
            .into_value()
            .number,
        5
    );
    drop(worker);
    drop(map);
    assert_eq!(alive.count(), 0);
}

#[test]
fn old_values_exist_under_a_guard() {
    let alive = Alive::default();
    let map = Map::new(64, 2).unwrap();
    let (mut reader, mut worker) = (map.attach().unwrap(), map.attach().unwrap());
    let guard = reader.pin().unwrap();
    let mut calls = worker.under(&guard).unwrap();
    assert!(calls.put(5, alive.value(1)).unwrap().is_none());
    let first = calls.put(5, alive.value(2)).unwrap().unwrap();
    let second = calls.replace(5, alive.value(3)).unwrap();
    assert_eq!((first.number, second.number, alive.count()), (1, 2, 3));
    let error = calls.compare_replace(5, second, alive.value(4));
    assert!(matches!(error, Err(PutError::Other(value)) if value.number == 4));
    let third = calls.get(5).unwrap().unwrap();
    assert!(calls.compare_replace(5, third, alive.value(5)).is_ok());
    assert_eq!(calls.get(5).unwrap().unwrap().number, 5);
    assert!(matches!(calls.compare_replace(6, third, alive.value(6)),
        Err(PutError::Absent(value)) if value.number == 6));
    assert_eq!(calls.compare_remove(5, third), Ok(false));
    assert_eq!(calls.compare_remove(6, third), Ok(false));
    let fifth = calls.get(5).unwrap().unwrap();
    assert_eq!(calls.compare_remove(5, fifth), Ok(true));
    assert!(calls.get(5).unwrap().is_none() && fifth.number == 5);
    assert!(calls.put(5, alive.value(5)).unwrap().is_none());
    assert_eq!(
        calls.replace(6, alive.value(6)).map(|_| ()).map_err(left),
        Err(6)
    );
    assert_eq!((third.number, first.number), (3, 1));
    assert_eq!((worker.reclaim().unwrap().values, alive.count()), (0, 5));
    drop(guard);
    assert_eq!((worker.reclaim().unwrap().values, alive.count()), (4, 1));
}

#[test]
fn values_are_updated() {
    let map = MapOf::<i32, String>::new(64, 3).unwrap();
    let (mut reader, mut worker) = (map.attach().unwrap(), map.attach().unwrap());
    let mut other = map.attach().unwrap();
    let guard = reader.pin().unwrap();
    let mut calls = worker.under(&guard).unwrap();
    let longer = |old: Option<&String>| old.map_or("a".into(), |old| format!("{old}b"));
    assert_eq!(calls.update(-5, longer).unwrap(), "a");
    assert_eq!(calls.update(-5, longer).unwrap(), "ab");
    let mut turns = 0;
    let made = calls.update(-5, |old| {
        turns += 1;
        match turns {
            1 => assert_eq!(other.put(-5, "x".into()), Ok(false)),
            2 => assert_eq!(other.remove(-5), Ok(true)),
            _ => {}
        }
        old.map_or("none".into(), |old| format!("{old}y"))
    });
    assert_eq!((made.unwrap().as_str(), turns), ("none", 3));
    assert_eq!(
        calls.get_or_insert_with(-5, || unreachable!()).unwrap(),
        "none"
    );
    assert_eq!(
        calls.get_or_insert_with(7, || "seven".into()).unwrap(),
        "seven"
    );
    let old = calls.put(7, "8".into()).unwrap().unwrap();
    assert!(calls.compare_replace(7, old, "9".into()).is_err());
    assert_eq!(calls.compare_remove(7, old), Ok(false));
    assert_eq!(calls.replace(7, "9".into()).unwrap(), "8");
    assert_eq!(other.replace(7, "10".into()), Ok(()));
}

#[test]
fn refused_calls_leave_the_value() {
    let alive = Alive::default();
    let map = Map::with_options(9, options(2, 20)).unwrap();
    let mut worker = map.attach().unwrap();
    let error = worker.put(u64::MAX, alive.value(9)).unwrap_err();
    assert_eq!(
        (error.fault(), left(error)),
        (Some(Fault::Key(u64::MAX)), 9)
    );
    assert!(worker.put(1, alive.value(1)).is_ok() && worker.put(2, alive.value(2)).is_ok());
    for key in [2, 3] {
        let error = worker.put(key, alive.value(9)).unwrap_err();
        assert!(matches!(error.fault(), Some(Fault::MapFull(full)) if full.keys == 2));
        assert_eq!(left(error), 9);
    }
    let error = worker.replace(2, alive.value(9)).unwrap_err();
    assert!(matches!(error, PutError::Fault(Fault::MapFull(_), _)));
    drop(error);
    std::mem::forget(worker.pin().unwrap());
    let error = worker.replace(2, alive.value(9)).unwrap_err();
    assert_eq!((error.fault(), left(error)), (Some(Fault::Pinned), 9));
    assert_eq!(alive.count(), 2);
}

/// One node that no key takes is enough for any number of replacements. While a guard holds it back,
/// the fault says so.
#[test]
fn a_full_map_goes_on_by_replacements() {
    let map = Map::with_options(10, options(2, 20)).unwrap();
    let (mut worker, mut reader) = (map.attach().unwrap(), map.attach().unwrap());
    assert!(worker.put(1, 0).is_ok() && worker.put(2, 0).is_ok());
    for turn in 1..1_000 {
        assert!(worker.replace(1, turn).is_ok());
        assert_eq!((map.len(), map.waiting()), (Ok(2), Ok(1)));
    }
    worker.reclaim().unwrap();
    let number = reader.number();
    let guard = reader.pin().unwrap();
    assert!(worker.put(2, 1).is_ok());
    match worker.put(2, 2).unwrap_err() {
        PutError::Fault(Fault::MapFull(full), 2) => {
            assert_eq!((full.waiting, full.behind.contains(number)), (1, true));
        }
        other => panic!("{other:?}"),
    }
    drop(guard);
    assert!(worker.put(2, 3).is_ok());
    assert_eq!(reader.pin().unwrap().get(2), Ok(Some(&3)));
}

#[test]
fn a_key_is_never_absent() {
    let alive = Alive::default();
    let map = Map::new(4_096, 3).unwrap();
    let has_ended = AtomicBool::new(false);
    let mut worker = map.attach().unwrap();
    assert!(worker.put(5, alive.value(0)).is_ok());
    thread::scope(|scope| {
        scope.spawn(|| {
            let mut worker = map.attach().unwrap();
            let mut last = 0;
            while !has_ended.load(SeqCst) {
                let guard = worker.pin().unwrap();
                let found = guard.get(5).unwrap().expect("the key is never absent");
                assert!(found.number >= last && found.number != u64::MAX);
                last = found.number;
            }
        });
        for turn in 1..=PUTS {
            assert!(matches!(worker.put(5, alive.value(turn)), Ok(false)));
        }
        has_ended.store(true, SeqCst);
    });
    drop(worker);
    drop(map);
    assert_eq!(alive.count(), 0);
}

/// Raises the counter, which the key 5 has, by one. Returns whether it did: not if the guards of all
/// threads leave no node free. This guard is dropped then.
fn is_raised(
    alive: &Alive,
    reader: &mut MapWorker<'_, Value>,
    worker: &mut MapWorker<'_, Value>,
) -> bool {
    let guard = reader.pin().unwrap();
    let mut calls = worker.under(&guard).unwrap();
    match calls.update(5, |old| alive.value(old.map_or(1, |old| old.number + 1))) {
        Ok(_) => true,
        Err(Fault::MapFull(_)) => false,
        Err(fault) => panic!("{fault}"),
    }
}

#[test]
fn a_counter_loses_no_step() {
    let alive = Alive::default();
    let map = Map::<Value>::with_options(4_096, options(2 * THREADS as u32 + 1, 0)).unwrap();
    thread::scope(|scope| {
        for _ in 0..THREADS {
            scope.spawn(|| {
                let attach = || map.attach_timeout(Duration::from_secs(10)).unwrap();
                let (mut reader, mut worker) = (attach(), attach());
                for _ in 0..STEPS {
                    while !is_raised(&alive, &mut reader, &mut worker) {
                        thread::yield_now();
                    }
                }
            });
        }
    });
    let mut reader = map.attach().unwrap();
    let guard = reader.pin().unwrap();
    let sum = guard.get(5).unwrap().unwrap().number;
    assert_eq!(sum, THREADS as u64 * STEPS);
    drop(guard);
    drop(reader);
    drop(map);
    assert_eq!(alive.count(), 0);
}
