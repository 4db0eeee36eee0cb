//! Tests of the calls of a map that go over several keys: they answer like those of a `BTreeMap`,
//! and what they return under a guard exists until the guard is dropped, also beside other threads.

use nm_set::{Fault, InsertError, Map, MapWorker, Options, MOST_KEY};
use std::collections::BTreeMap;
use std::sync::atomic::{AtomicBool, AtomicU64, Ordering::SeqCst};
use std::sync::Arc;
use std::thread;
use std::time::Duration;

/// A value that knows whether it was dropped, and counts its drop.
struct Value {
    key: u64,
    mark: AtomicU64,
    dropped: Arc<AtomicU64>,
}

impl Value {
    fn new(key: u64, dropped: &Arc<AtomicU64>) -> Value {
        Value {
            key,
            mark: AtomicU64::new(!key),
            dropped: Arc::clone(dropped),
        }
    }

    fn is_of(&self, key: u64) -> bool {
        self.key == key && self.mark.load(SeqCst) == !key
    }
}

impl Drop for Value {
    fn drop(&mut self) {
        assert!(self.is_of(self.key));
        self.mark.store(0, SeqCst);
        self.dropped.fetch_add(1, SeqCst);
    }
}

fn drawn(seed: &mut u64) -> u64 {
    *seed ^= *seed << 13;
    *seed ^= *seed >> 7;
    *seed ^= *seed << 17;
    *seed
}

fn entry<'p>((key, value): (&u64, &'p u64)) -> (u64, &'p u64) {
    (*key, value)
}

/// Compares all calls that read with those of a `BTreeMap`.
fn reads_like(map: &Map<u64>, wanted: &BTreeMap<u64, u64>, (low, high): (u64, u64)) {
    let (mut reader, mut worker) = (map.attach().unwrap(), map.attach().unwrap());
    assert_eq!(
        (map.len(), map.is_empty()),
        (Ok(wanted.len()), Ok(wanted.is_empty()))
    );
    let keys: Vec<u64> = wanted.range(low..high).map(|(&key, _)| key).collect();
    assert_eq!(worker.keys(low..high).unwrap(), keys);
    assert_eq!(worker.count(low..high), Ok(keys.len() as u64));
    assert_eq!(worker.first().unwrap(), wanted.keys().next().copied());
    assert_eq!(worker.last().unwrap(), wanted.keys().next_back().copied());
    assert_eq!(worker.is_empty(), Ok(wanted.is_empty()));
    let back: Vec<u64> = worker
        .range(low..high)
        .rev()
        .collect::<Result<_, _>>()
        .unwrap();
    assert!(back.iter().rev().eq(&keys));
    let read = worker.scan(low, 100).unwrap();
    let after = || wanted.range(low..);
    assert!(read
        .entries
        .iter()
        .eq(after().take(100).map(|(key, _)| key)));
    assert!(read.next.is_some() || after().count() <= 100);
    assert!(after().nth(100).is_none() || read.next > read.entries.last().copied());
    let guard = reader.pin().unwrap();
    let found: Vec<Option<u64>> = guard
        .get_many(&keys)
        .unwrap()
        .into_iter()
        .map(Option::<&u64>::copied)
        .collect();
    assert!(found.iter().eq(wanted
        .range(low..high)
        .map(|(_, value)| Some(*value))
        .collect::<Vec<_>>()
        .iter()));
    let mut calls = worker.under(&guard).unwrap();
    let entries: Vec<_> = calls.range(low..high).collect::<Result<_, _>>().unwrap();
    assert!(entries.into_iter().eq(wanted.range(low..high).map(entry)));
    let entries = calls.scan(low, 100).unwrap().entries;
    assert!(entries.into_iter().eq(after().take(100).map(entry)));
    let entries: Vec<_> = calls.iter().rev().collect::<Result<_, _>>().unwrap();
    assert!(entries.into_iter().eq(wanted.iter().rev().map(entry)));
    assert_eq!(
        calls.at_least(low).unwrap(),
        wanted.range(low..).next().map(entry)
    );
    assert_eq!(
        calls.at_most(low).unwrap(),
        wanted.range(..=low).next_back().map(entry)
    );
    assert_eq!(calls.first().unwrap(), wanted.iter().next().map(entry));
    assert_eq!(calls.last().unwrap(), wanted.iter().next_back().map(entry));
    assert_eq!(calls.get(low).unwrap(), wanted.get(&low));
}

/// Removes a key by one of the calls that do; returns what it removed.
fn remove_by(map: &Map<u64>, kind: u64, key: u64) -> Option<(u64, u64)> {
    let (mut reader, mut worker) = (map.attach().unwrap(), map.attach().unwrap());
    let guard = reader.pin().unwrap();
    let mut calls = worker.under(&guard).unwrap();
    let popped = match kind {
        0 => calls.pop_first(),
        1 => calls.pop_last(),
        2 => calls.pop_first_below(key),
        3 => calls.pop_last_from(key),
        _ => calls.take(key).map(|value| value.map(|value| (key, value))),
    };
    popped.unwrap().map(|(key, &value)| (key, value))
}

fn remove_like(wanted: &mut BTreeMap<u64, u64>, kind: u64, key: u64) -> Option<(u64, u64)> {
    let found = match kind {
        0 => wanted.keys().next(),
        1 => wanted.keys().next_back(),
        2 => wanted.range(..key).next().map(|(key, _)| key),
        3 => wanted.range(key..).next_back().map(|(key, _)| key),
        _ => wanted.get_key_value(&key).map(|(key, _)| key),
    };
    found.copied().and_then(|key| wanted.remove_entry(&key))
}

#[test]
fn a_map_answers_like_a_btree_map() {
    let (map, mut wanted) = (Map::new(8_192, 4).unwrap(), BTreeMap::new());
    let mut seed = 88_172_645_463_325_252;
    for value in 0..6_000 {
        let (key, draw) = (drawn(&mut seed) % 900, drawn(&mut seed) % 12);
        if draw < 5 {
            assert_eq!(
                remove_by(&map, draw, key),
                remove_like(&mut wanted, draw, key)
            );
        } else {
            let answer = map.attach().unwrap().insert(key, value);
            assert_eq!(answer.is_ok(), !wanted.contains_key(&key));
            wanted.entry(key).or_insert(value);
        }
        if value % 100 == 0 {
            reads_like(&map, &wanted, (key, key + drawn(&mut seed) % 900));
        }
    }
    while let Some(removed) = remove_like(&mut wanted, 0, 0) {
        assert_eq!(remove_by(&map, 0, 0), Some(removed));
    }
    reads_like(&map, &wanted, (0, 900));
}

#[test]
fn the_ends_of_the_keys_are_read() {
    let map = Map::new(64, 2).unwrap();
    let mut worker = map.attach().unwrap();
    assert_eq!(
        (worker.first(), worker.pop_last(), worker.is_empty()),
        (Ok(None), Ok(None), Ok(true))
    );
    assert_eq!(
        worker
            .extend([(0, "least"), (MOST_KEY, "greatest")])
            .unwrap(),
        2
    );
    assert_eq!(worker.keys(..).unwrap(), [0, MOST_KEY]);
    assert_eq!(worker.keys(1..).unwrap(), [MOST_KEY]);
    assert_eq!(worker.keys(..MOST_KEY).unwrap(), [0]);
    assert_eq!((worker.count(..), worker.count(7..7)), (Ok(2), Ok(0)));
    assert_eq!(worker.at_least(u64::MAX), Err(Fault::Key(u64::MAX)));
    assert_eq!(worker.at_most(u64::MAX), Err(Fault::Key(u64::MAX)));
    assert_eq!(worker.pop_first_below(0), Ok(None));
    assert_eq!(worker.pop_last_from(u64::MAX), Ok(None));
    assert_eq!(
        (worker.pop_last(), worker.pop_first()),
        (Ok(Some(MOST_KEY)), Ok(Some(0)))
    );
    assert_eq!((map.len(), worker.pending()), (Ok(0), Ok(None)));
    let guard = worker.pin().unwrap();
    assert_eq!(guard.get_many(&[5, u64::MAX]), Err(Fault::Key(u64::MAX)));
    assert_eq!(guard.get_many(&[]), Ok(vec![]));
}

#[test]
fn maps_are_made_of_entries() {
    let map = Map::from([(7, "seven"), (5, "five"), (7, "again")]);
    assert_eq!((map.len(), map.nodes(), map.workers()), (Ok(2), 4_096, 64));
    assert_eq!(
        map.attach().unwrap().pin().unwrap().get(7),
        Ok(Some(&"again"))
    );
    let map: Map<u64> = (0..5_000).map(|key| (key, key)).collect();
    assert_eq!((map.len(), map.nodes()), (Ok(5_000), 20_000));
    let mut worker = map.attach().unwrap();
    assert_eq!(worker.retain(|key| key % 1_000 == 7), Ok(()));
    assert_eq!(worker.keys(..).unwrap(), [7, 1_007, 2_007, 3_007, 4_007]);
    assert_eq!((worker.clear(), map.len()), (Ok(()), Ok(0)));
    drop(worker);
    let few = Options {
        workers: 1,
        timeout_ms: 0,
        ..Options::default()
    };
    let full = Map::from_entries(9, few, (0..3).map(|key| (key, key)));
    assert!(matches!(full.err(), Some(Fault::MapFull(full)) if full.keys == 2));
    let wrong = Map::from_entries(64, few, [(u64::MAX, 5)]);
    assert_eq!(wrong.err(), Some(Fault::Key(u64::MAX)));
}

/// A refused entry is given back, and those after it remain in the iterator.
#[test]
fn an_extend_that_is_refused_loses_nothing() {
    let dropped = Arc::new(AtomicU64::new(0));
    let options = Options {
        workers: 1,
        timeout_ms: 0,
        ..Options::default()
    };
    let map = Map::with_options(9, options).unwrap();
    let mut worker = map.attach().unwrap();
    let mut entries = [1, 2, 2, 3, 4]
        .map(|key| (key, Value::new(key, &dropped)))
        .into_iter();
    match worker.extend(entries.by_ref()) {
        Err(InsertError::Fault(Fault::MapFull(_), value)) => assert!(value.is_of(3)),
        answer => panic!("{answer:?}"),
    }
    assert_eq!((entries.next().unwrap().0, map.len()), (4, Ok(2)));
    assert_eq!(dropped.load(SeqCst), 3);
}

#[test]
fn a_guard_keeps_what_was_popped() {
    let dropped = Arc::new(AtomicU64::new(0));
    let map: Map<Value> = (0..100)
        .map(|key| (key, Value::new(key, &dropped)))
        .collect();
    let (mut reader, mut worker) = (map.attach().unwrap(), map.attach().unwrap());
    let mut remover = map.attach().unwrap();
    let guard = reader.pin().unwrap();
    let mut calls = worker.under(&guard).unwrap();
    let entries: Vec<_> = calls.iter().collect::<Result<_, _>>().unwrap();
    let popped = calls.pop_first().unwrap().unwrap();
    let taken = calls.take(7).unwrap().unwrap();
    assert!(calls.take(7).unwrap().is_none());
    assert_eq!(worker.pop_first(), Ok(Some(1)));
    while remover.pop_last().unwrap().is_some() {}
    assert_eq!((map.len(), worker.reclaim().unwrap().values), (Ok(0), 0));
    assert_eq!(
        (remover.reclaim().unwrap().values, dropped.load(SeqCst)),
        (0, 0)
    );
    assert!(popped.0 == 0 && popped.1.is_of(0) && taken.is_of(7));
    assert_eq!(entries.len(), 100);
    assert!(entries.iter().all(|(key, value)| value.is_of(*key)));
    drop(guard);
    let values = worker.reclaim().unwrap().values + remover.reclaim().unwrap().values;
    assert_eq!((values, dropped.load(SeqCst)), (100, 100));
}

#[test]
fn a_guard_of_another_map_is_refused() {
    let (one, other) = (
        Map::<u64>::new(64, 1).unwrap(),
        Map::<u64>::new(64, 1).unwrap(),
    );
    let (mut reader, mut worker) = (one.attach().unwrap(), other.attach().unwrap());
    let guard = reader.pin().unwrap();
    assert_eq!(worker.under(&guard).err(), Some(Fault::OtherMap));
    assert!(Fault::OtherMap.to_string().contains("another map"));
}

/// Makes a pop until other threads do not take each key that it finds.
fn answered<T>(mut pop: impl FnMut() -> Result<T, Fault>) -> T {
    loop {
        match pop() {
            Err(Fault::Contention) => {}
            popped => return popped.unwrap(),
        }
    }
}

fn pop_all(map: &Map<Value>, number: u64) -> Vec<u64> {
    let (mut reader, mut worker) = (map.attach().unwrap(), map.attach().unwrap());
    let mut keys = Vec::new();
    loop {
        let guard = reader.pin().unwrap();
        let mut calls = worker.under(&guard).unwrap();
        for _ in 0..8 {
            let popped = answered(|| match number {
                0 => calls.pop_last(),
                _ => calls.pop_first(),
            });
            let Some((key, value)) = popped else {
                return keys;
            };
            assert!(value.is_of(key));
            keys.push(key);
        }
    }
}

#[test]
fn each_value_is_popped_once() {
    const KEYS: u64 = 10_000;
    let dropped = Arc::new(AtomicU64::new(0));
    let map: Map<Value> = (0..KEYS)
        .map(|key| (key, Value::new(key, &dropped)))
        .collect();
    let mut popped: Vec<u64> = thread::scope(|scope| {
        let threads: Vec<_> = (0..4)
            .map(|number| {
                scope.spawn({
                    let map = &map;
                    move || pop_all(map, number)
                })
            })
            .collect();
        threads
            .into_iter()
            .flat_map(|thread| thread.join().unwrap())
            .collect()
    });
    popped.sort_unstable();
    assert!(popped.into_iter().eq(0..KEYS));
    assert_eq!(map.len(), Ok(0));
    drop(map);
    assert_eq!(dropped.load(SeqCst), KEYS);
}

/// Every third key stays. The others are inserted and removed until a reader is done.
fn change(map: &Map<Value>, dropped: &Arc<AtomicU64>, is_over: &AtomicBool, mut seed: u64) {
    let mut worker = map.attach().unwrap();
    while !is_over.load(SeqCst) {
        let key = drawn(&mut seed) % 1_000 * 3 + 1 + drawn(&mut seed) % 2;
        if drawn(&mut seed) % 2 == 0 {
            drop(worker.insert(key, Value::new(key, dropped)));
        } else {
            worker.remove(key).unwrap();
        }
    }
}

fn pass(reader: &mut MapWorker<'_, Value>, worker: &mut MapWorker<'_, Value>) {
    let guard = reader.pin().unwrap();
    let mut calls = worker.under(&guard).unwrap();
    let up: Vec<_> = calls.range(300..2_700).collect::<Result<_, _>>().unwrap();
    let mut down: Vec<_> = calls
        .range(300..2_700)
        .rev()
        .collect::<Result<_, _>>()
        .unwrap();
    down.reverse();
    for entries in [up, down] {
        assert!(entries.windows(2).all(|pair| pair[0].0 < pair[1].0));
        assert!(entries.iter().all(|(key, value)| value.is_of(*key)));
        let stay = entries.iter().filter(|(key, _)| key % 3 == 0).count();
        assert_eq!(stay, 800);
    }
}

#[test]
fn a_pass_finds_what_stays() {
    let dropped = Arc::new(AtomicU64::new(0));
    let entries = (0..3_000)
        .step_by(3)
        .map(|key| (key, Value::new(key, &dropped)));
    let map = Map::from_entries(65_536, Options::default(), entries).unwrap();
    let is_over = AtomicBool::new(false);
    thread::scope(|scope| {
        for seed in 1..4 {
            let (map, dropped, is_over) = (&map, &dropped, &is_over);
            scope.spawn(move || change(map, dropped, is_over, seed));
        }
        let (mut reader, mut worker) = (map.attach().unwrap(), map.attach().unwrap());
        for _ in 0..50 {
            pass(&mut reader, &mut worker);
        }
        is_over.store(true, SeqCst);
    });
    let count = map.attach().unwrap().count(..).unwrap();
    assert_eq!(map.len().unwrap() as u64, count);
}

#[test]
fn a_look_waits_for_a_lesser_key() {
    const LONG: Duration = Duration::from_secs(60);
    let map = Map::new(1_024, 4).unwrap();
    let mut worker = map.attach().unwrap();
    assert_eq!(worker.wait_first(Duration::from_millis(10)), Ok(None));
    thread::scope(|scope| {
        let look = scope.spawn(|| map.attach().unwrap().wait_first_below(20, LONG));
        for key in 20..30 {
            assert!(worker.insert(key, "later").is_ok());
            thread::sleep(Duration::from_millis(2));
        }
        assert!(!look.is_finished());
        assert!(worker.insert(5, "now").is_ok());
        assert_eq!(look.join().unwrap(), Ok(Some(5)));
    });
    assert_eq!(worker.wait_first(LONG), Ok(Some(5)));
    assert_eq!(worker.wait_first_below(5, Duration::ZERO), Ok(None));
    assert_eq!(map.len(), Ok(11));
}

#[test]
fn waiting_nodes_are_counted() {
    let map = Map::new(1_024, 3).unwrap();
    let (mut first, mut second) = (map.attach().unwrap(), map.attach().unwrap());
    let mut reader = map.attach().unwrap();
    let guard = reader.pin().unwrap();
    for key in 0..10 {
        assert!(first.insert(key, key).is_ok());
        assert_eq!(second.remove(key), Ok(true));
    }
    assert_eq!((map.waiting(), second.waiting()), (Ok(20), 20));
    drop(guard);
    let mut values = 0;
    while values < 10 {
        values += first.reclaim().unwrap().values + second.reclaim().unwrap().values;
    }
    assert_eq!((map.waiting(), map.len()), (Ok(0), Ok(0)));
}

#[test]
fn entries_of_a_map_are_compared_retained_and_saved() {
    let wanted: BTreeMap<u64, u64> = (0..2_000).map(|key| (key, key * key)).collect();
    let map: Map<u64> = wanted.clone().into_iter().collect();
    let (mut reader, mut worker) = (map.attach().unwrap(), map.attach().unwrap());
    let guard = reader.pin().unwrap();
    let mut calls = worker.under(&guard).unwrap();
    assert_eq!(calls.is_equal(&wanted), Ok(true));
    for (key, value) in [(7, Some(50)), (2_000, Some(0)), (1_999, None)] {
        let mut other = wanted.clone();
        match value {
            Some(value) => other.insert(key, value),
            None => other.remove(&key),
        };
        assert_eq!(calls.is_equal(&other), Ok(false), "{key}");
    }
    assert_eq!(
        calls.retain(|key, &value| value % 3 == 0 && key < 1_500),
        Ok(())
    );
    let kept: Vec<(u64, u64)> = (0..1_500).step_by(3).map(|key| (key, key * key)).collect();
    assert_eq!((calls.entries(..), map.len()), (Ok(kept.clone()), Ok(500)));
    assert_eq!(calls.entries(3..9), Ok(vec![(3, 9), (6, 36)]));
    let loaded = Map::from_entries(4_096, Options::default(), kept.iter().copied()).unwrap();
    let (mut reader, mut worker) = (loaded.attach().unwrap(), loaded.attach().unwrap());
    let guard = reader.pin().unwrap();
    let kept = kept.into_iter().collect();
    assert_eq!(worker.under(&guard).unwrap().is_equal(&kept), Ok(true));
}

/// A key that another worker has removed after the test is passed over.
#[test]
fn retain_goes_on_past_a_key_that_is_gone() {
    let map: Map<u64> = (0..10).map(|key| (key, key)).collect();
    let (mut reader, mut worker) = (map.attach().unwrap(), map.attach().unwrap());
    let mut other = map.attach().unwrap();
    let guard = reader.pin().unwrap();
    let mut calls = worker.under(&guard).unwrap();
    let stays = |key, _: &u64| other.remove(key) == Ok(false);
    assert_eq!((calls.retain(stays), map.len()), (Ok(()), Ok(0)));
}
