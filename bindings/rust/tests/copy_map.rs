//! Tests of maps with values in place: each answer, also beside a `BTreeMap` and with typed keys; counters
//! lose no step; a reader always finds a key that others put; no two pops return one key; a full map; and
//! what is refused.

use nm_set::{
    CopyMap, CopyMapOf, CopyMapWorker, Fault, InsertError, Key, Options, PutError, Word, MOST_KEY,
};
use std::collections::BTreeMap;
use std::fmt::Debug;
use std::sync::atomic::{AtomicBool, AtomicU64, Ordering::SeqCst};
use std::thread;
use std::time::{Duration, Instant};

const THREADS: u64 = 4;
const STEPS: u64 = 10_000;
const PUTS: u64 = 100_000;

fn options(workers: u32, timeout_ms: u32) -> Options {
    Options {
        workers,
        timeout_ms,
        ..Options::default()
    }
}

/// Returns the next number of xorshift.
fn drawn(seed: &mut u64) -> u64 {
    *seed ^= *seed << 13;
    *seed ^= *seed >> 7;
    *seed ^= *seed << 17;
    *seed
}

#[test]
fn a_map_answers_like_a_map() {
    let map = CopyMap::new(1_024, 2).unwrap();
    let mut worker = map.attach().unwrap();
    assert!(worker.insert(5, -5).is_ok() && worker.insert(7, -7).is_ok());
    assert_eq!(worker.insert(5, 6), Err(InsertError::Present(6)));
    assert_eq!((worker.get(5), worker.get(6)), (Ok(Some(-5)), Ok(None)));
    assert_eq!(
        (worker.contains(5), worker.contains(6)),
        (Ok(true), Ok(false))
    );
    let found = worker.get_many(&[7, 6, 5, 7]);
    assert_eq!(found, Ok(vec![Some(-7), None, Some(-5), Some(-7)]));
    assert_eq!(worker.get_many(&[]), Ok(vec![]));
    assert_eq!(
        (worker.remove(5), worker.remove(5)),
        (Ok(Some(-5)), Ok(None))
    );
    assert_eq!(
        (map.len(), map.waiting(), worker.waiting()),
        (Ok(1), Ok(2), 2)
    );
    assert_eq!(worker.reclaim().unwrap().values, 1);
    assert_eq!((map.waiting(), worker.pending()), (Ok(0), Ok(None)));
    assert_eq!(
        (map.nodes(), map.capacity(), map.workers()),
        (1_024, 509, 2)
    );
    let text = "CopyMap { keys: 1, capacity: 509, nodes: 1024, workers: 2, .. }";
    assert_eq!(format!("{map:?}"), text);
    assert_eq!(format!("{worker:?}"), "CopyMapWorker { number: 0, .. }");
}

#[test]
fn values_are_replaced() {
    let map = CopyMap::new(64, 1).unwrap();
    let mut worker = map.attach().unwrap();
    assert_eq!(worker.replace(5, 1.5), Err(PutError::Absent(1.5)));
    assert_eq!(worker.put(5, 2.5), Ok(None));
    assert_eq!(worker.put(5, 3.5), Ok(Some(2.5)));
    assert_eq!(worker.replace(5, -0.0), Ok(3.5));
    assert_eq!(
        worker.compare_replace(5, 0.0, 4.5),
        Err(PutError::Other(4.5))
    );
    assert_eq!(worker.compare_replace(5, -0.0, f64::NAN), Ok(()));
    assert_eq!(worker.compare_replace(5, f64::NAN, 5.5), Ok(()));
    assert_eq!(
        worker.compare_replace(6, 0.0, 6.5),
        Err(PutError::Absent(6.5))
    );
    assert_eq!((worker.get(5), map.len()), (Ok(Some(5.5)), Ok(1)));
}

#[test]
fn expected_values_are_removed() {
    let map = CopyMap::new(64, 1).unwrap();
    let mut worker = map.attach().unwrap();
    assert_eq!(worker.compare_remove(5, 0.0), Ok(false));
    assert_eq!(worker.put(5, -0.0), Ok(None));
    assert_eq!(worker.compare_remove(5, 0.0), Ok(false));
    assert_eq!((worker.get(5), map.len()), (Ok(Some(-0.0)), Ok(1)));
    assert_eq!(worker.compare_remove(5, -0.0), Ok(true));
    assert_eq!(worker.compare_remove(5, -0.0), Ok(false));
    assert_eq!(
        (worker.get(5), map.len(), map.waiting()),
        (Ok(None), Ok(0), Ok(2))
    );
    assert_eq!(worker.put(5, f64::NAN), Ok(None));
    assert_eq!(worker.compare_remove(5, f64::NAN), Ok(true));
    assert_eq!(worker.reclaim().unwrap().values, 2);
    assert_eq!((map.len(), map.waiting()), (Ok(0), Ok(0)));
}

/// The function of an update may make calls by another worker, even for the same key. Then it is called
/// again.
#[test]
fn values_are_updated() {
    let map = CopyMap::new(64, 2).unwrap();
    let (mut worker, mut other) = (map.attach().unwrap(), map.attach().unwrap());
    let raised = |old: Option<u64>| old.map_or(1, |old| old + 1);
    assert_eq!(
        (worker.update(5, raised), worker.update(5, raised)),
        (Ok(1), Ok(2))
    );
    let mut turns = 0;
    let made = worker.update(5, |old| {
        turns += 1;
        match turns {
            1 => assert_eq!(other.put(5, 70), Ok(Some(2))),
            2 => assert_eq!(other.remove(5), Ok(Some(70))),
            _ => {}
        }
        old.map_or(1_000, |old| old + 100)
    });
    assert_eq!(
        (made, turns, worker.get(5)),
        (Ok(1_000), 3, Ok(Some(1_000)))
    );
    assert_eq!(worker.get_or_insert_with(5, || unreachable!()), Ok(1_000));
    assert_eq!(worker.get_or_insert_with(6, || 60), Ok(60));
    let found = worker.get_or_insert_with(7, || {
        assert_eq!(other.insert(7, 70), Ok(()));
        71
    });
    assert_eq!((found, other.get(7)), (Ok(70), Ok(Some(70))));
}

/// Makes a call that is drawn, and the same of a `BTreeMap`, and compares the answers.
fn call_both(worker: &mut CopyMapWorker<'_, u32>, tree: &mut BTreeMap<u64, u32>, seed: &mut u64) {
    let (key, value) = (drawn(seed) % 64, drawn(seed) as u32);
    let entry = |(&key, &value): (&u64, &u32)| (key, value);
    match drawn(seed) % 14 {
        0 | 1 => {
            let is_absent = !tree.contains_key(&key);
            assert_eq!(worker.insert(key, value).is_ok(), is_absent);
            tree.entry(key).or_insert(value);
        }
        2 | 3 => assert_eq!(worker.put(key, value), Ok(tree.insert(key, value))),
        4 => match tree.get_mut(&key) {
            None => assert_eq!(worker.replace(key, value), Err(PutError::Absent(value))),
            Some(old) => assert_eq!(
                worker.replace(key, value),
                Ok(std::mem::replace(old, value))
            ),
        },
        5 | 6 => assert_eq!(worker.remove(key), Ok(tree.remove(&key))),
        7 => assert_eq!(worker.get(key), Ok(tree.get(&key).copied())),
        8 => assert_eq!(
            worker.at_least(key),
            Ok(tree.range(key..).next().map(entry))
        ),
        9 => assert_eq!(
            worker.at_most(key),
            Ok(tree.range(..=key).last().map(entry))
        ),
        10 => assert_eq!(worker.pop_first(), Ok(tree.pop_first())),
        11 => assert_eq!(worker.pop_last(), Ok(tree.pop_last())),
        12 => assert_eq!(worker.compare_remove(key, value), Ok(false)),
        _ => {
            let expected = tree.remove(&key);
            let is_removed = worker.compare_remove(key, expected.unwrap_or(value));
            assert_eq!(is_removed, Ok(expected.is_some()));
        }
    }
}

#[test]
fn it_answers_like_a_tree() {
    let map = CopyMap::new(1_024, 1).unwrap();
    let (mut worker, mut tree) = (map.attach().unwrap(), BTreeMap::new());
    let mut seed = 88_172_645_463_325_252;
    for call in 0..20_000 {
        call_both(&mut worker, &mut tree, &mut seed);
        if call % 100 == 0 {
            assert_eq!(
                (worker.is_equal(&tree), map.len()),
                (Ok(true), Ok(tree.len()))
            );
        }
    }
    assert!(!tree.is_empty());
    *tree.values_mut().next().unwrap() += 1;
    assert_eq!(worker.is_equal(&tree), Ok(false));
}

#[test]
fn entries_are_in_order() {
    let tree: BTreeMap<u64, i64> = (0..2_000).map(|key| (key * 7, -(key as i64))).collect();
    let map: CopyMap<i64> = tree.clone().into_iter().collect();
    let mut worker = map.attach().unwrap();
    let wanted: Vec<(u64, i64)> = tree.into_iter().collect();
    assert_eq!(worker.entries(..).unwrap(), wanted);
    let mut back: Vec<_> = worker.iter().rev().map(Result::unwrap).collect();
    back.reverse();
    assert_eq!(back, wanted);
    assert_eq!(worker.entries(71..140).unwrap(), wanted[11..20]);
    assert_eq!(worker.keys(70..=84), Ok(vec![70, 77, 84]));
    assert_eq!(
        (worker.count(70..140), worker.count(..)),
        (Ok(10), Ok(2_000))
    );
    let scanned = worker.scan(8, 3).unwrap();
    assert_eq!(scanned.entries, wanted[2..5]);
    assert!(scanned.next.is_some_and(|next| 28 < next && next <= 35));
    let mut both = worker.range(0..=21);
    assert_eq!(both.next(), Some(Ok((0, 0))));
    assert_eq!(both.next_back(), Some(Ok((21, -3))));
    assert_eq!(
        (both.next(), both.next_back()),
        (Some(Ok((7, -1))), Some(Ok((14, -2))))
    );
    assert_eq!((both.next(), both.next_back()), (None, None));
    for entry in &mut worker {
        let (key, value) = entry.unwrap();
        assert_eq!(key as i64, -7 * value);
    }
}

#[test]
fn the_ends_are_found_and_removed() {
    let map = CopyMap::from([(5, 'a'), (7, 'b'), (9, 'c'), (11, 'd'), (5, 'e')]);
    let mut worker = map.attach().unwrap();
    assert_eq!(worker.first(), Ok(Some((5, 'e'))));
    assert_eq!(worker.last(), Ok(Some((11, 'd'))));
    assert_eq!(worker.at_least(6), Ok(Some((7, 'b'))));
    assert_eq!(worker.at_most(6), Ok(Some((5, 'e'))));
    assert_eq!(
        (worker.at_least(12), worker.at_most(4)),
        (Ok(None), Ok(None))
    );
    assert_eq!(worker.pop_first_below(5), Ok(None));
    assert_eq!(worker.pop_first_below(6), Ok(Some((5, 'e'))));
    assert_eq!(worker.pop_last_from(12), Ok(None));
    assert_eq!(worker.pop_last_from(11), Ok(Some((11, 'd'))));
    assert_eq!(worker.pop_first(), Ok(Some((7, 'b'))));
    assert_eq!(worker.pop_last(), Ok(Some((9, 'c'))));
    assert_eq!(
        (worker.pop_first(), worker.pop_last()),
        (Ok(None), Ok(None))
    );
    assert_eq!((worker.first(), worker.last()), (Ok(None), Ok(None)));
    assert_eq!((worker.is_empty(), map.is_empty()), (Ok(true), Ok(true)));
}

#[test]
fn keys_are_removed_one_by_one() {
    let map = CopyMap::new(4_096, 1).unwrap();
    let mut worker = map.attach().unwrap();
    assert_eq!(
        worker.extend((0..1_000).map(|key| (key, key % 3))),
        Ok(1_000)
    );
    assert_eq!(worker.extend([(5, 9), (1_000, 1)]), Ok(1));
    assert_eq!(worker.remove_range(100..200), Ok(100));
    worker.retain(|key, rest| key >= 10 && rest == 1).unwrap();
    let left = (10..=1_000).filter(|key| !(100..200).contains(key) && key % 3 == 1);
    assert_eq!(worker.count(..), Ok(left.count() as u64));
    assert!(worker.iter().all(|entry| entry.unwrap().1 == 1));
    worker.clear().unwrap();
    assert_eq!((worker.first(), map.len()), (Ok(None), Ok(0)));
}

#[test]
fn a_wait_ends_with_a_key() {
    let map = CopyMap::new(64, 2).unwrap();
    let mut worker = map.attach().unwrap();
    assert_eq!(worker.wait_first(Duration::from_millis(5)), Ok(None));
    thread::scope(|scope| {
        scope.spawn(|| {
            let mut other = map.attach().unwrap();
            thread::sleep(Duration::from_millis(20));
            other.put(50, true).unwrap();
            other.put(5, false).unwrap();
        });
        let longest = Duration::from_secs(60);
        assert_eq!(worker.wait_first_below(10, longest), Ok(Some((5, false))));
        assert_eq!(worker.wait_first(longest), Ok(Some((5, false))));
    });
}

#[test]
fn a_counter_loses_no_step() {
    let map = CopyMap::<u64>::new(4_096, THREADS as u32).unwrap();
    thread::scope(|scope| {
        for _ in 0..THREADS {
            scope.spawn(|| {
                let mut worker = map.attach_timeout(Duration::from_secs(10)).unwrap();
                for _ in 0..STEPS {
                    let raised = worker.update(5, |old| old.unwrap_or(0) + 1);
                    assert!(raised.is_ok_and(|count| count <= THREADS * STEPS));
                }
            });
        }
    });
    assert_eq!(map.attach().unwrap().get(5), Ok(Some(THREADS * STEPS)));
}

#[test]
fn a_key_is_never_absent() {
    let map = CopyMap::new(4_096, 2).unwrap();
    let has_ended = AtomicBool::new(false);
    let mut worker = map.attach().unwrap();
    assert_eq!(worker.put(5, 0), Ok(None));
    thread::scope(|scope| {
        scope.spawn(|| {
            let mut reader = map.attach().unwrap();
            let mut last = 0;
            while !has_ended.load(SeqCst) {
                let found = reader.get(5).unwrap().expect("the key is never absent");
                assert!(found >= last);
                last = found;
            }
        });
        for turn in 1..=PUTS {
            assert_eq!(worker.put(5, turn), Ok(Some(turn - 1)));
        }
        has_ended.store(true, SeqCst);
    });
    assert_eq!((worker.get(5), map.len()), (Ok(Some(PUTS)), Ok(1)));
}

/// Repeats a call until other threads do not interfere.
fn repeated<T>(mut call: impl FnMut() -> Result<T, Fault>) -> T {
    loop {
        match call() {
            Err(Fault::Contention) => thread::yield_now(),
            made => return made.unwrap(),
        }
    }
}

/// With one try, removes of neighbouring keys by several threads may be unfinished. Each of them counts
/// as a remove, and the next call of its worker finishes it.
#[test]
fn an_unfinished_remove_counts_as_removed() {
    let bounds = Options {
        tries: 1,
        rounds: 0,
        ..options(THREADS as u32, 20_000)
    };
    let map = CopyMap::with_options(4_096, bounds).unwrap();
    thread::scope(|scope| {
        for key in 0..THREADS {
            let map = &map;
            scope.spawn(move || {
                let mut worker = map.attach().unwrap();
                for turn in 0..STEPS {
                    assert_eq!(repeated(|| worker.update(key, |_| turn)), turn);
                    assert!(!repeated(|| worker.compare_remove(key, turn + 1)));
                    assert!(repeated(|| worker.compare_remove(key, turn)));
                    assert_eq!(repeated(|| worker.get(key)), None);
                }
            });
        }
    });
    let mut worker = map.attach().unwrap();
    assert_eq!((map.len(), repeated(|| worker.first())), (Ok(0), None));
}

/// Of the threads that expect a value, one removes its key, and then inserts it with the next value.
#[test]
fn each_expected_value_is_removed_once() {
    let map = CopyMap::new(4_096, THREADS as u32).unwrap();
    assert_eq!(map.attach().unwrap().put(5, 0), Ok(None));
    let removed = AtomicU64::new(0);
    thread::scope(|scope| {
        for _ in 0..THREADS {
            scope.spawn(|| {
                let mut worker = map.attach().unwrap();
                for turn in 0..STEPS {
                    if worker.compare_remove(5, turn).unwrap() {
                        assert_eq!(removed.fetch_add(1, SeqCst), turn);
                        assert_eq!(worker.insert(5, turn + 1), Ok(()));
                    }
                    while removed.load(SeqCst) <= turn {
                        thread::yield_now();
                    }
                }
            });
        }
    });
    assert_eq!(removed.load(SeqCst), STEPS);
    assert_eq!(map.attach().unwrap().get(5), Ok(Some(STEPS)));
    assert_eq!(map.len(), Ok(1));
}

/// Pops the keys that other threads insert. Returns the sum of their values.
fn popped(map: &CopyMap<u64>, count: u64) -> u64 {
    let mut worker = map.attach().unwrap();
    let (mut popped, mut sum) = (0, 0);
    while popped < count {
        match worker.pop_first().unwrap() {
            Some((key, value)) => {
                assert_eq!(value, key + 1);
                (popped, sum) = (popped + 1, sum + value);
            }
            None => thread::yield_now(),
        }
    }
    sum
}

#[test]
fn each_value_is_popped_once() {
    let map = CopyMap::new(4_096, 2 * THREADS as u32).unwrap();
    let sum: u64 = thread::scope(|scope| {
        for number in 0..THREADS {
            let map = &map;
            scope.spawn(move || {
                let mut worker = map.attach().unwrap();
                for turn in 0..STEPS {
                    let key = turn * THREADS + number;
                    worker.insert(key, key + 1).unwrap();
                    while map.len().unwrap() > 500 {
                        thread::yield_now();
                    }
                }
            });
        }
        let poppers: Vec<_> = (0..THREADS)
            .map(|_| scope.spawn(|| popped(&map, STEPS)))
            .collect();
        poppers
            .into_iter()
            .map(|popper| popper.join().unwrap())
            .sum()
    });
    assert_eq!(sum, (1..=THREADS * STEPS).sum());
    assert_eq!(map.len(), Ok(0));
}

/// The keys of a full map take all nodes, and no node waits. Then an insert waits for nothing. One node
/// that no key takes is enough for any number of replacements.
#[test]
fn a_full_map_goes_on_by_replacements() {
    let map = CopyMap::with_options(10, options(1, 20_000)).unwrap();
    let mut worker = map.attach().unwrap();
    assert_eq!(worker.extend([(1, 0), (2, 0)]), Ok(2));
    let begin = Instant::now();
    let error = worker.insert(3, 30).unwrap_err();
    assert!(begin.elapsed() < Duration::from_secs(10));
    let text = "the map is full: its 2 keys take 9 of its 10 nodes, and 0 wait to be freed";
    assert_eq!((error.to_string().as_str(), error.into_value()), (text, 30));
    assert!(matches!(
        worker.put(3, 31),
        Err(PutError::Fault(Fault::MapFull(_), 31))
    ));
    for turn in 1..1_000 {
        assert_eq!(worker.put(1, turn), Ok(Some(turn - 1)));
        assert_eq!((map.len(), map.waiting()), (Ok(2), Ok(1)));
    }
    assert_eq!(worker.update(2, |old| old.unwrap() + 5), Ok(5));
    assert!(matches!(worker.update(3, |_| 0), Err(Fault::MapFull(full)) if full.keys == 2));
    assert!(matches!(
        worker.get_or_insert_with(3, || 0),
        Err(Fault::MapFull(_))
    ));
    assert_eq!(worker.remove(2), Ok(Some(5)));
    assert_eq!(worker.insert(3, 33), Ok(()));
}

#[test]
fn what_is_no_key_is_refused() {
    let map = CopyMap::new(64, 1).unwrap();
    let mut worker = map.attach().unwrap();
    let (key, fault) = (MOST_KEY + 1, Fault::Key(MOST_KEY + 1));
    assert_eq!(worker.insert(key, 9), Err(InsertError::Fault(fault, 9)));
    assert_eq!(worker.put(key, 9), Err(PutError::Fault(fault, 9)));
    assert_eq!(worker.replace(key, 9), Err(PutError::Fault(fault, 9)));
    let error = Err(PutError::Fault(fault, 9));
    assert_eq!(worker.compare_replace(key, 9, 9), error);
    assert_eq!(worker.compare_remove(key, 9), Err(fault));
    assert_eq!(
        (worker.get(key), worker.remove(key)),
        (Err(fault), Err(fault))
    );
    assert_eq!(worker.get_many(&[5, key]), Err(fault));
    assert_eq!(worker.contains(key), Err(fault));
    assert_eq!(worker.update(key, |_| 9), Err(fault));
    assert_eq!(worker.get_or_insert_with(key, || 9), Err(fault));
    assert_eq!(
        (worker.at_least(key), worker.at_most(key)),
        (Err(fault), Err(fault))
    );
    assert_eq!(worker.put(MOST_KEY, 9), Ok(None));
    assert_eq!(worker.last(), Ok(Some((MOST_KEY, 9))));
}

#[test]
fn wrong_sizes_and_more_workers_are_refused() {
    assert_eq!(CopyMap::<u64>::new(6, 1).unwrap_err(), Fault::Nodes(6));
    assert_eq!(CopyMap::<u64>::new(64, 65).unwrap_err(), Fault::Workers(65));
    let entries = (0..100).map(|key| (key, ()));
    let full = CopyMap::from_entries(64, options(1, 0), entries).unwrap_err();
    assert!(matches!(full, Fault::MapFull(full) if full.keys == 29));
    let map = CopyMap::<u64>::new(64, 1).unwrap();
    let worker = map.attach().unwrap();
    let refused = map.attach_timeout(Duration::from_millis(5)).unwrap_err();
    assert_eq!(refused, Fault::NoWorker { workers: 1 });
    drop(worker);
    assert_eq!(map.attach().unwrap().number(), 0);
}

/// A value of the program's own.
#[derive(Clone, Copy, Debug, PartialEq)]
enum Light {
    Red,
    Green { seconds: u16 },
}

impl Word for Light {
    const BITS: u32 = <(bool, u16)>::BITS;

    fn to_word(self) -> u64 {
        match self {
            Light::Red => (false, 0).to_word(),
            Light::Green { seconds } => (true, seconds).to_word(),
        }
    }

    fn from_word(word: u64) -> Light {
        match Word::from_word(word) {
            (false, 0) => Light::Red,
            (_, seconds) => Light::Green { seconds },
        }
    }
}

#[test]
fn values_are_of_other_types() {
    let lights = CopyMap::from([(1, Light::Red), (2, Light::Green { seconds: 30 })]);
    let mut worker = lights.attach().unwrap();
    let next = |old: Option<Light>| match old {
        Some(Light::Green { .. }) | None => Light::Red,
        Some(Light::Red) => Light::Green { seconds: 20 },
    };
    assert_eq!(worker.update(1, next), Ok(Light::Green { seconds: 20 }));
    assert_eq!(worker.update(2, next), Ok(Light::Red));
    assert_eq!(worker.put(2, Light::Red), Ok(Some(Light::Red)));
    let units = CopyMap::from([(5, ())]);
    assert_eq!(units.attach().unwrap().remove(5), Ok(Some(())));
    let pairs = CopyMap::from([(5, (u32::MAX, i32::MIN))]);
    assert_eq!(
        pairs.attach().unwrap().get(5),
        Ok(Some((u32::MAX, i32::MIN)))
    );
}

/// Many more threads than workers call a map: each takes a worker for a call, and returns it.
#[test]
fn many_threads_take_a_worker_for_a_call() {
    const TURNS: u64 = 50;
    let map = CopyMap::with_options(65_536, options(8, 60_000)).unwrap();
    thread::scope(|scope| {
        for number in 0..100 {
            let map = &map;
            scope.spawn(move || {
                for key in number * TURNS..(number + 1) * TURNS {
                    map.attach().unwrap().insert(key, !key).unwrap();
                    assert_eq!(map.attach().unwrap().get(key), Ok(Some(!key)));
                    if key % 2 == 0 {
                        assert_eq!(map.attach().unwrap().remove(key), Ok(Some(!key)));
                    }
                }
            });
        }
    });
    assert_eq!(map.len().unwrap() as u64, 100 * TURNS / 2);
}

/// The calls that read a map of typed keys answer like a `BTreeMap`, which has two keys or more.
fn reads_like<K: Key + Ord + Debug>(map: &CopyMapOf<K, u32>, tree: &BTreeMap<K, u32>) {
    let mut worker = map.attach().unwrap();
    let wanted: Vec<(K, u32)> = tree.iter().map(|(&key, &value)| (key, value)).collect();
    let keys: Vec<K> = tree.keys().copied().collect();
    let (first, last) = (wanted[0], wanted[wanted.len() - 1]);
    assert_eq!(worker.entries(..).as_ref(), Ok(&wanted));
    assert_eq!(worker.keys(..).as_ref(), Ok(&keys));
    assert_eq!(worker.keys(..last.0).unwrap(), keys[..keys.len() - 1]);
    assert_eq!(worker.count(first.0..=last.0), Ok(wanted.len() as u64));
    assert!(worker.iter().eq(wanted.iter().copied().map(Ok)));
    assert!((&mut worker)
        .into_iter()
        .rev()
        .eq(wanted.iter().rev().copied().map(Ok)));
    let values = tree.values().copied().map(Some).collect();
    assert_eq!(worker.get_many(&keys), Ok(values));
    assert_eq!(
        (worker.first(), worker.last()),
        (Ok(Some(first)), Ok(Some(last)))
    );
    for pair in wanted.windows(2) {
        let read = worker.scan(pair[0].0, 1).unwrap();
        assert_eq!((read.entries, read.next), (vec![pair[0]], Some(pair[1].0)));
        assert_eq!(worker.at_least(pair[1].0), Ok(Some(pair[1])));
        assert_eq!(worker.at_most(pair[0].0), Ok(Some(pair[0])));
        assert_eq!(worker.get(pair[0].0), Ok(Some(pair[0].1)));
        assert_eq!(worker.contains(pair[0].0), Ok(true));
    }
    assert_eq!(worker.wait_first(Duration::ZERO), Ok(Some(first)));
    assert_eq!(worker.wait_first_below(first.0, Duration::ZERO), Ok(None));
    assert_eq!(
        (worker.is_equal(tree), map.len()),
        (Ok(true), Ok(tree.len()))
    );
}

/// The calls that change a map of typed keys answer like a `BTreeMap`.
fn changes_like<K: Key + Ord + Debug>(map: &CopyMapOf<K, u32>, mut tree: BTreeMap<K, u32>) {
    let mut worker = map.attach().unwrap();
    for (&key, value) in &mut tree {
        let old = *value;
        assert_eq!(worker.insert(key, 9), Err(InsertError::Present(9)));
        assert_eq!(worker.put(key, 100), Ok(Some(old)));
        assert_eq!(worker.replace(key, 101), Ok(100));
        assert_eq!(worker.compare_replace(key, 100, 9), Err(PutError::Other(9)));
        assert_eq!(worker.compare_replace(key, 101, old + 5), Ok(()));
        assert_eq!(
            worker.get_or_insert_with(key, || unreachable!()),
            Ok(old + 5)
        );
        *value = worker.update(key, |old| old.unwrap() + 1).unwrap();
        assert_eq!(*value, old + 6);
    }
    assert_eq!(worker.is_equal(&tree), Ok(true));
    let (&least, _) = tree.first_key_value().unwrap();
    assert_eq!(worker.pop_first_below(least), Ok(None));
    assert_eq!(worker.pop_first(), Ok(tree.pop_first()));
    assert_eq!(worker.pop_last(), Ok(tree.pop_last()));
    let (&most, _) = tree.last_key_value().unwrap();
    assert_eq!(worker.pop_last_from(most), Ok(tree.pop_last()));
    let (&key, &value) = tree.first_key_value().unwrap();
    assert_eq!(worker.compare_remove(key, value + 1), Ok(false));
    assert_eq!(worker.compare_remove(key, value), Ok(true));
    assert_eq!(worker.put(key, value), Ok(None));
    assert_eq!(
        (worker.remove(key), worker.remove(key)),
        (Ok(Some(value)), Ok(None))
    );
    tree.pop_first();
    worker.retain(|_, value| value % 2 == 0).unwrap();
    tree.retain(|_, value| *value % 2 == 0);
    assert_eq!(worker.is_equal(&tree), Ok(true));
    assert_eq!(worker.remove_range(key..), Ok(tree.len() as u64));
    assert_eq!((worker.is_empty(), map.is_empty()), (Ok(true), Ok(true)));
}

/// A map of typed keys answers like a `BTreeMap` of these keys.
fn answers_like<K: Key + Ord + Debug>(keys: impl IntoIterator<Item = K>) {
    let tree: BTreeMap<K, u32> = keys.into_iter().zip(10..).collect();
    let map: CopyMapOf<K, u32> = tree.clone().into_iter().collect();
    reads_like(&map, &tree);
    changes_like(&map, tree);
}

#[test]
fn keys_are_of_other_types() {
    answers_like([-5_i64, 7, i64::MIN, 0, 1 << 40, -1]);
    answers_like([(5_u16, 'b'), (5, 'a'), (0, 'z'), (9, '\0'), (7, 'q')]);
    answers_like([*b"one", *b"two", *b"six", *b"ten", *b"   "]);
    let map = CopyMapOf::<f64, bool>::with_options(64, options(1, 0)).unwrap();
    let mut worker = map.attach_timeout(Duration::ZERO).unwrap();
    assert_eq!(
        worker.extend([(0.5, true), (-0.5, false), (0.5, false)]),
        Ok(2)
    );
    let error = worker.insert(f64::NAN, true).unwrap_err();
    assert!(matches!(error.fault(), Some(Fault::Unordered(_))));
    assert!(matches!(worker.get(f64::NAN), Err(Fault::Unordered(_))));
    assert_eq!(worker.at_most(f64::INFINITY), Ok(Some((0.5, true))));
    assert_eq!(
        (worker.number(), worker.pending(), worker.waiting()),
        (0, Ok(None), 0)
    );
    assert_eq!(worker.clear(), Ok(()));
    assert_eq!((map.waiting(), worker.waiting()), (Ok(4), 4));
    assert_eq!(worker.reclaim().unwrap().values, 2);
    assert_eq!(worker.raw().put(1 << 63, true), Ok(None));
    assert_eq!(worker.first(), Ok(Some((0.0, true))));
    assert_eq!(
        format!("{worker:?}"),
        "CopyMapWorkerOf(CopyMapWorker { number: 0, .. })"
    );
    drop(worker);
    let text = "CopyMapOf { keys: {0.0}, map: CopyMap { keys: 1, capacity: 29, nodes: 64, workers: 1, .. } }";
    assert_eq!(format!("{map:?}"), text);
    assert_eq!((map.nodes(), map.capacity(), map.workers()), (64, 29, 1));
    assert_eq!(map.raw().len(), Ok(1));
    let full = CopyMapOf::from_entries(7, options(1, 0), [(1_u8, 1), (2, 2)]);
    assert!(matches!(full, Err(Fault::MapFull(_))));
}
