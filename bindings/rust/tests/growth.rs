//! Tests sets that grow and shrink beside threads, and takes that wait for a key.

use nm_set::{Fault, Options, Set, Stats};
use std::sync::atomic::{AtomicBool, AtomicU64, Ordering};
use std::thread::scope;
use std::time::{Duration, Instant};

const LONG: Duration = Duration::from_secs(60);

/// Returns a set that grows, whose calls wait for this time.
fn growing(timeout_ms: u32) -> Set {
    let options = Options {
        timeout_ms,
        ..Options::default()
    };
    Set::growing(options).unwrap()
}

#[test]
fn a_set_grows_beside_threads_and_keeps_its_keys() {
    const THREADS: u64 = 4;
    const EACH: u64 = 15_000;
    let set = growing(60_000);
    assert_eq!((set.capacity(), set.nodes()), (10_000, 20_005));
    scope(|scope| {
        for first in 0..THREADS {
            let set = &set;
            scope.spawn(move || {
                let mut worker = set.attach().unwrap();
                for number in 0..EACH {
                    let key = number * THREADS + first;
                    let is_new = if number % 2 == 0 {
                        worker.insert(key)
                    } else {
                        set.insert(key)
                    };
                    assert_eq!(is_new, Ok(true));
                }
                assert_eq!(worker.contains(first), Ok(true));
            });
        }
    });
    assert_eq!(set.len(), Ok((THREADS * EACH) as usize));
    assert!(set.capacity() >= (THREADS * EACH) as usize);
    set.shrink_to_fit().unwrap();
    assert_eq!(set.capacity(), (THREADS * EACH) as usize + 64);
    let keys: Vec<u64> = (0..THREADS * EACH).collect();
    assert_eq!(set.close().unwrap().keys(), keys);
}

#[test]
fn sizes_change_beside_threads() {
    let (set, is_over) = (growing(60_000), AtomicBool::new(false));
    let changed = AtomicU64::new(0);
    scope(|scope| {
        for seed in 0..4 {
            let (set, is_over, changed) = (&set, &is_over, &changed);
            scope.spawn(move || {
                let mut worker = set.attach().unwrap();
                for turn in 0_u64.. {
                    let key = (turn * 7 + seed) % 500;
                    let change = if turn % 3 == 0 {
                        u64::from(set.remove(key).unwrap()).wrapping_neg()
                    } else {
                        u64::from(worker.insert(key).unwrap())
                    };
                    changed.fetch_add(change, Ordering::Relaxed);
                    if is_over.load(Ordering::Relaxed) {
                        break;
                    }
                }
            });
        }
        for keys in 0..100 {
            set.reserve(1_000 + keys).unwrap();
            set.shrink_to_fit().unwrap();
        }
        is_over.store(true, Ordering::Relaxed);
    });
    let report = set.close().unwrap();
    assert_eq!(report.len() as u64, changed.into_inner());
}

#[test]
fn a_pinned_worker_prevents_a_new_size_and_is_named() {
    let set = growing(50);
    let mut worker = set.attach().unwrap();
    let guard = worker.pin().unwrap();
    let fault = set.reserve(20_000).unwrap_err();
    let text = "the set gets no new size: worker 0 is pinned";
    assert_eq!(fault.to_string(), text);
    let full = (0..20_000).find_map(|key| set.insert(key).err()).unwrap();
    let text = "the set cannot grow while worker 0 is pinned or in a call";
    assert!(full.to_string().contains(text), "{full}");
    assert_eq!(set.len(), Ok(10_000));
    drop(guard);
    assert_eq!((set.insert(20_000), set.capacity()), (Ok(true), 15_001));
    assert_eq!(
        (worker.contains(9_999), worker.contains(10_000)),
        (Ok(true), Ok(false))
    );
    assert_eq!(worker.stats().map(|stats: Stats| stats.flags), Ok(0));
}

#[test]
fn a_set_with_a_size_does_not_grow_by_itself() {
    let set = Set::with_nodes(64).unwrap();
    assert!((0..100).any(|key| matches!(set.insert(key), Err(Fault::Full(_)))));
    assert_eq!(set.growths(), Ok((0, Duration::ZERO)));
    assert_eq!((set.nodes(), set.reserve(100)), (64, Ok(())));
    let (count, longest) = set.growths().unwrap();
    assert!(count == 1 && longest > Duration::ZERO);
    assert_eq!((set.extend(0..100).is_ok(), set.len()), (true, Ok(100)));
    let nodes = 2_000_000_005;
    assert_eq!(set.reserve(1_000_000_000), Err(Fault::Nodes(nodes)));
}

#[test]
fn a_take_waits_for_a_key_and_ends_with_the_set() {
    let set = Set::new().unwrap();
    let begun = Instant::now();
    assert_eq!(set.wait_pop(Duration::from_millis(20)), Ok(None));
    assert!(begun.elapsed() >= Duration::from_millis(20));
    scope(|scope| {
        let by_set = scope.spawn(|| set.wait_pop(LONG));
        let by_worker = scope.spawn(|| set.attach().unwrap().wait_pop(LONG));
        assert_eq!(set.extend([5, 6]), Ok(2));
        let keys = [by_set.join().unwrap(), by_worker.join().unwrap()];
        assert!(keys == [Ok(Some(5)), Ok(Some(6))] || keys == [Ok(Some(6)), Ok(Some(5))]);
        let waits = scope.spawn(|| set.wait_pop(LONG));
        std::thread::sleep(Duration::from_millis(20));
        assert_eq!(set.close().unwrap().len(), 0);
        assert_eq!(waits.join().unwrap(), Err(Fault::Closed));
    });
}

#[test]
fn a_look_waits_for_a_lesser_key_and_takes_nothing() {
    let set = Set::new().unwrap();
    let begun = Instant::now();
    assert_eq!(set.wait_first(Duration::from_millis(20)), Ok(None));
    assert!(begun.elapsed() >= Duration::from_millis(20));
    scope(|scope| {
        let by_set = scope.spawn(|| set.wait_first_below(20, LONG));
        let by_worker = scope.spawn(|| set.attach().unwrap().wait_first_below(6, LONG));
        for key in 20..30 {
            assert_eq!(set.insert(key), Ok(true));
            std::thread::sleep(Duration::from_millis(2));
        }
        assert!(!by_set.is_finished() && !by_worker.is_finished());
        assert_eq!(set.insert(5), Ok(true));
        assert_eq!(by_set.join().unwrap(), Ok(Some(5)));
        assert_eq!(by_worker.join().unwrap(), Ok(Some(5)));
        assert_eq!(set.attach().unwrap().wait_first(LONG), Ok(Some(5)));
        assert_eq!(set.wait_first_below(5, Duration::ZERO), Ok(None));
        let waits = scope.spawn(|| set.wait_first_below(5, LONG));
        std::thread::sleep(Duration::from_millis(20));
        assert_eq!(set.close().unwrap().len(), 11);
        assert_eq!(waits.join().unwrap(), Err(Fault::Closed));
    });
}
