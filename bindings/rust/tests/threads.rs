//! Tests threads on one set: their answers add up to the report.

use nm_set::{Fault, Options, Set, Worker};
use std::collections::BTreeSet;
use std::panic::{catch_unwind, AssertUnwindSafe};
use std::sync::atomic::{AtomicBool, Ordering};
use std::sync::{Barrier, Mutex};
use std::thread::{self, scope};
use std::time::{Duration, Instant};

const THREADS: u64 = 4;
const KEYS: u64 = 64;
const CALLS: u64 = 20_000;

/// The calls of a thread for keys, by the set or by a worker.
trait Calls {
    fn has(&mut self, key: u64) -> Result<bool, Fault>;
    fn add(&mut self, key: u64) -> Result<bool, Fault>;
    fn take(&mut self, key: u64) -> Result<bool, Fault>;
}

macro_rules! calls_of {
    ($($type:ty),*) => {
        $(impl Calls for $type {
            fn has(&mut self, key: u64) -> Result<bool, Fault> {
                self.contains(key)
            }
            fn add(&mut self, key: u64) -> Result<bool, Fault> {
                self.insert(key)
            }
            fn take(&mut self, key: u64) -> Result<bool, Fault> {
                self.remove(key)
            }
        })*
    };
}

calls_of!(Worker, Set);

/// Returns a number from the environment, for a longer run, or else the usual number.
fn number_of(name: &str, usual: u64) -> u64 {
    let result = std::env::var(name).ok();
    result.map_or(usual, |number| number.parse().expect("a whole number"))
}

/// Returns a set whose inserts wait for ten seconds: on a busy machine a thread may be preempted,
/// in the middle of a call, for longer than the usual timeout.
fn with_workers(nodes: u32, workers: u32) -> Set {
    let options = Options {
        workers,
        timeout_ms: 10_000,
        ..Options::default()
    };
    Set::with_options(nodes, options).unwrap()
}

fn draw(seed: &mut u64) -> u64 {
    *seed ^= *seed << 13;
    *seed ^= *seed >> 7;
    *seed ^= *seed << 17;
    *seed
}

/// Repeats a call until it has answered. With few tries it may return contention. A remove that has
/// begun counts, because its key will be removed.
fn answered(mut call: impl FnMut() -> Result<bool, Fault>) -> bool {
    loop {
        match call() {
            Ok(answer) => return answer,
            Err(Fault::Unfinished) => return true,
            Err(Fault::Contention) => thread::yield_now(),
            Err(fault) => panic!("{fault}"),
        }
    }
}

/// For each key how often it was inserted, less how often it was removed.
fn work(calls: &mut impl Calls, mut seed: u64) -> Vec<i64> {
    let mut balance = vec![0; KEYS as usize];
    for _ in 0..CALLS {
        let drawn = draw(&mut seed);
        let key = drawn % KEYS;
        match drawn >> 32 & 3 {
            0 => balance[key as usize] += i64::from(answered(|| calls.add(key))),
            1 => balance[key as usize] -= i64::from(answered(|| calls.take(key))),
            _ => drop(answered(|| calls.has(key))),
        }
    }
    balance
}

/// Checks that the report has the keys that the balances leave, and each node once, and that the
/// set returns the same numbers before its close.
fn adds_up(set: &Set, balances: &[Vec<i64>]) {
    let result = (
        set.len().unwrap(),
        set.waiting().unwrap(),
        set.free().unwrap(),
    );
    let report = set.close().unwrap();
    for key in 0..KEYS {
        let balance: i64 = balances.iter().map(|of| of[key as usize]).sum();
        assert_eq!(balance, i64::from(report.contains(key)), "key {key}");
    }
    let waiting: usize = report.waiting().iter().map(Vec::len).sum();
    assert_eq!(report.reached() as usize, 2 * report.len());
    assert_eq!(
        report.free() as usize + report.reached() as usize + waiting,
        set.nodes() as usize - 5
    );
    assert_eq!(result, (report.len(), waiting as u64, report.free().into()));
}

/// Runs four threads on one set. Each makes its calls by what a function returns to it.
fn play<C: Calls>(set: &Set, calls: impl Fn(&Set) -> C + Sync) {
    let (balances, begin) = (Mutex::new(Vec::new()), Barrier::new(THREADS as usize));
    scope(|scope| {
        for thread in 0..THREADS {
            let (balances, begin, calls) = (&balances, &begin, &calls);
            scope.spawn(move || {
                begin.wait();
                let balance = work(&mut calls(set), 88_172_645_463_325_252 + thread);
                balances.lock().unwrap().push(balance);
            });
        }
    });
    adds_up(set, &balances.into_inner().unwrap());
}

/// Returns a set with few nodes and few tries, whose inserts wait long instead.
fn scarce(tries: u32, workers: u32) -> Set {
    let options = Options {
        workers,
        tries,
        rounds: 4,
        timeout_ms: 10_000,
        ..Options::default()
    };
    Set::with_options(256, options).unwrap()
}

#[test]
fn threads_with_workers_add_up() {
    play(&with_workers(1_024, 64), |set| set.attach().unwrap());
}

#[test]
fn threads_with_workers_add_up_where_room_is_scarce_and_tries_are_few() {
    play(&scarce(1, 5), |set| set.attach().unwrap());
}

#[test]
fn threads_without_workers_add_up() {
    play(&with_workers(1_024, 64), Set::clone);
}

#[test]
fn threads_without_workers_add_up_where_these_are_fewer_and_room_is_scarce() {
    play(&scarce(2, 3), Set::clone);
}

#[test]
fn threads_attach_themselves_at_once() {
    let set = Set::with_nodes(1_024).unwrap();
    let (numbers, begin) = (Mutex::new(BTreeSet::new()), Barrier::new(THREADS as usize));
    scope(|scope| {
        for _ in 0..THREADS {
            scope.spawn(|| {
                begin.wait();
                let worker = set.attach().unwrap();
                numbers.lock().unwrap().insert(worker.number());
                begin.wait();
            });
        }
    });
    assert_eq!(numbers.into_inner().unwrap(), [0, 1, 2, 3].into());
    assert!(set.close().unwrap().is_empty());
}

#[test]
fn more_threads_than_workers_wait_for_one() {
    let set = with_workers(4_096, 2);
    scope(|scope| {
        for thread in 0..8 {
            let set = &set;
            scope.spawn(move || {
                for key in (0..200).map(|number| number * 8 + thread) {
                    assert_eq!(set.insert(key), Ok(true));
                    assert_eq!(set.contains(key), Ok(true));
                }
            });
        }
    });
    assert_eq!(set.close().unwrap().len(), 1_600);
}

#[test]
fn two_hundred_threads_attach_work_and_end() {
    let set = Set::with_nodes(65_536).unwrap();
    let begin = Barrier::new(200);
    scope(|scope| {
        for thread in 0..200 {
            let (set, begin) = (&set, &begin);
            scope.spawn(move || {
                begin.wait();
                for round in 0..5 {
                    let mut worker = set.attach().unwrap();
                    assert_eq!(worker.insert(thread * 5 + round), Ok(true));
                    assert_eq!(set.len().map(|keys| keys <= 1_000), Ok(true));
                }
            });
        }
    });
    let keys: Vec<u64> = (0..1_000).collect();
    assert_eq!(set.close().unwrap().keys(), keys);
}

#[test]
fn an_attach_waits_for_another_thread_and_no_longer_than_its_timeout() {
    let set = with_workers(64, 1);
    let (mut worker, begin) = (set.attach().unwrap(), Instant::now());
    scope(|scope| {
        let result = scope.spawn(|| {
            let at_once = set.try_attach().unwrap_err();
            let later = set.attach_timeout(Duration::from_millis(30)).unwrap_err();
            (at_once, later, begin.elapsed())
        });
        let (at_once, later, took) = result.join().unwrap();
        let none = Fault::NoWorker { workers: 1 };
        assert_eq!((at_once, later), (none, none));
        let text = "no worker is free: each of the 1 (64 at most) is attached or in a call";
        assert_eq!(none.to_string(), text);
        assert!(took >= Duration::from_millis(30), "{took:?}");
        let guard = worker.pin().unwrap();
        let attached = scope.spawn(|| set.attach().unwrap().contains(5));
        let called = scope.spawn(|| set.insert(6));
        thread::sleep(Duration::from_millis(400));
        assert!(!attached.is_finished() && !called.is_finished());
        drop(guard);
        assert_eq!(called.join().unwrap(), Ok(true));
        assert!(!attached.is_finished());
        assert_eq!(worker.insert(5), Ok(true));
        drop(worker);
        assert_eq!(attached.join().unwrap(), Ok(true));
    });
}

/// The other thread makes its first call a little later. It keeps the worker for longer than a
/// thread waits that has all workers itself.
#[test]
fn a_thread_that_has_sent_its_workers_away_waits_for_one() {
    let set = with_workers(64, 1);
    let mut worker = set.attach().unwrap();
    scope(|scope| {
        scope.spawn(|| {
            thread::sleep(Duration::from_millis(10));
            assert_eq!(worker.insert(5), Ok(true));
            thread::sleep(Duration::from_millis(400));
            drop(worker);
        });
        assert_eq!(set.attach().unwrap().contains(5), Ok(true));
    });
}

#[test]
fn threads_that_have_all_workers_call_the_set() {
    let options = Options {
        workers: THREADS as u32,
        tries: 2,
        rounds: 1,
        timeout_ms: 10_000,
        ..Options::default()
    };
    let set = Set::with_options(4_096, options).unwrap();
    let begin = Barrier::new(THREADS as usize);
    let balances = Mutex::new(Vec::new());
    scope(|scope| {
        for thread in 0..THREADS {
            let (set, begin, balances) = (&set, &begin, &balances);
            scope.spawn(move || {
                let mut worker = set.attach().unwrap();
                begin.wait();
                let mut balance = work(&mut worker, 5 + thread);
                for (key, by_set) in work(&mut set.clone(), 7 + thread).iter().enumerate() {
                    balance[key] += by_set;
                }
                balances.lock().unwrap().push(balance);
            });
        }
    });
    adds_up(&set, &balances.into_inner().unwrap());
}

#[test]
fn a_worker_goes_back_with_a_thread_that_panics() {
    let set = with_workers(64, 1);
    let mut worker = set.attach().unwrap();
    let result = thread::spawn(move || {
        assert_eq!((worker.insert(5), worker.insert(6)), (Ok(true), Ok(true)));
        assert_eq!(worker.try_remove(6, 1), Err(Fault::Unfinished));
        assert_eq!(worker.pending().unwrap(), None, "as it should");
    });
    assert!(result.join().is_err());
    assert_eq!(set.attach().unwrap().pending().unwrap(), None);
    assert_eq!((set.contains(5), set.contains(6)), (Ok(true), Ok(false)));
    assert_eq!(set.close().unwrap().keys(), [5]);
}

#[test]
fn how_full_a_set_is_can_be_asked_beside_callers() {
    let set = with_workers(65_536, 64);
    assert_eq!(set.extend(0..100), Ok(100));
    let begin = Barrier::new(4);
    scope(|scope| {
        for key in 1_000..1_003 {
            let (set, begin) = (&set, &begin);
            scope.spawn(move || {
                let mut worker = set.attach().unwrap();
                begin.wait();
                for _ in 0..50_000 {
                    assert_eq!(worker.insert(key), Ok(true));
                    assert_eq!(worker.remove(key), Ok(true));
                }
            });
        }
        begin.wait();
        for _ in 0..100 {
            let keys = set.len().unwrap();
            assert!((100..=103).contains(&keys), "{keys} keys");
            assert!(set.free().unwrap() <= 65_536 - 205);
            assert!(set.collect().unwrap() < 65_536 && set.waiting().unwrap() < 65_536);
        }
    });
    assert_eq!((set.len(), set.close().unwrap().len()), (Ok(100), 100));
}

#[test]
fn a_panic_through_a_pin_leaves_the_worker_and_the_set_usable() {
    let set = with_workers(7, 2);
    let mut worker = set.attach().unwrap();
    let result = catch_unwind(AssertUnwindSafe(|| {
        let guard = worker.pin().unwrap();
        assert_eq!(guard.epoch(), u64::MAX, "as it should");
    }));
    assert!(result.is_err());
    for key in 0..100 {
        assert_eq!(
            (worker.insert(key), worker.remove(key)),
            (Ok(true), Ok(true))
        );
        assert_eq!((set.insert(key), set.remove(key)), (Ok(true), Ok(true)));
    }
    let result = catch_unwind(|| set.retain(|key| panic!("as it should, at {key}")));
    assert_eq!((result.is_ok(), set.insert(5)), (true, Ok(true)));
    let result = catch_unwind(|| set.retain(|key| panic!("as it should, at {key}")));
    assert_eq!((result.is_err(), set.len()), (true, Ok(1)));
}

/// Returns the keys that a thread popped, until no key was left and no thread inserted.
fn popped_by(
    mut pop: impl FnMut() -> Result<Option<u64>, Fault>,
    are_all_in: &AtomicBool,
) -> Vec<u64> {
    let mut keys = Vec::new();
    loop {
        let was_last = are_all_in.load(Ordering::SeqCst);
        match pop() {
            Ok(Some(key)) => keys.push(key),
            Ok(None) if was_last => return keys,
            Ok(None) | Err(Fault::Contention) => thread::yield_now(),
            Err(fault) => panic!("{fault}"),
        }
    }
}

/// With one try and no further round many removes are left unfinished. Meanwhile other threads ask
/// the workers how full the set is, and collect.
#[test]
fn each_key_is_popped_by_one_call_where_tries_are_few() {
    const KEYS: u64 = 20_000;
    let options = Options {
        workers: 6,
        tries: 1,
        rounds: 0,
        ..Options::default()
    };
    let set = Set::with_options(262_144, options).unwrap();
    let are_all_in = AtomicBool::new(false);
    let mut popped = scope(|scope| {
        let insert = |first: u64| {
            for key in 0..KEYS {
                assert!(answered(|| set.insert(key * 3 + first)));
            }
        };
        let inserters = [0, 1, 2].map(|first| scope.spawn(move || insert(first)));
        let by_set = scope.spawn(|| popped_by(|| set.pop_first(), &are_all_in));
        let (mut first, mut second) = (set.attach().unwrap(), set.attach().unwrap());
        let by_first = scope.spawn(|| popped_by(move || first.pop_first(), &are_all_in));
        let by_second = scope.spawn(|| popped_by(move || second.pop_last(), &are_all_in));
        while !inserters.iter().all(|inserter| inserter.is_finished()) {
            set.waiting().and(set.len()).and(set.collect()).unwrap();
        }
        are_all_in.store(true, Ordering::SeqCst);
        [by_set, by_first, by_second].map(|popping| popping.join().unwrap())
    })
    .concat();
    popped.sort_unstable();
    assert_eq!(popped, (0..3 * KEYS).collect::<Vec<_>>());
    assert!(set.close().unwrap().is_empty());
}

/// Inserts until the set is closed; returns how many keys it inserted, and the fault at the end.
fn call_until_closed(set: &Set, first: u64) -> (usize, Fault) {
    let mut inserted = 0;
    for key in (first..16_000).step_by(16).cycle() {
        let result = set.insert(key).and_then(|is_new| {
            inserted += usize::from(is_new);
            set.contains(key)
        });
        match result {
            Ok(is_in) => assert!(is_in),
            Err(fault) => return (inserted, fault),
        }
    }
    unreachable!("the keys come again and again");
}

#[test]
fn a_set_closed_beside_sixteen_callers_tells_each_so() {
    for round in 0..number_of("NM_SET_CLOSES", 40) {
        let workers = 1 + round as u32 % 24;
        let (set, begin) = (with_workers(65_536, workers), Barrier::new(17));
        let (report, result) = scope(|scope| {
            let callers: Vec<_> = (0..16)
                .map(|first| {
                    let (set, begin) = (&set, &begin);
                    scope.spawn(move || {
                        begin.wait();
                        call_until_closed(set, first)
                    })
                })
                .collect();
            begin.wait();
            thread::sleep(Duration::from_micros(round % 40 * 100));
            let report = set.close().unwrap();
            let result: Vec<_> = callers
                .into_iter()
                .map(|caller| caller.join().unwrap())
                .collect();
            (report, result)
        });
        assert!(
            result.iter().all(|(_, fault)| *fault == Fault::Closed),
            "{result:?}"
        );
        let inserted: usize = result.iter().map(|(inserted, _)| inserted).sum();
        assert_eq!(
            report.len(),
            inserted,
            "each insert that answered stands in the report"
        );
    }
}

#[test]
fn of_several_closes_one_has_the_report() {
    for _ in 0..20 {
        let (set, begin) = (Set::from([5, 7]), Barrier::new(4));
        let reports: Vec<_> = scope(|scope| {
            let close = || {
                begin.wait();
                set.close()
            };
            let closers: Vec<_> = (0..4).map(|_| scope.spawn(close)).collect();
            let result = closers.into_iter().map(|closer| closer.join().unwrap());
            result
                .filter_map(|result| match result {
                    Ok(report) => Some(report),
                    Err(fault) => {
                        assert_eq!(fault, Fault::Closed);
                        None
                    }
                })
                .collect()
        });
        assert_eq!(reports.len(), 1);
        assert_eq!(reports[0].keys(), [5, 7]);
    }
}

#[test]
fn a_set_closed_beside_threads_that_attach_tells_each_so_or_names_its_worker() {
    for _ in 0..40 {
        let (set, begin) = (with_workers(1_024, 3), Barrier::new(5));
        scope(|scope| {
            for _ in 0..4 {
                scope.spawn(|| {
                    begin.wait();
                    let result =
                        std::iter::repeat_with(|| set.attach().map(drop)).find_map(Result::err);
                    assert_eq!(result, Some(Fault::Closed));
                });
            }
            begin.wait();
            while let Err(fault) = set.close() {
                assert!(matches!(fault, Fault::Attached(_)), "{fault}");
            }
        });
    }
}

/// Lets threads insert and remove keys below 1,000 for a while, so that the set has about 500 keys.
/// Returns how many calls they made.
fn churn<C: Calls>(
    set: &Set,
    threads: u64,
    time: Duration,
    calls: impl Fn(&Set) -> C + Sync,
) -> u64 {
    let end = Instant::now() + time;
    let made = Mutex::new(0);
    scope(|scope| {
        for thread in 0..threads {
            let (made, calls) = (&made, &calls);
            scope.spawn(move || {
                let (mut seed, mut own, mut count) = (thread + 1, calls(set), 0_u64);
                while Instant::now() < end {
                    let drawn = draw(&mut seed);
                    let result = match drawn >> 32 & 1 {
                        0 => own.add(drawn % 1_000),
                        _ => own.take(drawn % 1_000),
                    };
                    result.unwrap_or_else(|fault| panic!("{fault}"));
                    count += 1;
                }
                *made.lock().unwrap() += count;
            });
        }
    });
    made.into_inner().unwrap()
}

#[test]
fn sixteen_and_sixty_four_threads_find_no_set_full_that_has_room() {
    let time = Duration::from_millis(number_of("NM_SET_CHURN_MILLISECONDS", 500));
    for threads in [16, 64] {
        let set = with_workers(65_536, 64);
        let made = churn(&set, threads, time, |set| set.attach().unwrap());
        println!("{threads} threads with workers: {made} calls");
        assert!(set.close().unwrap().len() <= 1_000);
        let set = with_workers(65_536, 64);
        let made = churn(&set, threads, time, Set::clone);
        println!("{threads} threads without: {made} calls");
        assert!(set.close().unwrap().len() <= 1_000);
    }
}
