//! Tests what managed calls do when the library's plain calls give up. Small bounds make each part
//! run.

use nm_set::{Fault, Full, Options, Set};
use std::thread;
use std::time::{Duration, Instant};

/// A set with room for one key.
fn small(workers: u32) -> Set {
    let options = Options {
        workers,
        ..Options::default()
    };
    Set::with_options(7, options).unwrap()
}

#[test]
fn a_remove_that_has_begun_is_finished() {
    let options = Options {
        tries: 1,
        ..Options::default()
    };
    let set = Set::with_options(64, options).unwrap();
    let mut worker = set.attach().unwrap();
    for key in 0..10 {
        assert_eq!(
            (
                worker.insert(key),
                worker.remove(key),
                worker.pending().unwrap(),
                worker.contains(key)
            ),
            (Ok(true), Ok(true), None, Ok(false))
        );
    }
}

#[test]
fn a_remove_of_before_is_finished_first() {
    let mut worker = Set::with_nodes(64).unwrap().attach().unwrap();
    for key in 0..10 {
        assert_eq!(
            (worker.insert(key), worker.try_remove(key, 1)),
            (Ok(true), Err(Fault::Unfinished))
        );
        assert_eq!(
            (worker.contains(key), worker.pending().unwrap()),
            (Ok(false), None)
        );
    }
}

#[test]
fn contention_is_returned_at_the_bound() {
    let options = Options {
        tries: 0,
        ..Options::default()
    };
    let set = Set::with_options(64, options).unwrap();
    let mut worker = set.attach().unwrap();
    assert_eq!(
        (worker.try_insert(5, 64), worker.try_remove(5, 1)),
        (Ok(true), Err(Fault::Unfinished))
    );
    assert_eq!(
        (
            worker.contains(6),
            worker.pending().unwrap(),
            worker.try_finish(64)
        ),
        (Err(Fault::Contention), Some(5), Ok(true))
    );
    drop(worker);
    assert_eq!(
        (set.insert(5), set.contains(5), set.remove(5)),
        (
            Err(Fault::Contention),
            Err(Fault::Contention),
            Err(Fault::Contention)
        )
    );
}

#[test]
fn full_is_returned_only_after_a_collection() {
    let set = small(2);
    let mut worker = set.attach().unwrap();
    for key in 0..100 {
        assert_eq!(
            (
                worker.insert(key),
                worker.remove(key),
                worker.waiting().unwrap()
            ),
            (Ok(true), Ok(true), 2)
        );
        assert_eq!(worker.try_insert(key + 1, 64), Err(Fault::NoNodes));
    }
    assert_eq!((worker.insert(5), worker.insert(5)), (Ok(true), Ok(false)));
}

#[test]
fn what_waits_with_an_attached_worker_that_makes_no_call_is_collected_too() {
    let set = small(2);
    let (mut idle, mut other) = (set.attach().unwrap(), set.attach().unwrap());
    assert_eq!(
        (idle.insert(5), idle.remove(5), idle.waiting().unwrap()),
        (Ok(true), Ok(true), 2)
    );
    assert_eq!((other.insert(6), idle.waiting().unwrap()), (Ok(true), 0));
    assert_eq!(idle.contains(6), Ok(true));
}

#[test]
fn a_set_whose_keys_take_all_nodes_tells_so_at_once() {
    let options = Options {
        timeout_ms: u32::MAX,
        ..Options::default()
    };
    let set = Set::with_options(9, options).unwrap();
    assert_eq!((set.insert(5), set.insert(6)), (Ok(true), Ok(true)));
    let full = Fault::Full(Full {
        nodes: 9,
        keys: 2,
        ..Full::default()
    });
    assert_eq!(
        (set.insert(7), set.attach().unwrap().insert(7)),
        (Err(full), Err(full))
    );
    let text = "the set is full: its 2 keys take 9 of its 9 nodes, and 0 wait to be freed";
    assert_eq!(full.to_string(), text);
}

#[test]
fn what_waits_with_workers_that_nobody_uses_is_collected_too() {
    let set = small(3);
    let mut worker = set.worker(0).unwrap();
    assert_eq!(
        (
            worker.insert(5),
            worker.remove(5),
            worker.waiting().unwrap()
        ),
        (Ok(true), Ok(true), 2)
    );
    drop(worker);
    let mut other = set.worker(1).unwrap();
    assert_eq!(
        (other.try_insert(6, 64), other.insert(6)),
        (Err(Fault::NoNodes), Ok(true))
    );
    drop(other);
    assert_eq!((set.remove(6), set.insert(7)), (Ok(true), Ok(true)));
}

#[test]
fn full_is_returned_after_the_timeout_if_a_worker_holds_the_epoch_back() {
    let set = small(2);
    let mut reader = set.attach().unwrap();
    let guard = reader.pin().unwrap();
    assert_eq!((set.insert(5), set.remove(5)), (Ok(true), Ok(true)));
    let begin = Instant::now();
    let Err(Fault::Full(full)) = set.insert(6) else {
        panic!("nodes were freed that are pinned");
    };
    assert!(
        begin.elapsed() >= Duration::from_millis(64),
        "{:?}",
        begin.elapsed()
    );
    assert_eq!((full.nodes, full.keys, full.waiting), (7, 0, 2));
    assert_eq!(full.behind.iter().collect::<Vec<_>>(), [0]);
    let text =
        "the set is full: its 0 keys take 5 of its 7 nodes, and 2 wait to be freed; worker 0 \
                is in their way, by a pin or in a call";
    assert_eq!(full.to_string(), text);
    assert_eq!(set.collect(), Ok(0));
    drop(guard);
    assert_eq!(set.insert(6), Ok(true));
}

#[test]
fn an_insert_with_a_timeout_of_0_tells_full_at_once() {
    let options = Options {
        timeout_ms: 0,
        ..Options::default()
    };
    let set = Set::with_options(7, options).unwrap();
    let mut reader = set.attach().unwrap();
    let _guard = reader.pin().unwrap();
    assert_eq!((set.insert(5), set.remove(5)), (Ok(true), Ok(true)));
    assert!(matches!(set.insert(6), Err(Fault::Full(_))));
}

#[test]
fn an_insert_waits_for_a_pin_to_end() {
    let options = Options {
        timeout_ms: u32::MAX,
        ..Options::default()
    };
    let set = Set::with_options(9, options).unwrap();
    let mut reader = set.attach().unwrap();
    let guard = reader.pin().unwrap();
    for key in [4, 5] {
        assert_eq!((set.insert(key), set.remove(key)), (Ok(true), Ok(true)));
    }
    thread::scope(|scope| {
        let own = scope.spawn(|| set.attach().unwrap().insert(6));
        let any = scope.spawn(|| set.insert(6));
        thread::sleep(Duration::from_millis(50));
        assert!(!own.is_finished() && !any.is_finished());
        drop(guard);
        let result = (own.join().unwrap(), any.join().unwrap());
        assert!(
            result == (Ok(true), Ok(false)) || result == (Ok(false), Ok(true)),
            "{result:?}"
        );
    });
}

#[test]
fn retired_nodes_are_collected_as_they_come_due() {
    let options = Options {
        collect_after: Some(8),
        ..Options::default()
    };
    let set = Set::with_options(4_096, options).unwrap();
    let mut worker = set.attach().unwrap();
    for key in 0..1_000 {
        assert_eq!(
            (worker.insert(key), worker.remove(key)),
            (Ok(true), Ok(true))
        );
        assert!(
            worker.waiting().unwrap() <= 32,
            "{} nodes wait",
            worker.waiting().unwrap()
        );
    }
    assert!(worker.stats().unwrap().freed >= 1_900);
}

#[test]
fn a_collection_frees_what_all_have_left() {
    let set = Set::with_nodes(64).unwrap();
    assert_eq!(
        (set.insert(5), set.remove(5), set.collect(), set.collect()),
        (Ok(true), Ok(true), Ok(2), Ok(0))
    );
}
