//! Tests each call by one thread, and each fault that one thread can meet.

use nm_set::{Advance, Fault, Full, Options, Set, Shape, Stamp, Worker, MOST_KEY};
use std::error::Error;

/// A set with room for one key.
fn small(workers: u32) -> Set {
    of_shape(7, workers, Shape::Unbalanced)
}

fn of_shape(nodes: u32, workers: u32, shape: Shape) -> Set {
    let options = Options {
        workers,
        shape,
        ..Options::default()
    };
    Set::with_options(nodes, options).unwrap()
}

#[test]
fn types_cross_threads_as_they_should() {
    fn is_shared<T: Send + Sync + Clone + std::panic::RefUnwindSafe + 'static>() {}
    fn is_sent<T: Send + 'static>() {}
    fn is_error<T: Error + Send + Sync + Copy + 'static>() {}
    is_shared::<Set>();
    is_sent::<Worker>();
    is_error::<Fault>();
    let fault: Box<dyn Error + Send + Sync> = Fault::NoMemory.into();
    assert_eq!(fault.to_string(), "memory was refused");
}

/// Returns the text of the fault of a set with these nodes and workers, or None.
fn refused(nodes: u32, workers: u32) -> Option<String> {
    let options = Options {
        workers,
        ..Options::default()
    };
    let result = Set::with_options(nodes, options).err();
    result.map(|fault| fault.to_string())
}

#[test]
fn wrong_sizes_return_faults() {
    assert_eq!(Set::with_nodes(6).err(), Some(Fault::Nodes(6)));
    let result = refused(268_435_457, 64).unwrap();
    assert_eq!(
        result,
        "the number of nodes is not 7 to 268,435,456: 268435457"
    );
    let result = refused(64, 0).unwrap();
    assert_eq!(result, "the number of workers is not 1 to 64: 0");
    assert_eq!(
        refused(64, 65).unwrap(),
        "the number of workers is not 1 to 64: 65"
    );
    let set = small(64);
    assert_eq!((set.workers(), set.nodes()), (64, 7));
}

#[test]
fn keys_come_and_go() {
    for shape in [Shape::Radix, Shape::Unbalanced] {
        let set = of_shape(64, 64, shape);
        assert_eq!(set.contains(5), Ok(false));
        assert_eq!(
            (set.insert(5), set.insert(5), set.contains(5)),
            (Ok(true), Ok(false), Ok(true))
        );
        assert_eq!(
            (set.remove(5), set.remove(5), set.contains(5)),
            (Ok(true), Ok(false), Ok(false))
        );
        assert_eq!((set.insert(MOST_KEY), set.insert(0)), (Ok(true), Ok(true)));
        let report = set.close().unwrap();
        assert_eq!(report.keys(), [0, MOST_KEY]);
        assert!(report.contains(0) && !report.contains(5) && !report.is_empty());
        assert_eq!((report.len(), report.reached(), report.free()), (2, 4, 53));
        assert_eq!(report.into_iter().collect::<Vec<_>>(), [0, MOST_KEY]);
    }
}

#[test]
fn each_call_for_a_key_returns_the_fault_of_a_number_that_is_no_key() {
    let set = small(2);
    let mut worker = set.attach().unwrap();
    let result = Fault::Key(u64::MAX);
    let key = u64::MAX;
    assert_eq!(
        (set.insert(key), worker.insert(key)),
        (Err(result), Err(result))
    );
    assert_eq!(
        (set.remove(key), worker.remove(key)),
        (Err(result), Err(result))
    );
    assert_eq!(
        (set.contains(key), worker.contains(key)),
        (Err(result), Err(result))
    );
    assert_eq!(
        (set.at_least(key), worker.at_least(key)),
        (Err(result), Err(result))
    );
    assert_eq!(
        (set.at_most(key), worker.at_most(key)),
        (Err(result), Err(result))
    );
    let keys = [5, key];
    assert_eq!(set.contains_many(&keys), Err(result));
    assert_eq!(worker.contains_many(&keys), Err(result));
    assert_eq!(worker.try_contains_many(&keys, 64), Err(result));
    assert_eq!(worker.try_insert(key, 64), Err(result));
    assert_eq!(worker.try_remove(key, 64), Err(result));
    assert_eq!(worker.try_contains(key, 64), Err(result));
    assert_eq!(worker.try_at_least(key, 64), Err(result));
    assert_eq!(set.insert(MOST_KEY + 1), Err(Fault::Key(MOST_KEY + 1)));
    let text = "the key 18446744073709551615 is above 18,446,744,073,709,551,612 (2^64 - 4)";
    assert_eq!(result.to_string(), text);
}

#[test]
fn a_worker_has_the_calls_of_the_library() {
    let set = small(2);
    let mut worker = set.worker(1).unwrap();
    assert_eq!(worker.number(), 1);
    assert_eq!(
        (worker.try_contains(5, 0), worker.try_contains(5, 64)),
        (Err(Fault::Busy), Ok(false))
    );
    assert_eq!(
        (worker.try_insert(5, 64), worker.try_insert(6, 64)),
        (Ok(true), Err(Fault::NoNodes))
    );
    assert_eq!(
        (worker.try_remove(5, 1), worker.pending().unwrap()),
        (Err(Fault::Unfinished), Some(5))
    );
    assert_eq!(
        (worker.try_contains(5, 64), worker.try_finish(0)),
        (Err(Fault::Pending), Err(Fault::Unfinished))
    );
    assert_eq!(
        (
            worker.try_finish(64),
            worker.try_finish(64),
            worker.pending().unwrap()
        ),
        (Ok(true), Ok(false), None)
    );
    let guard = worker.pin().unwrap();
    assert_eq!(guard.epoch(), 0);
    let mut other = set.worker(0).unwrap();
    assert_eq!(
        (other.advance().unwrap(), other.advance().unwrap()),
        (
            Advance::Moved { epoch: 1 },
            Advance::Held {
                worker: 1,
                epoch: 0
            }
        )
    );
    let behind = other.behind().unwrap();
    assert_eq!((behind.epoch, behind.workers.to_string()), (1, "1".into()));
    drop(guard);
    assert_eq!(
        (worker.collect().unwrap(), other.advance().unwrap()),
        (0, Advance::Moved { epoch: 2 })
    );
    assert_eq!(
        (
            worker.waiting().unwrap(),
            worker.collect().unwrap(),
            worker.waiting().unwrap()
        ),
        (2, 2, 0)
    );
    let stats = worker.stats().unwrap();
    assert_eq!((stats.links, stats.flags, stats.splices), (1, 1, 1));
    assert_eq!((stats.retired, stats.freed, stats.queued), (2, 2, 0));
}

#[test]
fn several_keys_are_looked_up_in_a_call() {
    let set = small(2);
    let mut worker = set.worker(0).unwrap();
    assert_eq!(worker.insert(5), Ok(true));
    assert_eq!(
        (
            worker.contains_many(&[4, 5, MOST_KEY, 5]),
            set.contains_many(&[])
        ),
        (Ok(vec![false, true, false, true]), Ok(vec![]))
    );
    assert_eq!(worker.try_remove(5, 1), Err(Fault::Unfinished));
    assert_eq!(
        (worker.contains_many(&[5, 6]), worker.pending().unwrap()),
        (Ok(vec![false, false]), None)
    );
    assert_eq!(worker.insert(5), Ok(true));
    assert_eq!(worker.try_contains_many(&[5, 6], 64), Ok(vec![true, false]));
}

#[test]
fn a_worker_whose_guard_was_forgotten_is_pinned_until_it_is_dropped() {
    let set = small(1);
    let mut worker = set.attach().unwrap();
    std::mem::forget(worker.pin().unwrap());
    let held = Err(Fault::Pinned);
    assert_eq!(
        (worker.insert(5), worker.contains(5), worker.remove(5)),
        (held, held, held)
    );
    assert_eq!(worker.try_insert(5, 64), held);
    assert_eq!(worker.pin().err(), Some(Fault::Pinned));
    drop(worker);
    assert_eq!(set.insert(5), Ok(true));
}

#[test]
fn a_worker_observes_the_stamp_of_another_one() {
    let set = small(2);
    let (mut writer, mut reader) = (set.worker(0).unwrap(), set.worker(1).unwrap());
    assert_eq!(
        (reader.observe(0), reader.observe(2)),
        (
            Ok(None),
            Err(Fault::Number {
                number: 2,
                workers: 2
            })
        )
    );
    assert_eq!(writer.insert(5), Ok(true));
    let done = |inserted, removed| Stamp { inserted, removed };
    assert_eq!(
        (writer.publish(), reader.observe(0)),
        (Ok(done(1, 0)), Ok(Some(done(1, 0))))
    );
    assert_eq!((reader.contains(5), writer.remove(5)), (Ok(true), Ok(true)));
    assert_eq!(
        (reader.observe(0), writer.publish()),
        (Ok(Some(done(1, 0))), Ok(done(1, 1)))
    );
    assert_eq!(
        (reader.observe(0), reader.contains(5)),
        (Ok(Some(done(1, 1))), Ok(false))
    );
}

#[test]
fn workers_are_given_out_once() {
    let set = small(2);
    let first = set.attach().unwrap();
    let number = Fault::Number {
        number: 2,
        workers: 2,
    };
    assert_eq!((first.number(), set.worker(2).err()), (0, Some(number)));
    assert_eq!(
        number.to_string(),
        "there is no worker 2: the set has 2, from 0 on"
    );
    let away = set.worker(0).unwrap_err();
    assert_eq!(away.to_string(), "worker 0 is attached to a thread");
    let second = set.attach().unwrap();
    assert_eq!((second.number(), second.set().workers()), (1, 2));
    drop(first);
    assert_eq!(
        (set.contains(5), set.attach().unwrap().number()),
        (Ok(false), 0)
    );
}

#[test]
fn a_thread_that_has_all_workers_itself_gets_no_worker() {
    let options = Options {
        workers: 2,
        timeout_ms: 50,
        ..Options::default()
    };
    let set = Set::with_options(64, options).unwrap();
    let (mut first, mut second) = (set.attach().unwrap(), set.attach().unwrap());
    let own = Fault::NoWorker { workers: 2 };
    assert_eq!(
        (set.try_attach().err(), set.attach().err()),
        (Some(own), Some(own))
    );
    let text = "no worker is free: each of the 2 (64 at most) is attached or in a call";
    assert_eq!(own.to_string(), text);
    let pins = (first.pin().unwrap(), second.pin().unwrap());
    assert_eq!((set.contains(5), set.insert(5)), (Err(own), Err(own)));
    drop(pins);
    assert_eq!(set.insert(5), Ok(true));
}

#[test]
fn a_call_borrows_a_worker_that_is_attached_and_not_pinned() {
    let options = Options {
        workers: 2,
        tries: 1,
        rounds: 0,
        ..Options::default()
    };
    let set = Set::with_options(64, options).unwrap();
    let (mut first, mut second) = (set.attach().unwrap(), set.attach().unwrap());
    let pin = first.pin().unwrap();
    assert_eq!((set.insert(5), set.insert(6)), (Ok(true), Ok(true)));
    assert_eq!(set.contains_many(&[5, 7]), Ok(vec![true, false]));
    assert_eq!(
        (
            second.stats().unwrap().links,
            second.publish().unwrap().inserted
        ),
        (2, 2)
    );
    assert_eq!((set.remove(5), second.pending().unwrap()), (Ok(true), None));
    assert_eq!(second.try_remove(6, 1), Err(Fault::Unfinished));
    assert_eq!(
        (set.pop_first(), second.pending().unwrap()),
        (Ok(None), None)
    );
    assert_eq!(
        (second.stats().unwrap().flags, second.waiting().unwrap()),
        (2, 4)
    );
    drop(pin);
    assert_eq!(first.stats().unwrap().links, 0);
    assert_eq!((set.len(), set.is_empty()), (Ok(0), Ok(true)));
}

#[test]
fn a_set_tells_how_many_keys_it_can_have() {
    for (nodes, capacity) in [(7, 1), (8, 1), (9, 2), (65_536, 32_765)] {
        assert_eq!(Set::with_nodes(nodes).unwrap().capacity(), capacity);
    }
    let set = Set::with_nodes(25).unwrap();
    assert_eq!(set.extend(0..10), Ok(set.capacity()));
    assert!(matches!(set.insert(10), Err(Fault::Full(_))));
}

#[test]
fn keys_are_counted_by_each_kind_of_call() {
    let set = Set::with_nodes(1_024).unwrap();
    let mut worker = set.attach().unwrap();
    assert_eq!((set.extend(0..10), set.len()), (Ok(10), Ok(10)));
    assert_eq!((worker.extend(5..15), set.len()), (Ok(5), Ok(15)));
    assert_eq!((worker.try_insert(20, 64), set.len()), (Ok(true), Ok(16)));
    assert_eq!((worker.try_insert(20, 64), set.len()), (Ok(false), Ok(16)));
    // An unfinished remove counts once: when it begins.
    let unfinished = Err(Fault::Unfinished);
    assert_eq!((worker.try_remove(20, 1), set.len()), (unfinished, Ok(15)));
    assert_eq!((worker.try_finish(64), set.len()), (Ok(true), Ok(15)));
    assert_eq!((worker.remove(0), set.len()), (Ok(true), Ok(14)));
    assert_eq!((worker.pop_first(), set.len()), (Ok(Some(1)), Ok(13)));
    assert_eq!((set.pop_last(), set.len()), (Ok(Some(14)), Ok(12)));
    assert_eq!((worker.try_remove(99, 64), set.len()), (Ok(false), Ok(12)));
    drop(worker);
    assert_eq!((set.len(), set.close().unwrap().len()), (Ok(12), 12));
}

#[test]
fn a_set_is_closed_once_no_worker_is_out() {
    let set = Set::with_nodes(64).unwrap();
    let clone = set.clone();
    let mut worker = clone.attach().unwrap();
    assert_eq!((worker.insert(5), clone.insert(6)), (Ok(true), Ok(true)));
    let away = set.close().unwrap_err();
    assert_eq!(away.to_string(), "worker 0 is attached to a thread");
    assert_eq!((worker.contains(6), set.contains(5)), (Ok(true), Ok(true)));
    drop(worker);
    assert_eq!(clone.close().unwrap().keys(), [5, 6]);
    let closed = Fault::Closed;
    assert_eq!(
        (set.close().err(), set.insert(7)),
        (Some(closed), Err(closed))
    );
    assert_eq!(
        (set.attach().err(), set.worker(0).err()),
        (Some(closed), Some(closed))
    );
    assert_eq!(
        (set.len(), set.waiting(), set.free(), set.stats()),
        (Err(closed), Err(closed), Err(closed), Err(closed))
    );
    assert_eq!(
        (set.collect(), set.iter().next()),
        (Err(closed), Some(Err(closed)))
    );
    assert_eq!(format!("{set:?}"), "Set(the set is closed)");
}

#[test]
fn a_worker_outlives_its_set() {
    let mut worker = Set::with_nodes(64).unwrap().attach().unwrap();
    assert_eq!((worker.insert(5), worker.contains(5)), (Ok(true), Ok(true)));
}

#[test]
fn a_worker_goes_back_without_its_pending_key() {
    let set = of_shape(64, 1, Shape::Radix);
    let mut worker = set.attach().unwrap();
    assert_eq!(
        (worker.insert(5), worker.try_remove(5, 1)),
        (Ok(true), Err(Fault::Unfinished))
    );
    drop(worker);
    let mut worker = set.attach().unwrap();
    assert_eq!(
        (worker.pending().unwrap(), worker.try_contains(5, 64)),
        (None, Ok(false))
    );
}

#[test]
fn a_report_tells_what_waits() {
    let set = of_shape(64, 3, Shape::Radix);
    let mut worker = set.worker(1).unwrap();
    assert_eq!(
        (worker.insert(5), worker.insert(6), worker.remove(5)),
        (Ok(true), Ok(true), Ok(true))
    );
    drop(worker);
    let report = set.close().unwrap();
    let waiting: Vec<_> = report.waiting().iter().map(Vec::len).collect();
    assert_eq!(
        (waiting, report.keys(), report.free() + report.reached()),
        (vec![0, 2, 0], &[6][..], 57)
    );
    assert!(report.waiting()[1]
        .iter()
        .all(|node| node.slot > 5 && node.generation == 1 && node.label == 0));
}

/// The numbers of a set come in one call, with the worker whose pin holds the epoch back.
#[test]
fn a_set_has_numbers_to_watch() {
    let set = Set::with_nodes(1_024).unwrap();
    set.extend(0..10).unwrap();
    let mut worker = set.attach().unwrap();
    assert_eq!(worker.remove(3), Ok(true));
    let full = Full {
        nodes: 1_024,
        keys: 9,
        waiting: 2,
        ..Full::default()
    };
    assert_eq!(set.stats(), Ok(full));
    let pin = worker.pin().unwrap();
    set.collect().unwrap();
    assert_eq!(set.stats().unwrap().behind.len(), 1);
    drop(pin);
}
