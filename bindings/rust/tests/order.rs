//! Tests the interface of `BTreeSet`: the same calls on both sets, and what is weaker beside other
//! threads.

use nm_set::{Fault, Options, Scanned, Set, Shape, MOST_KEY};
use std::collections::BTreeSet;
use std::sync::atomic::{AtomicBool, Ordering};
use std::sync::Barrier;
use std::thread;

/// Keys that are close together, far apart, and at both ends.
fn spread() -> BTreeSet<u64> {
    let near = 500..520;
    let far = (0..64).map(|bit| 1_u64 << bit);
    near.chain(far).chain([0, MOST_KEY - 1, MOST_KEY]).collect()
}

fn all(keys: impl Iterator<Item = Result<u64, Fault>>) -> Vec<u64> {
    keys.map(Result::unwrap).collect()
}

fn draw(seed: &mut u64) -> u64 {
    *seed = seed.wrapping_mul(6_364_136_223_846_793_005).wrapping_add(1);
    *seed >> 33
}

#[test]
fn both_ends_are_found_and_popped() {
    let mut model = spread();
    let set: Set = model.iter().copied().collect();
    let mut worker = set.attach().unwrap();
    while !model.is_empty() {
        let ends = (model.first().copied(), model.last().copied());
        assert_eq!((set.first().unwrap(), set.last().unwrap()), ends);
        assert_eq!((worker.first().unwrap(), worker.last().unwrap()), ends);
        assert_eq!(set.pop_first().unwrap(), model.pop_first());
        assert_eq!(worker.pop_last().unwrap(), model.pop_last());
        assert_eq!(worker.pop_first().unwrap(), model.pop_first());
        assert_eq!(set.pop_last().unwrap(), model.pop_last());
        assert_eq!(set.len().unwrap(), model.len());
    }
    assert_eq!(
        (set.first(), set.last(), set.is_empty()),
        (Ok(None), Ok(None), Ok(true))
    );
    assert_eq!((set.pop_first(), set.pop_last()), (Ok(None), Ok(None)));
}

#[test]
fn the_neighbours_of_each_key_are_found() {
    let model = spread();
    let set: Set = model.iter().copied().collect();
    let mut worker = set.attach().unwrap();
    let beside = |key: u64| [key.saturating_sub(1), key, (key + 1).min(MOST_KEY)];
    for key in model.iter().copied().flat_map(beside) {
        let above = model.range(key..).next().copied();
        let below = model.range(..=key).next_back().copied();
        assert_eq!(
            (set.at_least(key), set.at_most(key)),
            (Ok(above), Ok(below)),
            "{key}"
        );
        assert_eq!(
            (worker.at_least(key), worker.at_most(key)),
            (Ok(above), Ok(below)),
            "{key}"
        );
    }
}

#[test]
fn ranges_of_all_kinds_are_those_of_a_btree_set() {
    let model = spread();
    let set: Set = model.iter().copied().collect();
    macro_rules! same {
        ($($bounds:expr),*) => {
            $(
                let wanted: Vec<u64> = model.range($bounds).copied().collect();
                assert_eq!(all(set.range($bounds)), wanted);
                let wanted: Vec<u64> = model.range($bounds).rev().copied().collect();
                assert_eq!(all(set.range($bounds).rev()), wanted);
            )*
        };
    }
    use std::ops::Bound::{Excluded, Included, Unbounded};
    same!(
        ..,
        500..510,
        500..=510,
        ..510,
        ..=510,
        510..,
        3..=3,
        3..3,
        1_000_000..
    );
    same!(
        (Excluded(500), Included(510)),
        (Excluded(500), Excluded(510))
    );
    same!(
        (Excluded(MOST_KEY), Unbounded),
        (Unbounded, Excluded(0)),
        MOST_KEY..,
        ..u64::MAX
    );
    same!(
        (Included(u64::MAX), Included(u64::MAX)),
        (Excluded(u64::MAX), Unbounded)
    );
}

#[test]
fn scans_read_up_to_their_room_and_go_on() {
    let model: BTreeSet<u64> = (0..2_000).map(|key| 3 * key).chain([MOST_KEY]).collect();
    let set: Set = model.iter().copied().collect();
    let mut worker = set.attach().unwrap();
    for room in [1, 7, 100, 1_023, 1_024, 1_025, 2_001, usize::MAX] {
        let (mut all, mut rest) = (Vec::new(), Some(0));
        while let Some(from) = rest {
            let read = set.scan(from, room).unwrap();
            assert_eq!(worker.scan(from, room), Ok(read.clone()));
            assert!(read.entries.len() == room || read.next.is_none(), "{room}");
            all.extend(read.entries);
            rest = read.next;
        }
        assert!(all.iter().eq(&model), "{room}");
    }
    let read = |entries: Vec<u64>, next| Ok(Scanned { entries, next });
    assert_eq!(set.scan(3, 0), read(vec![], Some(3)));
    assert_eq!(set.scan(u64::MAX, 5), read(vec![], None));
    assert_eq!(set.scan(MOST_KEY, 1), read(vec![MOST_KEY], None));
}

#[test]
fn a_walk_goes_on_from_both_ends_and_ends_where_they_meet() {
    let model = spread();
    let set: Set = model.iter().copied().collect();
    let mut worker = set.attach().unwrap();
    let (mut wanted, mut found, mut own) = (model.iter().copied(), set.iter(), worker.iter());
    for turn in 0..model.len() + 4 {
        let (key, one, other) = match turn % 3 {
            0 => (wanted.next_back(), found.next_back(), own.next_back()),
            _ => (wanted.next(), found.next(), own.next()),
        };
        assert_eq!((one, other), (key.map(Ok), key.map(Ok)));
    }
    assert_eq!(set.iter().last(), Some(Ok(MOST_KEY)));
    let mut keys = 0;
    for key in &set {
        assert!(model.contains(&key.unwrap()));
        keys += 1;
    }
    assert_eq!(keys, model.len());
}

#[test]
fn sets_are_made_of_keys_and_take_more() {
    let mut set = Set::from([5, 7, 5]);
    assert_eq!((all(set.iter()), set.capacity()), (vec![5, 7], 10_000));
    assert_eq!(set.extend([7, 8, 9]), Ok(2));
    assert_eq!(set.attach().unwrap().extend([9, 10]), Ok(1));
    Extend::extend(&mut set, [11_u64]);
    Extend::extend(&mut set, &[12_u64]);
    assert_eq!(all(set.iter()), [5, 7, 8, 9, 10, 11, 12]);
    let big: Set = (0..20_000).collect();
    assert_eq!((big.capacity(), big.len()), (20_000, Ok(20_000)));
    assert_eq!(set.extend([1, u64::MAX, 2]), Err(Fault::Key(u64::MAX)));
    assert_eq!((set.contains(1), set.contains(2)), (Ok(true), Ok(false)));
}

#[test]
#[should_panic(expected = "the key 18446744073709551615 is above")]
fn what_is_no_key_makes_no_set() {
    let _set = Set::from([5, u64::MAX]);
}

#[test]
fn keys_are_kept_or_removed() {
    let set: Set = (0..100).collect();
    set.retain(|key| key % 3 == 0).unwrap();
    set.attach().unwrap().retain(|key| key % 2 == 0).unwrap();
    let wanted: Vec<u64> = (0..100).filter(|key| key % 6 == 0).collect();
    assert_eq!(all(set.iter()), wanted);
    set.clear().unwrap();
    assert_eq!((set.len(), set.is_empty()), (Ok(0), Ok(true)));
    assert_eq!(set.insert(MOST_KEY), Ok(true));
    set.attach().unwrap().clear().unwrap();
    assert_eq!(set.is_empty(), Ok(true));
}

#[test]
fn a_set_is_compared_with_one_of_the_standard_library() {
    let set: Set = (0..200).collect();
    let same: BTreeSet<u64> = (0..200).collect();
    let found = |other: &BTreeSet<u64>| {
        [
            set.is_subset(other),
            set.is_superset(other),
            set.is_disjoint(other),
        ]
        .map(Result::unwrap)
    };
    assert_eq!(found(&same), [true, true, false]);
    assert_eq!(found(&(0..199).collect()), [false, true, false]);
    assert_eq!(found(&(0..201).collect()), [true, false, false]);
    assert_eq!(found(&BTreeSet::new()), [false, true, true]);
    assert_eq!(found(&[199, u64::MAX].into()), [false, false, false]);
    assert_eq!(found(&[200, u64::MAX].into()), [false, false, true]);
    let read: Result<BTreeSet<u64>, Fault> = set.iter().collect();
    assert_eq!(read.unwrap(), same);
}

#[test]
fn a_set_shows_its_first_keys_and_never_waits_to_do_so() {
    let options = Options {
        workers: 1,
        shape: Shape::Unbalanced,
        ..Options::default()
    };
    let set = Set::with_options(1_024, options).unwrap();
    assert_eq!(format!("{set:?}"), "{}");
    set.extend(0..10).unwrap();
    assert_eq!(format!("{set:?}"), "{0, 1, 2, 3, 4, 5, 6, 7, 8, 9}");
    set.insert(10).unwrap();
    assert_eq!(format!("{set:?}"), "{0, 1, 2, 3, 4, 5, 6, 7, 8, 9, ..}");
    let worker = set.attach().unwrap();
    let text = "Set(no worker is free: each of the 1 (64 at most) is attached or in a call)";
    assert_eq!(
        (format!("{set:?}"), format!("{worker:?}")),
        (text.into(), "Worker { number: 0, .. }".into())
    );
}

/// The room for a pop of several keys may be any number: it takes memory for the keys alone.
#[test]
fn several_keys_are_popped_with_any_room() {
    let set: Set = (0..1_300).collect();
    let mut worker = set.attach().unwrap();
    let below: Vec<u64> = (0..1_200).collect();
    assert_eq!(worker.pop_first_many(1_200, 1 << 46).unwrap(), below);
    assert_eq!(set.pop_first_many(1_300, 99).unwrap().len(), 99);
    assert_eq!(set.pop_first_many(u64::MAX, usize::MAX), Ok(vec![1_299]));
    assert_eq!(set.pop_first_many(u64::MAX, usize::MAX), Ok(vec![]));
}

#[test]
fn how_full_a_set_is_counts_what_waits() {
    let set = Set::with_nodes(64).unwrap();
    assert_eq!(
        (set.len(), set.waiting(), set.free()),
        (Ok(0), Ok(0), Ok(59))
    );
    set.extend(0..5).unwrap();
    assert_eq!(
        (set.remove(3), set.len(), set.waiting()),
        (Ok(true), Ok(4), Ok(2))
    );
    assert_eq!(set.free(), Ok(49));
    let mut worker = set.attach().unwrap();
    assert_eq!((worker.remove(4), worker.insert(9)), (Ok(true), Ok(true)));
    assert_eq!(
        (set.len(), set.waiting(), set.free()),
        (Ok(4), Ok(4), Ok(47))
    );
    drop(worker);
    assert_eq!(
        (set.collect(), set.waiting(), set.free()),
        (Ok(4), Ok(0), Ok(51))
    );
}

/// Makes a pop until other threads do not take each key that it finds.
fn answered<T>(pop: impl Fn() -> Result<T, Fault>) -> T {
    loop {
        match pop() {
            Err(Fault::Contention) => {}
            popped => return popped.unwrap(),
        }
    }
}

/// Threads pop from both ends: each key is returned once.
#[test]
fn no_key_is_taken_twice() {
    let set: Set = (0..20_000).collect();
    let begin = Barrier::new(4);
    let taken = thread::scope(|scope| {
        let takers: Vec<_> = (0..4)
            .map(|taker| {
                let (set, begin) = (&set, &begin);
                scope.spawn(move || {
                    begin.wait();
                    let pop = || match taker {
                        0 => set.pop_last(),
                        _ => set.pop_first(),
                    };
                    std::iter::from_fn(|| answered(pop)).collect::<Vec<_>>()
                })
            })
            .collect();
        takers
            .into_iter()
            .flat_map(|taker| taker.join().unwrap())
            .collect::<Vec<_>>()
    });
    assert_eq!(taken.len(), 20_000);
    let taken: BTreeSet<_> = taken.into_iter().collect();
    assert_eq!(taken, (0..20_000).collect());
}

/// A walk in either direction returns each key that is in the set all the time, in order, whatever
/// is inserted and removed between them. It does not return a key that is never inserted.
#[test]
fn a_walk_beside_changes_tells_what_stands() {
    let set: Set = (0..50).map(|key| key * 8).collect();
    let is_done = AtomicBool::new(false);
    thread::scope(|scope| {
        for seed in 1..3 {
            let (set, is_done) = (&set, &is_done);
            scope.spawn(move || {
                let mut seed = seed;
                while !is_done.load(Ordering::Relaxed) {
                    let key = draw(&mut seed) % 50 * 8 + 1 + draw(&mut seed) % 3;
                    set.insert(key).unwrap();
                    set.remove(key).unwrap();
                }
            });
        }
        for _ in 0..200 {
            let up = all(set.iter());
            let mut down = all(set.iter().rev());
            down.reverse();
            for keys in [up, down] {
                assert!(keys.windows(2).all(|pair| pair[0] < pair[1]), "{keys:?}");
                assert!(keys.iter().all(|key| key % 8 < 4 && *key < 400), "{keys:?}");
                assert_eq!(
                    keys.iter().filter(|key| *key % 8 == 0).count(),
                    50,
                    "{keys:?}"
                );
            }
        }
        is_done.store(true, Ordering::Relaxed);
    });
}

/// What a call panics with, or None.
fn panic_of(call: impl FnOnce() + std::panic::UnwindSafe) -> Option<String> {
    let caught = std::panic::catch_unwind(call).err()?;
    let text = caught.downcast_ref::<&str>().map(|text| text.to_string());
    Some(
        text.or_else(|| caught.downcast_ref::<String>().cloned())
            .unwrap(),
    )
}

#[test]
fn ranges_panic_where_those_of_a_tree_do() {
    use std::collections::BTreeSet;
    use std::ops::Bound::{self, Excluded, Included, Unbounded};
    let each = [5_u64, 6, u64::MAX]
        .iter()
        .flat_map(|&key| [Included(key), Excluded(key)]);
    let each: Vec<Bound<u64>> = each.chain([Unbounded]).collect();
    let mut panics = 0;
    for &start in &each {
        for &end in &each {
            let of_tree = panic_of(move || drop(BTreeSet::from([5_u64]).range((start, end))));
            let of_set = panic_of(move || drop(Set::from([5_u64]).range((start, end))));
            assert_eq!(of_tree.is_some(), of_set.is_some(), "{start:?} {end:?}");
            let of_count = panic_of(move || {
                let _ = Set::from([5_u64]).attach().unwrap().count((start, end));
            });
            assert_eq!(of_set, of_count);
            panics += usize::from(of_set.is_some());
        }
    }
    assert!(panics > 10);
}
