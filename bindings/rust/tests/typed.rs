//! Tests sets of other types than `u64`: they answer like a `BTreeSet` of the type.

use nm_set::{Fault, Key, SetOf};
use std::collections::BTreeSet;
use std::fmt::Debug;
use std::time::Duration;

/// Makes calls on a set of values and on a `BTreeSet`, and compares the answers.
fn answers_like<K: Key + Ord + Debug>(values: &[K]) {
    let set = SetOf::<K>::new().unwrap();
    let mut peer = BTreeSet::new();
    let mut worker = set.attach().unwrap();
    for &value in values {
        assert_eq!(worker.insert(value), Ok(peer.insert(value)));
        assert_eq!(
            (set.insert(value), set.contains(value)),
            (Ok(false), Ok(true))
        );
        assert_eq!(set.at_least(value), Ok(Some(value)));
        assert_eq!(set.at_most(value), Ok(Some(value)));
        assert_eq!(K::from_key(value.to_key()), value);
    }
    let all: Result<Vec<K>, Fault> = set.iter().collect();
    assert_eq!(all, Ok(peer.iter().copied().collect()));
    for &from in &peer {
        for &to in peer.range(from..) {
            let got: Result<Vec<K>, Fault> = set.range(from..=to).rev().collect();
            let want: Vec<K> = peer.range(from..=to).rev().copied().collect();
            assert_eq!(got, Ok(want));
        }
    }
    for room in 1..=peer.len() + 1 {
        let (mut all, mut rest) = (Vec::new(), peer.first().copied());
        while let Some(from) = rest {
            let read = set.scan(from, room).unwrap();
            assert!(peer.contains(&from) && (read.entries.len() == room || read.next.is_none()));
            all.extend(read.entries);
            rest = read.next;
        }
        assert!(all.iter().eq(&peer), "{room}");
    }
    assert_eq!(set.first(), Ok(peer.first().copied()));
    assert_eq!(set.last(), Ok(peer.last().copied()));
    assert_eq!(
        set.wait_first(Duration::ZERO),
        worker.wait_first(Duration::from_secs(60))
    );
    assert_eq!(worker.wait_pop(Duration::ZERO), Ok(peer.pop_first()));
    assert_eq!(set.pop_last(), Ok(peer.pop_last()));
    let least = *peer.first().unwrap();
    assert_eq!(
        (worker.remove(least), worker.contains(least)),
        (Ok(true), Ok(false))
    );
    peer.remove(&least);
    drop(worker);
    answers_for_many_like(&set, &peer);
    assert_eq!(set.len(), Ok(peer.len()));
    assert_eq!(set.close(), Ok(peer.into_iter().collect()));
}

/// The calls for several values, and those up to a bound. They leave the set as it was.
fn answers_for_many_like<K: Key + Ord + Debug>(set: &SetOf<K>, peer: &BTreeSet<K>) {
    let all: Vec<K> = peer.iter().copied().collect();
    let &[least, .., most] = &all[..] else { return };
    let (mut removed, mut inserted) = (Vec::new(), Vec::new());
    assert_eq!(set.contains_many(&all), Ok(vec![true; all.len()]));
    assert_eq!(set.count(..), Ok(all.len() as u64));
    assert_eq!(set.count(least..most), Ok(all.len() as u64 - 1));
    assert_eq!(
        (set.is_subset(peer), set.is_superset(peer)),
        (Ok(true), Ok(true))
    );
    assert_eq!(set.is_disjoint(peer), Ok(false));
    assert_eq!(set.remove_many(&all, &mut removed), Ok(()));
    assert_eq!((removed, set.is_empty()), (vec![true; all.len()], Ok(true)));
    assert_eq!(set.insert_many(&all, &mut inserted), Ok(()));
    assert_eq!(inserted, vec![true; all.len()]);
    assert_eq!(set.pop_first_below(least), Ok(None));
    assert_eq!(set.wait_pop_below(least, Duration::ZERO), Ok(None));
    assert_eq!(set.wait_first_below(least, Duration::ZERO), Ok(None));
    assert_eq!(set.wait_first_below(most, Duration::ZERO), Ok(Some(least)));
    assert_eq!(set.pop_first_below(most), Ok(Some(least)));
    assert_eq!(set.pop_last_from(most), Ok(Some(most)));
    assert_eq!(set.extend([least, most]), Ok(2));
    assert_eq!(
        set.pop_first_many(most, usize::MAX).as_deref(),
        Ok(&all[..all.len() - 1])
    );
    assert_eq!(set.extend(all.iter().copied()), Ok(all.len() - 1));
    assert_eq!(set.remove_range(least..most), Ok(all.len() as u64 - 1));
    assert_eq!(
        (set.first(), set.remove_range(..=least)),
        (Ok(Some(most)), Ok(0))
    );
    assert_eq!(set.extend(all.iter().copied()), Ok(all.len() - 1));
    assert_eq!(set.retain(|value| peer.contains(&value)), Ok(()));
    assert_eq!(set.reserve(30_000), Ok(()));
    assert_eq!(
        (set.capacity() >= 30_000, set.growths().unwrap().0),
        (true, 1)
    );
    assert!(set.try_attach().and_then(|_| set.worker(3)).is_ok());
    assert_eq!((set.clear(), set.len()), (Ok(()), Ok(0)));
    assert_eq!(set.extend(all), Ok(peer.len()));
}

/// The calls of a worker in order and for several values answer like those of a tree.
fn worker_answers_like<K: Key + Ord + Debug>(values: &[K]) {
    let set = SetOf::<K>::new().unwrap();
    let mut worker = set.attach().unwrap();
    let mut peer: BTreeSet<K> = values.iter().copied().collect();
    assert_eq!(worker.extend(values.iter().copied()), Ok(peer.len()));
    let all: Vec<K> = peer.iter().copied().collect();
    let (least, most) = (all[0], all[all.len() - 1]);
    assert_eq!(worker.contains_many(&all), Ok(vec![true; all.len()]));
    let found: Result<Vec<K>, Fault> = worker.iter().collect();
    assert_eq!(found, Ok(all.clone()));
    let down: Result<Vec<K>, Fault> = worker.range(least..most).rev().collect();
    assert_eq!(down, Ok(peer.range(least..most).rev().copied().collect()));
    assert_eq!(worker.count(least..most), Ok(all.len() as u64 - 1));
    let read = worker.scan(least, all.len() - 1).unwrap();
    assert_eq!((read.entries.len(), read.next), (all.len() - 1, Some(most)));
    assert_eq!(
        (worker.first(), worker.last()),
        (Ok(Some(least)), Ok(Some(most)))
    );
    assert_eq!(worker.at_least(least), worker.try_at_least(least, 64));
    assert_eq!(worker.at_most(most), worker.try_at_most(most, 64));
    assert_eq!(worker.wait_first_below(least, Duration::ZERO), Ok(None));
    assert_eq!(worker.wait_pop_below(least, Duration::ZERO), Ok(None));
    assert_eq!(worker.pop_first_below(least), Ok(None));
    assert_eq!(worker.pop_last_from(most), Ok(Some(most)));
    assert_eq!(worker.pop_first_many(most, 1), Ok(vec![least]));
    let mut answers = Vec::new();
    assert_eq!(worker.insert_many(&[least, most], &mut answers), Ok(()));
    assert_eq!(worker.remove_many(&[least, least], &mut answers), Ok(()));
    assert_eq!(answers, [true, true, true, false]);
    peer.remove(&least);
    assert_eq!(worker.retain(|value| value == most), Ok(()));
    let left: Result<Vec<K>, Fault> = (&mut worker).into_iter().collect();
    assert_eq!(left, Ok(vec![most]));
    assert_eq!(
        (worker.extend(all), worker.remove_range(..most)),
        (Ok(peer.len()), Ok(peer.len() as u64))
    );
    assert_eq!(
        (worker.pop_last(), worker.pop_first()),
        (Ok(Some(most)), Ok(None))
    );
    assert_eq!((worker.insert(most), worker.clear()), (Ok(true), Ok(())));
    assert_eq!(worker.set().is_empty(), Ok(true));
}

#[test]
fn workers_of_each_type_answer_like_a_tree() {
    worker_answers_like(&[5_i64, -7, 0, i64::MIN, i64::MAX - 3, -1]);
    worker_answers_like(&[(1_u32, 2_u32), (1, 0), (0, 9), (7, 0)]);
    worker_answers_like(&[*b"tea", *b"te\0", [255; 3], *b"\0\0\0"]);
}

/// The calls with a number of tries, and those of the epoch, are those of the worker of keys.
#[test]
fn a_worker_of_values_makes_the_calls_of_its_worker() {
    let set = SetOf::<i64>::new().unwrap();
    let mut worker = set.worker(3).unwrap();
    assert_eq!(
        (worker.try_insert(-5, 9), worker.try_insert(-5, 9)),
        (Ok(true), Ok(false))
    );
    assert_eq!(worker.try_contains_many(&[-5, 5], 9), Ok(vec![true, false]));
    assert_eq!((worker.try_contains(-5, 1), worker.number()), (Ok(true), 3));
    assert_eq!(worker.try_remove(-5, 1), Err(Fault::Unfinished));
    assert_eq!(
        (worker.pending(), worker.try_finish(9)),
        (Ok(Some(-5)), Ok(true))
    );
    assert_eq!((worker.pending(), worker.waiting()), (Ok(None), Ok(2)));
    let epoch = worker.pin().unwrap().epoch();
    assert_eq!(worker.behind().unwrap().epoch, epoch);
    assert!((0..4).all(|_| worker.advance().is_ok()));
    assert_eq!(
        (worker.collect(), worker.stats().unwrap().freed),
        (Ok(2), 2)
    );
    assert_eq!(worker.publish().unwrap().removed, 1);
    let seen = set.attach().unwrap().observe(3).unwrap();
    assert_eq!(
        seen.map(|stamp| (stamp.inserted, stamp.removed)),
        Some((1, 1))
    );
    assert!(matches!(
        worker.try_insert(i64::MAX, 9),
        Err(Fault::Value(_))
    ));
    assert_eq!(worker.at_most(i64::MAX), Ok(None));
}

#[test]
fn sets_of_each_type_answer_like_a_tree() {
    answers_like(&[5_i64, -7, 0, i64::MIN, i64::MAX - 3, -1]);
    answers_like(&[5_u64, 7, 0, u64::MAX - 3, 6]);
    answers_like(&[5_i8, -7, 0, i8::MIN, i8::MAX, -1]);
    answers_like(&[5_u32, 7, 0, u32::MAX, 6]);
    answers_like(&[(1_u32, 2_u32), (1, 0), (0, 9), (7, 0), (1, u32::MAX)]);
    answers_like(&[
        (-1_i32, 2_u16),
        (-1, 0),
        (3, 9),
        (i32::MIN, 0),
        (1, u16::MAX),
    ]);
    answers_like(&[
        ((1_u8, -2_i8), 5_u32),
        ((1, -3), 5),
        ((0, 0), 1),
        ((1, -2), 4),
    ]);
}

#[test]
fn sets_of_strings_and_longer_tuples_answer_like_a_tree() {
    answers_like(&[*b"tea", *b"te\0", [255; 3], *b"\0\0\0", *b"tf\x80"]);
    answers_like(&[
        *b"eight by",
        [0; 8],
        *b"eight b\0",
        [255, 255, 0, 0, 0, 0, 0, 1],
    ]);
    answers_like(&['a', '\0', char::MAX, 'ä', '\u{e000}']);
    answers_like(&[
        (-1_i8, 'x', *b"ab"),
        (-1, 'w', *b"ab"),
        (-1, 'x', *b"aa"),
        (5, '\0', [0; 2]),
    ]);
    answers_like(&[
        (1_u8, -2_i16, 3_u8, 4_u32),
        (1, -2, 2, 9),
        (0, i16::MAX, 255, 1),
        (1, -3, 0, 0),
    ]);
}

/// Floats, with the least and the greatest ones, have the order of their keys.
#[test]
fn floats_answer_like_a_sorted_list() {
    let values = [
        f64::NEG_INFINITY,
        f64::MIN,
        -1.5,
        -5e-324,
        0.0,
        5e-324,
        f64::MIN_POSITIVE,
        0.1,
        f64::MAX,
        f64::INFINITY,
    ];
    let set: SetOf<f64> = values.iter().rev().copied().collect();
    let all: Result<Vec<f64>, Fault> = (&set).into_iter().collect();
    assert_eq!(all, Ok(values.to_vec()));
    let small = values.map(|value| value as f32);
    let keys = small.map(Key::to_key);
    assert!(keys.windows(2).all(|two| two[0] <= two[1]));
    assert_eq!(keys.map(f32::from_key), small);
    let some: Result<Vec<f64>, Fault> = set.range(-1.5..0.1).rev().collect();
    let mut wanted = values[2..7].to_vec();
    wanted.reverse();
    assert_eq!((some, set.count(..=0.0)), (Ok(wanted), Ok(5)));
    assert_eq!(set.at_least(0.2), Ok(Some(f64::MAX)));
    assert_eq!(set.pop_first_below(-1e9), Ok(Some(f64::NEG_INFINITY)));
}

#[test]
fn zeros_are_one_key() {
    let set = SetOf::from([-0.0_f64]);
    assert_eq!((set.insert(0.0), set.contains(-0.0)), (Ok(false), Ok(true)));
    assert!(set.first().unwrap().is_some_and(f64::is_sign_positive));
    let pairs = SetOf::from([(-0.0_f32, 5_u32)]);
    assert_eq!((pairs.contains((0.0, 5)), pairs.len()), (Ok(true), Ok(1)));
}

#[test]
fn nan_is_refused() {
    let set = SetOf::from([1.5_f64]);
    let refused = set.insert(f64::NAN).unwrap_err();
    let text = "the value NaN is no key: it has no place in the order";
    assert_eq!(refused.to_string(), text);
    assert!(matches!(refused, Fault::Unordered(value) if value.as_str() == "NaN"));
    assert_eq!(
        set.contains(-f64::NAN).map_err(|it| it.to_string()),
        Err(text.to_owned())
    );
    assert_eq!(set.at_most(f64::NAN), Err(refused));
    assert_eq!(set.scan(f64::NAN, 5).map(|_| ()), Err(refused));
    assert_eq!(set.pop_first_below(f64::NAN), Err(refused));
    assert_eq!(set.pop_first_many(f64::NAN, 5), Err(refused));
    assert_eq!(set.wait_first_below(f64::NAN, Duration::ZERO), Err(refused));
    let pairs = SetOf::<(f32, u32)>::new().unwrap();
    let refused = pairs.insert((f32::NAN, 0)).unwrap_err().to_string();
    assert!(
        refused.starts_with("the value (NaN, 0) is no key"),
        "{refused}"
    );
    assert_eq!(pairs.insert((f32::INFINITY, u32::MAX)), Ok(true));
}

#[test]
#[should_panic(expected = "the value NaN is no key: it has no place in the order")]
fn a_range_from_nan_panics() {
    let _ = SetOf::from([1.5_f64]).range(f64::NAN..);
}

#[test]
#[should_panic(expected = "the start of the range is after its end")]
fn a_range_whose_start_is_after_its_end_panics() {
    let (start, end) = (7, -5);
    let _ = SetOf::from([end, start]).range(start..=end);
}

#[test]
#[should_panic(expected = "the value 9223372036854775807 is no key")]
fn a_set_of_no_keys_panics() {
    let _: SetOf<i64> = [i64::MAX].into();
}

#[test]
fn each_value_of_a_small_type_keeps_its_order() {
    let keys: Vec<u64> = (i16::MIN..=i16::MAX).map(Key::to_key).collect();
    assert!(keys.windows(2).all(|two| two[0] < two[1]));
    assert_eq!(
        (keys[0], keys.len(), i16::from_key(0)),
        (0, 65_536, i16::MIN)
    );
    let pairs = (0..=u8::MAX).flat_map(|one| (i8::MIN..=i8::MAX).map(move |two| (one, two)));
    assert!(pairs.map(Key::to_key).eq(0..65_536));
}

/// A type of the program's own, whose values are shown by their keys in faults.
#[derive(Clone, Copy, Debug, PartialEq, Eq, PartialOrd, Ord)]
struct Own(u64);

impl Key for Own {
    const BITS: u32 = 64;
    fn to_key(self) -> u64 {
        self.0
    }
    fn from_key(key: u64) -> Own {
        Own(key)
    }
}

#[test]
fn values_are_shown_as_the_program_wrote_them() {
    let set = SetOf::<i64>::new().unwrap();
    assert_eq!(format!("{set:?}"), "{}");
    set.extend([5, -7]).unwrap();
    assert_eq!(format!("{set:?}"), "{-7, 5}");
    set.extend(10..20).unwrap();
    let text = "{-7, 5, 10, 11, 12, 13, 14, 15, 16, 17, ..}";
    assert_eq!(format!("{set:?}"), text);
    set.close().unwrap();
    assert_eq!(format!("{set:?}"), "SetOf(the set is closed)");
    let mut strings = SetOf::from([*b"tea"]);
    Extend::extend(&mut strings, [*b"coc"]);
    assert_eq!(
        format!("{strings:?}"),
        format!("{{{:?}, {:?}}}", b"coc", b"tea")
    );
    let own = SetOf::<Own>::new().unwrap();
    own.insert(Own(7)).unwrap();
    assert_eq!(format!("{own:?}"), "{Own(7)}");
    let refused = own.insert(Own(u64::MAX)).unwrap_err().to_string();
    assert!(
        refused.starts_with("the value with the key 18446744073709551615 is no key"),
        "{refused}"
    );
}

#[test]
fn values_that_are_no_keys_are_refused() {
    let set = SetOf::<i64>::new().unwrap();
    assert_eq!(set.extend([i64::MIN, -5, i64::MAX - 3]), Ok(3));
    let refused = set.insert(i64::MAX).unwrap_err();
    let text =
        "the value 9223372036854775807 is no key: of a type with 64 bits the three greatest \
                values are none";
    assert_eq!(refused.to_string(), text);
    assert!(matches!(refused, Fault::Value(value) if value.as_str() == i64::MAX.to_string()));
    assert_eq!(set.attach().unwrap().contains(i64::MAX), Err(refused));
    let pairs = SetOf::<(i32, u32)>::new().unwrap();
    let refused = pairs.remove((i32::MAX, u32::MAX - 1)).unwrap_err();
    assert!(refused
        .to_string()
        .starts_with("the value (2147483647, 4294967294) is no key"));
    let strings = SetOf::<[u8; 8]>::new().unwrap();
    let refused = strings.insert(*b"\xff\xff\xff\xff\xff\xff\xff\xfe");
    assert!(refused
        .unwrap_err()
        .to_string()
        .starts_with(r#"the value b"\xff\xff\xff\xff\xff\xff\xff\xfe" is no key"#));
    assert_eq!(set.at_most(i64::MAX), Ok(Some(i64::MAX - 3)));
    assert_eq!(set.range(-5..=i64::MAX).count(), 2);
    assert_eq!(
        (set.keys().contains(0), set.clone().len()),
        (Ok(true), Ok(3))
    );
}
