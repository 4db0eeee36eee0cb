//! Tests maps whose keys are of other types than `u64`: they answer like a `BTreeMap` of the type.

use nm_set::{Fault, InsertError, Key, MapOf, Options};
use std::collections::BTreeMap;
use std::fmt::Debug;
use std::time::Duration;

/// Makes calls on a map and on a `BTreeMap`, and compares the answers.
fn answers_like<K: Key + Ord + Debug>(keys: &[K]) {
    let map = MapOf::<K, String>::new(4_096, 2).unwrap();
    let mut peer = BTreeMap::new();
    let mut worker = map.attach().unwrap();
    for &key in keys {
        let value = peer.len().to_string();
        assert!(worker.insert(key, value.clone()).is_ok());
        peer.insert(key, value);
        let again = worker.insert(key, "again".to_owned()).unwrap_err();
        assert_eq!(again, InsertError::Present("again".to_owned()));
        assert_eq!(
            (worker.contains(key), map.len()),
            (Ok(true), Ok(peer.len()))
        );
    }
    drop(worker);
    keys_are_like(&map, &peer);
    values_are_like(&map, &peer);
    removes_like(&map, peer);
}

/// The calls that return keys.
fn keys_are_like<K: Key + Ord + Debug>(map: &MapOf<K, String>, peer: &BTreeMap<K, String>) {
    let mut worker = map.attach().unwrap();
    let all: Vec<K> = peer.keys().copied().collect();
    let (least, most) = (all[0], all[all.len() - 1]);
    assert_eq!(
        worker.iter().collect::<Result<Vec<K>, _>>().as_ref(),
        Ok(&all)
    );
    assert_eq!(worker.keys(least..most), Ok(all[..all.len() - 1].to_vec()));
    assert_eq!(worker.count(least..=most), Ok(all.len() as u64));
    assert_eq!(
        (worker.first(), worker.last()),
        (Ok(Some(least)), Ok(Some(most)))
    );
    for pair in all.windows(2) {
        let down: Result<Vec<K>, Fault> = worker.range(pair[0]..=pair[1]).rev().collect();
        assert_eq!(down, Ok(vec![pair[1], pair[0]]));
        assert_eq!(worker.at_least(pair[1]), Ok(Some(pair[1])));
        assert_eq!(worker.at_most(pair[0]), Ok(Some(pair[0])));
        let read = worker.scan(pair[0], 1).unwrap();
        assert_eq!((read.entries, read.next), (vec![pair[0]], Some(pair[1])));
    }
    let now = Duration::ZERO;
    assert_eq!(worker.wait_first(now), Ok(Some(least)));
    assert_eq!(worker.wait_first_below(least, now), Ok(None));
    assert_eq!((worker.is_empty(), map.is_empty()), (Ok(false), Ok(false)));
    assert_eq!((worker.waiting(), worker.pending()), (0, Ok(None)));
    assert_eq!(worker.raw().contains(least.to_key()), Ok(true));
}

/// The calls that return values, under a guard.
fn values_are_like<K: Key + Ord + Debug>(map: &MapOf<K, String>, peer: &BTreeMap<K, String>) {
    let (mut reader, mut worker) = (map.attach().unwrap(), map.attach().unwrap());
    assert_ne!(reader.number(), worker.number());
    let guard = reader.pin().unwrap();
    let all: Vec<K> = peer.keys().copied().collect();
    let values: Vec<Option<&String>> = peer.values().map(Some).collect();
    assert_eq!(guard.get_many(&all), Ok(values));
    let mut calls = worker.under(&guard).unwrap();
    let entries: Result<Vec<_>, Fault> = calls.iter().collect();
    assert!(entries
        .unwrap()
        .into_iter()
        .eq(peer.iter().map(|(&key, value)| (key, value))));
    for (&key, value) in peer {
        assert_eq!(
            (guard.get(key), calls.get(key)),
            (Ok(Some(value)), Ok(Some(value)))
        );
        assert_eq!(calls.at_least(key), Ok(Some((key, value))));
        assert_eq!(calls.at_most(key), Ok(Some((key, value))));
        let rest: Result<Vec<_>, Fault> = calls.range(key..).rev().collect();
        let wanted = peer.range(key..).rev();
        assert!(rest
            .unwrap()
            .into_iter()
            .eq(wanted.map(|(&key, value)| (key, value))));
    }
    let read = calls.scan(all[0], all.len() - 1).unwrap();
    assert_eq!(
        (read.entries.len(), read.next),
        (all.len() - 1, all.last().copied())
    );
    let part: BTreeMap<K, String> = calls.entries(all[1]..).unwrap().into_iter().collect();
    assert_eq!(part.len(), all.len() - 1);
    assert_eq!(
        (calls.is_equal(peer), calls.is_equal(&part)),
        (Ok(true), Ok(false))
    );
    assert_eq!(
        calls.retain(|key, value| peer.get(&key) == Some(value)),
        Ok(())
    );
    assert_eq!(map.len(), Ok(peer.len()));
}

/// The calls that remove.
fn removes_like<K: Key + Ord + Debug>(map: &MapOf<K, String>, peer: BTreeMap<K, String>) {
    let (mut reader, mut worker) = (map.attach().unwrap(), map.attach().unwrap());
    let (least, most) = (*peer.keys().next().unwrap(), *peer.keys().last().unwrap());
    assert_eq!(worker.pop_first_below(least), Ok(None));
    assert_eq!(worker.pop_first_below(most), Ok(Some(least)));
    assert_eq!(worker.pop_last_from(most), Ok(Some(most)));
    assert_eq!(worker.extend(peer.clone()), Ok(2));
    {
        let guard = reader.pin().unwrap();
        let mut calls = worker.under(&guard).unwrap();
        assert_eq!(calls.first(), Ok(Some((least, &peer[&least]))));
        assert_eq!(calls.last(), Ok(Some((most, &peer[&most]))));
        assert_eq!(calls.take(most), Ok(Some(&peer[&most])));
        assert_eq!(
            (calls.take(most), calls.pop_last_from(most)),
            (Ok(None), Ok(None))
        );
        assert_eq!(
            calls.pop_first_below(most),
            Ok(Some((least, &peer[&least])))
        );
        assert_eq!(calls.pop_first_below(least), Ok(None));
    }
    assert_eq!(worker.extend(peer.clone()), Ok(2));
    assert_eq!(
        (worker.pop_first(), worker.pop_last()),
        (Ok(Some(least)), Ok(Some(most)))
    );
    assert_eq!(worker.remove(most), Ok(false));
    assert_eq!(worker.extend(peer.clone()), Ok(2));
    assert_eq!(worker.retain(|key| key != least), Ok(()));
    assert_eq!(
        (worker.contains(least), map.len()),
        (Ok(false), Ok(peer.len() - 1))
    );
    assert!(map.waiting().unwrap() >= worker.waiting() && worker.reclaim().is_ok());
    assert_eq!(worker.remove_range(..most), Ok(peer.len() as u64 - 2));
    assert_eq!(worker.remove_range(..), Ok(1));
    assert_eq!((worker.clear(), worker.is_empty()), (Ok(()), Ok(true)));
    assert_eq!(
        (map.nodes(), map.capacity(), map.workers()),
        (4_096, 2_045, 2)
    );
}

#[test]
fn maps_of_each_type_answer_like_a_tree() {
    answers_like(&[5_i64, -7, 0, i64::MIN, i64::MAX - 3, -1]);
    answers_like(&[(1_u32, 2_u32), (1, 0), (0, 9), (7, 0), (1, u32::MAX)]);
    answers_like(&[*b"tea", *b"te\0", [255; 3], *b"\0\0\0"]);
    answers_like(&[(-1_i8, 'x', *b"ab"), (-1, 'w', *b"ab"), (5, '\0', [0; 2])]);
}

#[test]
fn a_map_of_floats_has_their_order() {
    let map = MapOf::from([(0.5, "half"), (f64::NEG_INFINITY, "least"), (-0.0, "zero")]);
    let (mut reader, mut worker) = (map.attach().unwrap(), map.attach().unwrap());
    let guard = reader.pin().unwrap();
    assert_eq!(guard.get(0.0), Ok(Some(&"zero")));
    let mut calls = worker.under(&guard).unwrap();
    let entries: Result<Vec<_>, Fault> = (&mut calls).into_iter().collect();
    let wanted = vec![
        (f64::NEG_INFINITY, &"least"),
        (0.0, &"zero"),
        (0.5, &"half"),
    ];
    assert_eq!(entries, Ok(wanted));
    assert_eq!(
        calls.pop_first().unwrap().map(|(_, value)| value),
        Some(&"least")
    );
    assert_eq!(calls.pop_last(), Ok(Some((0.5, &"half"))));
}

#[test]
fn keys_that_are_none_are_refused_with_their_values() {
    let map = MapOf::<f64, &str>::with_options(64, Options::default()).unwrap();
    let mut worker = map.attach_timeout(Duration::ZERO).unwrap();
    let text = "the value NaN is no key: it has no place in the order";
    let refused = worker.insert(f64::NAN, "kept").unwrap_err();
    assert_eq!(
        (refused.to_string().as_str(), refused.into_value()),
        (text, "kept")
    );
    let mut rest = [(1.0, "one"), (f64::NAN, "none"), (2.0, "two")].into_iter();
    let refused = worker.extend(rest.by_ref()).unwrap_err();
    assert_eq!(
        (refused.into_value(), rest.next(), map.len()),
        ("none", Some((2.0, "two")), Ok(1))
    );
    assert_eq!(worker.remove(f64::NAN).unwrap_err().to_string(), text);
    assert_eq!(
        worker.pop_last_from(f64::NAN).unwrap_err().to_string(),
        text
    );
    assert_eq!(
        worker.pin().unwrap().get(f64::NAN).unwrap_err().to_string(),
        text
    );
    let refused = MapOf::from_entries(64, Options::default(), [(u64::MAX, 5)]).unwrap_err();
    assert!(refused
        .to_string()
        .starts_with("the value 18446744073709551615 is no key"));
    let numbers = MapOf::from([(i64::MAX - 3, 'x')]);
    assert_eq!(
        numbers.attach().unwrap().at_most(i64::MAX),
        Ok(Some(i64::MAX - 3))
    );
}

#[test]
#[should_panic(expected = "the start of the range is after its end")]
fn a_range_whose_start_is_after_its_end_panics() {
    let (start, end) = (5, -5);
    let map = MapOf::from([(end, 'a')]);
    let _ = map.attach().unwrap().keys(start..end);
}

#[test]
#[should_panic(expected = "the value NaN is no key")]
fn a_range_to_nan_panics() {
    let map = MapOf::from([(-5.0, 'a')]);
    let _ = map.attach().unwrap().count(..f64::NAN);
}

#[test]
fn keys_are_shown_as_the_program_wrote_them() {
    let map: MapOf<i32, char> = (-2..2).map(|key| (key, 'x')).collect();
    assert!(format!("{map:?}").starts_with("MapOf { keys: {-2, -1, 0, 1}, map: Map { keys: 4,"));
    let mut worker = map.attach().unwrap();
    worker.extend((2..20).map(|key| (key, 'y'))).unwrap();
    assert!(format!("{map:?}").starts_with("MapOf { keys: {-2, -1, 0, 1, 2, 3, 4, 5, 6, 7, ..}, "));
    assert_eq!(
        format!("{worker:?}"),
        "MapWorkerOf(MapWorker { number: 0, .. })"
    );
    let one = MapOf::from_entries(
        64,
        Options {
            workers: 1,
            ..Options::default()
        },
        [(5, 'x')],
    )
    .unwrap();
    let _worker = one.attach().unwrap();
    assert!(format!("{one:?}").starts_with("MapOf { keys: no worker is free: "));
}
