//! `BTreeMap` as the tests of Rust's library call it, over `nm_set::MapOf`. Each call makes that of the
//! page examples/FROM_OTHER_SETS.md. A reference that a test gets is to a copy that is never freed,
//! because ours ends with a guard.

use nm_set::{GuardedWorkerOf, Key, MapOf};
use std::fmt::{self, Debug};
use std::ops::{Index, RangeBounds};
use std::{collections, slice, vec};

const NODES: u32 = 1 << 17;

pub struct BTreeMap<K: Key, V> {
    of: MapOf<K, V>,
}

pub type Entries<K, V> = std::iter::Map<slice::Iter<'static, (K, V)>, fn(&(K, V)) -> (&K, &V)>;

/// Returns an entry with a copy of its value.
fn owned<K, V: Clone>((key, value): (K, &V)) -> (K, V) {
    (key, value.clone())
}

impl<K: Key + 'static, V: Clone + 'static> BTreeMap<K, V> {
    pub fn new() -> Self {
        BTreeMap {
            of: MapOf::new(NODES, 2).unwrap(),
        }
    }

    /// Makes calls under a guard.
    fn calls<R>(&self, make: impl FnOnce(&mut GuardedWorkerOf<'_, '_, '_, K, V>) -> R) -> R {
        let (mut reader, mut worker) = (self.of.attach().unwrap(), self.of.attach().unwrap());
        let guard = reader.pin().unwrap();
        let mut calls = worker.under(&guard).unwrap();
        make(&mut calls)
    }

    /// Reads a range in both directions, which have the same keys.
    fn read(&self, bounds: impl RangeBounds<K>) -> Vec<(K, V)> {
        let bounds = (bounds.start_bound().cloned(), bounds.end_bound().cloned());
        self.calls(|calls| {
            let all: Vec<_> = calls.range(bounds).map(|it| owned(it.unwrap())).collect();
            let back: Vec<_> = calls.range(bounds).rev().map(|it| it.unwrap().0).collect();
            assert!(back.iter().rev().eq(all.iter().map(|(key, _)| key)));
            all
        })
    }

    pub fn range(&self, bounds: impl RangeBounds<K>) -> Entries<K, V> {
        let kept: &'static [(K, V)] = Box::leak(self.read(bounds).into_boxed_slice());
        kept.iter().map(|(key, value)| (key, value))
    }

    pub fn iter(&self) -> Entries<K, V> {
        self.range(..)
    }

    pub fn keys(&self) -> impl DoubleEndedIterator<Item = &'static K> {
        self.iter().map(|(key, _)| key)
    }

    pub fn values(&self) -> impl DoubleEndedIterator<Item = &'static V> {
        self.iter().map(|(_, value)| value)
    }

    pub fn into_keys(self) -> impl DoubleEndedIterator<Item = K> {
        self.into_iter().map(|(key, _)| key)
    }

    pub fn into_values(self) -> impl DoubleEndedIterator<Item = V> {
        self.into_iter().map(|(_, value)| value)
    }

    pub fn get(&self, key: &K) -> Option<&'static V> {
        self.get_key_value(key).map(|(_, value)| value)
    }

    pub fn get_key_value(&self, key: &K) -> Option<(&'static K, &'static V)> {
        let value = self.calls(|calls| calls.get(*key).unwrap().cloned())?;
        Some((Box::leak(Box::new(*key)), Box::leak(Box::new(value))))
    }

    pub fn first_key_value(&self) -> Option<(&'static K, &'static V)> {
        let key = self.calls(|calls| calls.first().unwrap().map(|(key, _)| key))?;
        self.get_key_value(&key)
    }

    pub fn last_key_value(&self) -> Option<(&'static K, &'static V)> {
        let key = self.calls(|calls| calls.last().unwrap().map(|(key, _)| key))?;
        self.get_key_value(&key)
    }

    pub fn insert(&mut self, key: K, value: V) -> Option<V> {
        self.calls(|calls| calls.put(key, value).unwrap().cloned())
    }

    pub fn remove(&mut self, key: &K) -> Option<V> {
        self.calls(|calls| calls.take(*key).unwrap().cloned())
    }

    pub fn pop_first(&mut self) -> Option<(K, V)> {
        self.calls(|calls| calls.pop_first().unwrap().map(owned))
    }

    pub fn pop_last(&mut self) -> Option<(K, V)> {
        self.calls(|calls| calls.pop_last().unwrap().map(owned))
    }

    pub fn retain(&mut self, mut stays: impl FnMut(&K, &V) -> bool) {
        self.calls(|calls| calls.retain(|key, value| stays(&key, value)).unwrap());
    }

    /// Takes each key of the other, one by one.
    pub fn append(&mut self, other: &mut Self) {
        while let Some((key, value)) = other.pop_first() {
            self.insert(key, value);
        }
    }

    /// Takes each key from this one on, one by one.
    pub fn split_off(&mut self, from: &K) -> Self {
        let rest = self.read(*from..).into_iter().collect();
        self.of.attach().unwrap().remove_range(*from..).unwrap();
        rest
    }

    pub fn clear(&mut self) {
        self.of.attach().unwrap().clear().unwrap();
    }

    pub fn len(&self) -> usize {
        self.of.len().unwrap()
    }

    pub fn is_empty(&self) -> bool {
        self.of.is_empty().unwrap()
    }

    /// Panics unless the keys ascend, and are as many as the map says.
    pub fn check(&self) {
        let all = self.read(..);
        assert!(all.windows(2).all(|two| two[0].0 < two[1].0) && all.len() == self.len());
    }
}

impl<K: Key + 'static, V: Clone + 'static> IntoIterator for BTreeMap<K, V> {
    type Item = (K, V);
    type IntoIter = vec::IntoIter<(K, V)>;

    fn into_iter(self) -> Self::IntoIter {
        self.read(..).into_iter()
    }
}

impl<K: Key + 'static, V: Clone + 'static> IntoIterator for &BTreeMap<K, V> {
    type Item = (&'static K, &'static V);
    type IntoIter = Entries<K, V>;

    fn into_iter(self) -> Self::IntoIter {
        self.iter()
    }
}

impl<'a, K: Key + 'static, V: Copy + 'static> Extend<(&'a K, &'a V)> for BTreeMap<K, V> {
    fn extend<I: IntoIterator<Item = (&'a K, &'a V)>>(&mut self, entries: I) {
        let owned = entries.into_iter().map(|(key, value)| (*key, *value));
        self.of.attach().unwrap().extend(owned).unwrap();
    }
}

/// Of two values for a key the last one stays, as there.
impl<K: Key + 'static, V: Clone + 'static> FromIterator<(K, V)> for BTreeMap<K, V> {
    fn from_iter<I: IntoIterator<Item = (K, V)>>(entries: I) -> Self {
        let mut map = BTreeMap::new();
        for (key, value) in entries {
            map.insert(key, value);
        }
        map
    }
}

impl<K: Key + 'static, V: Clone + 'static, const N: usize> From<[(K, V); N]> for BTreeMap<K, V> {
    fn from(entries: [(K, V); N]) -> Self {
        entries.into_iter().collect()
    }
}

impl<K: Key + 'static, V: Clone + 'static> Index<&K> for BTreeMap<K, V> {
    type Output = V;

    fn index(&self, key: &K) -> &V {
        self.get(key).expect("no entry found for key")
    }
}

impl<K: Key + Ord + 'static, V: Clone + PartialEq + 'static> PartialEq for BTreeMap<K, V> {
    fn eq(&self, other: &Self) -> bool {
        let plain: collections::BTreeMap<K, V> = other.read(..).into_iter().collect();
        self.calls(|calls| calls.is_equal(&plain).unwrap())
    }
}

impl<K: Key + Debug, V> Debug for BTreeMap<K, V> {
    fn fmt(&self, to: &mut fmt::Formatter<'_>) -> fmt::Result {
        self.of.fmt(to)
    }
}
