//! `BTreeSet` as the tests of Rust's library call it, over `nm_set::SetOf`. A reference that a test gets
//! is to a copy that is never freed, because ours are copies.

use nm_set::{Key, SetOf};
use std::fmt::{self, Debug};
use std::ops::RangeBounds;
use std::{collections, slice, vec};

pub struct BTreeSet<K: Key> {
    of: SetOf<K>,
}

/// Returns a reference to a copy.
fn kept<K>(key: K) -> &'static K {
    Box::leak(Box::new(key))
}

impl<K: Key + 'static> BTreeSet<K> {
    pub fn new() -> Self {
        BTreeSet {
            of: SetOf::new().unwrap(),
        }
    }

    /// Reads a range in both directions, which have the same keys.
    fn read(&self, bounds: impl RangeBounds<K>) -> Vec<K> {
        let bounds = (bounds.start_bound().cloned(), bounds.end_bound().cloned());
        let all: Vec<K> = self.of.range(bounds).map(Result::unwrap).collect();
        let back: Vec<K> = self.of.range(bounds).rev().map(Result::unwrap).collect();
        assert!(back.iter().rev().eq(all.iter()));
        all
    }

    pub fn range(&self, bounds: impl RangeBounds<K>) -> slice::Iter<'static, K> {
        Box::leak(self.read(bounds).into_boxed_slice()).iter()
    }

    pub fn iter(&self) -> slice::Iter<'static, K> {
        self.range(..)
    }

    pub fn contains(&self, key: &K) -> bool {
        self.of.contains(*key).unwrap()
    }

    pub fn insert(&mut self, key: K) -> bool {
        self.of.insert(key).unwrap()
    }

    pub fn remove(&mut self, key: &K) -> bool {
        self.of.remove(*key).unwrap()
    }

    pub fn first(&self) -> Option<&'static K> {
        self.of.first().unwrap().map(kept)
    }

    pub fn last(&self) -> Option<&'static K> {
        self.of.last().unwrap().map(kept)
    }

    pub fn pop_first(&mut self) -> Option<K> {
        self.of.pop_first().unwrap()
    }

    pub fn pop_last(&mut self) -> Option<K> {
        self.of.pop_last().unwrap()
    }

    pub fn retain(&mut self, mut stays: impl FnMut(&K) -> bool) {
        self.of.retain(|key| stays(&key)).unwrap();
    }

    /// Takes each key of the other, one by one.
    pub fn append(&mut self, other: &mut Self) {
        while let Some(key) = other.pop_first() {
            self.insert(key);
        }
    }

    /// Takes each key from this one on, one by one.
    pub fn split_off(&mut self, from: &K) -> Self {
        let rest = self.read(*from..).into_iter().collect();
        self.of.remove_range(*from..).unwrap();
        rest
    }

    pub fn clear(&mut self) {
        self.of.clear().unwrap();
    }

    pub fn len(&self) -> usize {
        self.of.len().unwrap()
    }

    pub fn is_empty(&self) -> bool {
        self.of.is_empty().unwrap()
    }
}

impl<K: Key + Ord + 'static> BTreeSet<K> {
    fn plain(&self) -> collections::BTreeSet<K> {
        self.read(..).into_iter().collect()
    }

    pub fn is_disjoint(&self, other: &Self) -> bool {
        self.of.is_disjoint(&other.plain()).unwrap()
    }
}

impl<K: Key + 'static> IntoIterator for BTreeSet<K> {
    type Item = K;
    type IntoIter = vec::IntoIter<K>;

    fn into_iter(self) -> Self::IntoIter {
        self.read(..).into_iter()
    }
}

impl<K: Key + 'static> IntoIterator for &BTreeSet<K> {
    type Item = &'static K;
    type IntoIter = slice::Iter<'static, K>;

    fn into_iter(self) -> Self::IntoIter {
        self.iter()
    }
}

impl<'a, K: Key + 'static> Extend<&'a K> for BTreeSet<K> {
    fn extend<I: IntoIterator<Item = &'a K>>(&mut self, keys: I) {
        self.of.extend(keys.into_iter().copied()).unwrap();
    }
}

impl<K: Key + 'static> FromIterator<K> for BTreeSet<K> {
    fn from_iter<I: IntoIterator<Item = K>>(keys: I) -> Self {
        let set = BTreeSet::new();
        set.of.extend(keys).unwrap();
        set
    }
}

impl<K: Key + 'static, const N: usize> From<[K; N]> for BTreeSet<K> {
    fn from(keys: [K; N]) -> Self {
        keys.into_iter().collect()
    }
}

impl<K: Key + Ord + 'static> PartialEq for BTreeSet<K> {
    fn eq(&self, other: &Self) -> bool {
        self.len() == other.len() && self.of.is_subset(&other.plain()).unwrap()
    }
}

impl<K: Key + Debug> Debug for BTreeSet<K> {
    fn fmt(&self, to: &mut fmt::Formatter<'_>) -> fmt::Result {
        self.of.fmt(to)
    }
}
