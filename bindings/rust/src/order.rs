//! The keys in order, of a set and of a map, and the calls that are made of several calls for
//! single keys.

use crate::fault::Fault;
use crate::ffi::Order;
use crate::set::Set;
use crate::typed::Entry;
use crate::worker::Worker;
use crate::MOST_KEY;
use std::collections::VecDeque;
use std::fmt;
use std::iter::FusedIterator;
use std::ops::{Bound, RangeBounds};

/// The most keys that a range reads in one call.
const MOST_ROOM: usize = 512;

/// The most keys that one call of the library reads.
const MOST_SCANNED: usize = 1_024;

/// What a [`scan`](crate::Set::scan) has read: keys, or keys of a map with their values.
#[derive(Clone, Debug, PartialEq, Eq)]
pub struct Scanned<E, N = u64> {
    /// The keys, in the order of the scan.
    pub entries: Vec<E>,
    /// Where the next scan goes on, or None if these are all.
    pub next: Option<N>,
}

/// What makes the scans of a [`Range`]: a set or a map, by a worker of it or by any.
pub trait Scans {
    /// What a scan returns for a key: the key, or the key with its value.
    type Entry;
    /// Returns what is in a range, ascending, at most `room` keys. The next scan goes on at a key.
    fn scan(&mut self, range: (u64, u64), room: usize) -> Result<Scanned<Self::Entry>, Fault>;
    /// Returns what is in a range, descending, at most `room` keys. The next scan goes on below a
    /// key.
    fn scan_back(&mut self, range: (u64, u64), room: usize) -> Result<Scanned<Self::Entry>, Fault>;
}

/// What makes the calls for keys: a set, or a worker of a set or a map.
pub trait Calls: Scans {
    /// Removes a key; returns whether it was present.
    fn take(&mut self, key: u64) -> Result<bool, Fault>;
}

/// Implements `Calls` by the calls that have the same names for a set and for a worker.
macro_rules! calls_of {
    ($($whose:ty),*) => {$(
        impl Scans for $whose {
            type Entry = u64;

            fn scan(&mut self, range: (u64, u64), room: usize) -> Result<Scanned<u64>, Fault> {
                self.place().scan(Order::Ascending, range, room)
            }

            fn scan_back(&mut self, range: (u64, u64), room: usize) -> Result<Scanned<u64>, Fault> {
                self.place().scan(Order::Descending, range, room)
            }
        }

        impl Calls for $whose {
            fn take(&mut self, key: u64) -> Result<bool, Fault> {
                self.remove(key)
            }
        }
    )*};
}

calls_of!(&Set, &mut Worker);

/// Removes a key; returns whether it was present. If the remove is unfinished, this call will remove
/// the key, and no other will.
fn take(calls: &mut impl Calls, key: u64) -> Result<bool, Fault> {
    match calls.take(key) {
        Err(Fault::Unfinished) => Ok(true),
        taken => taken,
    }
}

/// Returns the least keys that are not below `from`, at most `room` of them.
pub(crate) fn scan<C: Scans>(
    mut calls: C,
    from: u64,
    room: usize,
) -> Result<Scanned<C::Entry>, Fault> {
    let (mut entries, mut rest) = (Vec::new(), Some(from));
    while let (true, Some(from)) = (entries.len() < room, rest.filter(|&from| from <= MOST_KEY)) {
        let most = MOST_SCANNED.min(room - entries.len());
        let mut block = calls.scan((from, MOST_KEY), most)?;
        entries.append(&mut block.entries);
        rest = block.next;
    }
    let next = rest.filter(|&from| from <= MOST_KEY);
    Ok(Scanned { entries, next })
}

/// Inserts keys by a call for one; returns how many were absent.
pub(crate) fn extend<K>(
    keys: impl IntoIterator<Item = K>,
    mut insert: impl FnMut(K) -> Result<bool, Fault>,
) -> Result<usize, Fault> {
    let mut added = 0;
    for key in keys {
        added += usize::from(insert(key)?);
    }
    Ok(added)
}

/// Removes each key for whose entry `stays` returns false.
pub(crate) fn retain<C: Calls>(
    calls: C,
    mut stays: impl FnMut(C::Entry) -> bool,
) -> Result<(), Fault>
where
    C::Entry: Entry<u64>,
{
    remove_each(calls, (0, MOST_KEY), |entry| !stays(entry)).map(|_| ())
}

/// Returns whether the entries are those of another map, as a function compares them.
pub(crate) fn is_equal<E, O>(
    mut entries: impl Iterator<Item = Result<E, Fault>>,
    mut other: impl Iterator<Item = O>,
    are_equal: impl Fn(&E, &O) -> bool,
) -> Result<bool, Fault> {
    loop {
        match (entries.next().transpose()?, other.next()) {
            (None, None) => return Ok(true),
            (Some(one), Some(two)) if are_equal(&one, &two) => {}
            _ => return Ok(false),
        }
    }
}

/// Removes the keys of a range; returns how many it removed.
#[track_caller]
pub(crate) fn remove_range<C: Calls>(calls: C, bounds: impl RangeBounds<u64>) -> Result<u64, Fault>
where
    C::Entry: Entry<u64>,
{
    ends_of(bounds).map_or(Ok(0), |ends| remove_each(calls, ends, |_| true))
}

/// Removes each key from the first one of two to the second one for whose entry `goes` returns true;
/// returns how many it removed.
fn remove_each<C: Calls>(
    mut calls: C,
    (first, last): (u64, u64),
    mut goes: impl FnMut(C::Entry) -> bool,
) -> Result<u64, Fault>
where
    C::Entry: Entry<u64>,
{
    let (mut rest, mut removed) = (Some(first), 0);
    while let Some(from) = rest {
        let block = calls.scan((from, last), MOST_ROOM)?;
        for entry in block.entries {
            let key = entry.key();
            if goes(entry) {
                removed += u64::from(take(&mut calls, key)?);
            }
        }
        rest = block.next.filter(|&next| next <= last);
    }
    Ok(removed)
}

/// Returns the least and the greatest key of these bounds, or None if they have no key. Like the
/// `range` of `BTreeSet`, it panics if the start is after the end, or if both are one key that is
/// excluded.
#[track_caller]
pub(crate) fn ends_of(bounds: impl RangeBounds<u64>) -> Option<(u64, u64)> {
    match (bounds.start_bound(), bounds.end_bound()) {
        (Bound::Excluded(start), Bound::Excluded(end)) if start == end => {
            panic!("the start and the end of the range are one key, which both exclude")
        }
        (
            Bound::Included(start) | Bound::Excluded(start),
            Bound::Included(end) | Bound::Excluded(end),
        ) if start > end => panic!("the start of the range is after its end"),
        _ => {}
    }
    let low = match bounds.start_bound() {
        Bound::Included(&key) => Some(key),
        Bound::Excluded(&key) => key.checked_add(1),
        Bound::Unbounded => Some(0),
    };
    let high = match bounds.end_bound() {
        Bound::Included(&key) => Some(key.min(MOST_KEY)),
        Bound::Excluded(&key) => key.checked_sub(1).map(|key| key.min(MOST_KEY)),
        Bound::Unbounded => Some(MOST_KEY),
    };
    low.zip(high).filter(|(low, high)| low <= high)
}

/// The keys of a range, ascending by [`next`](Iterator::next) and descending by
/// [`next_back`](DoubleEndedIterator::next_back), while the set or the map is in use: see
/// [`Set::range`](crate::Set::range) and [`GuardedWorker::range`](crate::GuardedWorker::range). It
/// ends after the first fault.
pub struct Range<C: Scans> {
    calls: C,
    /// The least and the greatest key that it may still read; None after the last scan.
    rest: Option<(u64, u64)>,
    /// What was read below `rest` and not returned, ascending.
    low: VecDeque<C::Entry>,
    /// What was read above `rest` and not returned, ascending.
    high: VecDeque<C::Entry>,
    /// How many keys the next scan reads.
    room: usize,
}

impl<C: Scans> Range<C> {
    #[track_caller]
    pub(crate) fn of(calls: C, bounds: impl RangeBounds<u64>) -> Range<C> {
        Range {
            calls,
            rest: ends_of(bounds),
            low: VecDeque::new(),
            high: VecDeque::new(),
            room: 1,
        }
    }

    /// Returns the room of a scan: for one key, then for 8, and then for twice as many each time. So a
    /// loop that ends early has not read many more keys than it went over.
    fn take_room(&mut self) -> usize {
        let room = self.room;
        self.room = MOST_ROOM.min(if room == 1 { 8 } else { 2 * room });
        room
    }

    /// Ends the range after a fault.
    fn end(&mut self, fault: Fault) -> Option<Result<C::Entry, Fault>> {
        self.rest = None;
        self.low.clear();
        self.high.clear();
        Some(Err(fault))
    }

    /// Reads the next keys upward, until there is one or no key is left to read.
    fn read(&mut self) -> Result<(), Fault> {
        while let (true, Some((low, high))) = (self.low.is_empty(), self.rest) {
            let room = self.take_room();
            let block = self.calls.scan((low, high), room)?;
            self.low.extend(block.entries);
            self.rest = block
                .next
                .filter(|&next| next <= high)
                .map(|next| (next, high));
        }
        Ok(())
    }

    /// Reads the next keys downward, in the same way.
    fn read_back(&mut self) -> Result<(), Fault> {
        while let (true, Some((low, high))) = (self.high.is_empty(), self.rest) {
            let room = self.take_room();
            let block = self.calls.scan_back((low, high), room)?;
            self.high.extend(block.entries.into_iter().rev());
            self.rest = block
                .next
                .filter(|&next| next > low)
                .map(|next| (low, next - 1));
        }
        Ok(())
    }
}

impl<C: Scans> Iterator for Range<C> {
    type Item = Result<C::Entry, Fault>;

    fn next(&mut self) -> Option<Result<C::Entry, Fault>> {
        if let Err(fault) = self.read() {
            return self.end(fault);
        }
        self.low
            .pop_front()
            .or_else(|| self.high.pop_front())
            .map(Ok)
    }

    fn last(mut self) -> Option<Result<C::Entry, Fault>> {
        self.next_back()
    }
}

impl<C: Scans> DoubleEndedIterator for Range<C> {
    fn next_back(&mut self) -> Option<Result<C::Entry, Fault>> {
        if let Err(fault) = self.read_back() {
            return self.end(fault);
        }
        self.high.pop_back().or_else(|| self.low.pop_back()).map(Ok)
    }
}

impl<C: Scans> FusedIterator for Range<C> {}

impl<C: Scans> fmt::Debug for Range<C> {
    fn fmt(&self, f: &mut fmt::Formatter<'_>) -> fmt::Result {
        f.debug_struct("Range")
            .field("rest", &self.rest)
            .finish_non_exhaustive()
    }
}

#[cfg(test)]
mod tests {
    use super::{retain, Calls, Fault, Range, Scanned, Scans};
    use std::collections::BTreeSet;

    /// A set in which each remove returns `Unfinished`.
    struct Unfinished(BTreeSet<u64>);

    impl Scans for &mut Unfinished {
        type Entry = u64;

        fn scan(&mut self, (low, high): (u64, u64), room: usize) -> Result<Scanned<u64>, Fault> {
            let entries: Vec<u64> = self.0.range(low..=high).take(room).copied().collect();
            let next = (entries.len() == room).then(|| entries[room - 1] + 1);
            Ok(Scanned { entries, next })
        }

        fn scan_back(
            &mut self,
            (low, high): (u64, u64),
            room: usize,
        ) -> Result<Scanned<u64>, Fault> {
            let down = self.0.range(low..=high).rev();
            let entries: Vec<u64> = down.take(room).copied().collect();
            let next = (entries.len() == room).then(|| entries[room - 1]);
            Ok(Scanned { entries, next })
        }
    }

    impl Calls for &mut Unfinished {
        fn take(&mut self, key: u64) -> Result<bool, Fault> {
            self.0.remove(&key);
            Err(Fault::Unfinished)
        }
    }

    #[test]
    fn a_key_whose_remove_is_unfinished_is_removed() {
        let mut set = Unfinished([5, 6, 7].into());
        assert_eq!(retain(&mut set, |key| key == 6), Ok(()));
        assert_eq!(set.0, [6].into());
    }

    #[test]
    fn a_range_ends_where_its_two_ends_meet() {
        let mut set = Unfinished([1, 5, 6, 9].into());
        let mut keys = Range::of(&mut set, 2..9);
        assert_eq!(keys.next_back(), Some(Ok(6)));
        assert_eq!(keys.next(), Some(Ok(5)));
        assert_eq!((keys.next(), keys.next_back()), (None, None));
    }

    #[test]
    fn two_ends_share_what_either_has_read() {
        for (taken, count) in [(1, 3000), (9, 3000), (600, 601), (1, 2), (40, 50)] {
            let mut set = Unfinished((0..count).collect());
            let mut keys = Range::of(&mut set, ..);
            let up: Vec<_> = keys.by_ref().take(taken).collect();
            let mut down: Vec<_> = keys.rev().collect();
            down.reverse();
            assert_eq!([up, down].concat(), (0..count).map(Ok).collect::<Vec<_>>());
        }
    }
}
