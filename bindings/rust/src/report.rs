//! The report that a set was closed with.

use crate::ffi::{ReportHandle, Waiting};

/// The report that a set was closed with.
#[derive(Clone, Debug, Default, PartialEq, Eq)]
pub struct Report {
    keys: Vec<u64>,
    free: u32,
    reached: u32,
    waiting: Vec<Vec<Waiting>>,
}

impl Report {
    /// Reads the report that a handle owns, of a set with this number of workers.
    pub(crate) fn of(mut handle: ReportHandle, workers: u32) -> Report {
        let mut report = Report::default();
        let mut count = 0;
        handle.slots(&mut report.free, &mut report.reached);
        handle.keys(&mut count);
        for index in 0..count {
            let mut key = 0;
            handle.key(index, &mut key);
            report.keys.push(key);
        }
        report.waiting = (0..workers)
            .map(|worker| taken(&mut handle, worker))
            .collect();
        report
    }

    /// Returns the keys that the set had, ascending.
    pub fn keys(&self) -> &[u64] {
        &self.keys
    }

    /// Returns how many keys the set had.
    pub fn len(&self) -> usize {
        self.keys.len()
    }

    /// Returns whether the set had no key.
    pub fn is_empty(&self) -> bool {
        self.keys.is_empty()
    }

    /// Returns whether the set had the key.
    pub fn contains(&self, key: u64) -> bool {
        self.keys.binary_search(&key).is_ok()
    }

    /// Returns how many nodes are free.
    pub fn free(&self) -> u32 {
        self.free
    }

    /// Returns how many nodes are reached from the root, without the five fixed ones.
    pub fn reached(&self) -> u32 {
        self.reached
    }

    /// Returns for each worker, in the order of their numbers, the nodes that it cut off and that
    /// wait, the oldest first.
    pub fn waiting(&self) -> &[Vec<Waiting>] {
        &self.waiting
    }
}

impl IntoIterator for Report {
    type Item = u64;
    type IntoIter = std::vec::IntoIter<u64>;

    /// Returns the keys that the set had, ascending.
    fn into_iter(self) -> std::vec::IntoIter<u64> {
        self.keys.into_iter()
    }
}

/// Takes all nodes out of a worker's queue, and returns them.
fn taken(handle: &mut ReportHandle, worker: u32) -> Vec<Waiting> {
    let mut nodes = Vec::new();
    let mut node = Waiting::default();
    while handle.waiting(worker, &mut node) > 0 {
        nodes.push(node);
    }
    nodes
}
