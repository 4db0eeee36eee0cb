//! How a set is made.

use crate::ffi::PoolOptions;

/// The usual `collect_after` of a set.
const COLLECT_AFTER: u32 = 64;

/// The shape of the tree.
#[derive(Clone, Copy, Debug, Default, PartialEq, Eq)]
pub enum Shape {
    /// A radix tree: no walk goes over more than 66 edges, in whatever order the keys come.
    #[default]
    Radix = 0,
    /// The tree of Natarajan and Mittal, in which keys that come in order make one long path: then
    /// each call takes a step for each key of the set.
    Unbalanced = 1,
}

/// How a set is made, and what its managed calls may spend.
///
/// ```
/// use nm_set::{Options, Set};
/// # fn main() -> Result<(), nm_set::Fault> {
/// let set = Set::with_options(1_024, Options { workers: 5, ..Options::default() })?;
/// # assert_eq!(set.workers(), 5);
/// # Ok(())
/// # }
/// ```
#[derive(Clone, Copy, Debug, PartialEq, Eq)]
pub struct Options {
    /// The number of workers, 1 to 64, which is the number of calls at the same time. 64 by
    /// default; each worker takes some 3,700 bytes, and 3,300 more once it was used.
    pub workers: u32,
    /// The shape of the tree. A radix tree by default.
    pub shape: Shape,
    /// The tries of each call of the tree. With fewer than 2 no remove returns true at once, and
    /// with fewer than 3 some searches for the next key do not answer at once. 64 by default.
    pub tries: u32,
    /// How often a call that lost each of its tries is retried, before it returns
    /// [`Fault::Contention`](crate::Fault::Contention). And how often a remove that has begun is
    /// continued, before it returns [`Fault::Unfinished`](crate::Fault::Unfinished). 64 by default.
    pub rounds: u32,
    /// The number of waiting nodes from which an insert or a remove first advances the epoch and
    /// collects. None, the default, is 64. For a map it is nodes / (8 * workers), at least 8 and at
    /// most 64.
    pub collect_after: Option<u32>,
    /// The longest time, in milliseconds, that a call waits: for a worker
    /// ([`Fault::NoWorker`](crate::Fault::NoWorker)), for another thread's call by the same worker
    /// ([`Fault::InUse`](crate::Fault::InUse)), and an insert for removed nodes to be freed
    /// ([`Fault::Full`](crate::Fault::Full)). It yields, and then sleeps; the sleeps begin with 20
    /// microseconds and double up to a millisecond. With 0 no call sleeps, which an asynchronous
    /// program needs. 1,000 by default.
    pub timeout_ms: u32,
}

impl Options {
    /// Returns the options as the library takes them.
    pub(crate) fn of_pool(&self) -> PoolOptions {
        PoolOptions {
            workers: self.workers,
            shape: self.shape as u32,
            tries: self.tries,
            rounds: self.rounds,
            collect_after: self.collect_after.unwrap_or(COLLECT_AFTER),
        }
    }
}

impl Default for Options {
    fn default() -> Options {
        Options {
            workers: 64,
            shape: Shape::Radix,
            tries: 64,
            rounds: 64,
            collect_after: None,
            timeout_ms: 1_000,
        }
    }
}

#[cfg(test)]
mod tests {
    use super::Options;
    use crate::ffi::Pool;

    #[test]
    fn nodes_are_collected_when_64_of_them_wait() {
        let after = |nodes: u64, workers, collect_after| {
            let options = Options {
                workers,
                collect_after,
                ..Options::default()
            };
            let pool = Pool::new(nodes, &options.of_pool()).map_err(drop).unwrap();
            pool.call_options().collect_after
        };
        assert_eq!((after(7, 1, None), after(65_536, 64, None)), (64, 64));
        assert_eq!((after(7, 64, Some(64)), after(65_536, 1, Some(0))), (64, 0));
    }
}
