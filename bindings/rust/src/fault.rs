//! The faults that calls return.

use crate::ffi::{full_words, Filled, Fullness, Outcome};
use crate::numbers::Numbers;
use crate::shown::Shown;
use crate::MOST_KEY;
use std::fmt;

/// Why a call failed. The call has changed nothing, unless the line says more.
#[derive(Clone, Copy, Debug, PartialEq, Eq, Hash)]
#[non_exhaustive]
pub enum Fault {
    /// This key is above 2^64 - 4 ([`MOST_KEY`](crate::MOST_KEY)).
    Key(u64),
    /// This value of a [`SetOf`](crate::SetOf) or a [`MapOf`](crate::MapOf) is no key: it is one of the
    /// three greatest values of a type with 64 bits, or its key is above 2^64 - 4.
    Value(Shown),
    /// This value is no key, because it has no place in the order, like NaN.
    Unordered(Shown),
    /// This number of nodes is not 7 to 268,435,456.
    Nodes(u64),
    /// This number of workers is not 1 to 64.
    Workers(u32),
    /// There is no worker of that number.
    Number {
        /// The number that was asked for.
        number: u32,
        /// How many workers the set has.
        workers: u32,
    },
    /// Memory was refused.
    NoMemory,
    /// An insert found no nodes for its key: the keys take all of them, or no others were freed
    /// within the [`timeout_ms`](crate::Options::timeout_ms) of the set.
    Full(Full),
    /// An insert into a [`Map`](crate::Map) found no nodes for its key: the keys take all of them,
    /// or no others became free within the [`timeout_ms`](crate::Options::timeout_ms) of the map.
    MapFull(Full),
    /// No nodes were free for the key of a [`try_insert`](crate::Worker::try_insert), which waits
    /// for none.
    NoNodes,
    /// Other threads interfered with each try, or the call has none. Of the call nothing remains
    /// but help given to others; call again.
    Busy,
    /// Other threads interfered with each try of each round of a managed call. Of the call nothing
    /// remains but help given to others.
    Contention,
    /// A remove has begun, and its bound was reached before it was finished. The key will be
    /// removed by this remove and no other. It is pending until the worker's next managed call, or
    /// [`try_finish`](crate::Worker::try_finish), has finished the remove. Until then it is found, and
    /// an insert of it returns false. So remove it again: after false it is gone.
    Unfinished,
    /// An earlier remove has begun and is not finished, so that only
    /// [`try_finish`](crate::Worker::try_finish) and the managed calls go on.
    Pending,
    /// The worker is pinned, because the guard of its pin was forgotten
    /// ([`forget`](std::mem::forget)). If the worker is dropped, its pin ends.
    Pinned,
    /// These workers are pinned, so that the set gets no new size.
    PinnedWorkers(Numbers),
    /// Within the time of the call each worker was in a call, or attached and pinned; for an
    /// `attach`: in a call or attached. It makes no difference which threads have attached them. For
    /// the `attach` of a map: each was attached, or other threads were attaching workers meanwhile.
    NoWorker {
        /// How many workers the set or the map has.
        workers: u32,
    },
    /// Other threads were in calls by these workers, and did not end them within the time of this
    /// call: the worker of a call, or the workers that keep the set from being closed.
    InUse(Numbers),
    /// These workers are attached to threads: the worker of the given number, or the workers that
    /// keep the set from being closed.
    Attached(Numbers),
    /// The set is closed.
    Closed,
    /// The set or the map was made before this process was forked: only the parent can use it.
    Forked,
    /// The guard is of another map: see [`MapWorker::under`](crate::MapWorker::under).
    OtherMap,
    /// An outcome of the library that this crate does not know. It has the number in `nm_set.h`.
    Other(i32),
}

/// How full a set is ([`stats`](crate::Set::stats)), or a set or a map was when an insert found no
/// nodes for its key, in the numbers that
/// [`len`](crate::Set::len) and [`waiting`](crate::Set::waiting) of a set return. Of a map, `waiting`
/// is what its keys leave.
#[derive(Clone, Copy, Debug, Default, PartialEq, Eq, Hash)]
pub struct Full {
    /// The number of nodes for which it has room.
    pub nodes: u64,
    /// How many keys it had; n keys take 2 n + 5 nodes.
    pub keys: u64,
    /// How many removed nodes waited to be freed.
    pub waiting: u64,
    /// Which workers were in a call, so that the insert could not ask how many nodes wait with
    /// them. For each of these, `waiting` has the number of the last time that it was asked.
    pub unasked: Numbers,
    /// Which workers held the epoch back, by a pin or in a call, so that nodes were not freed.
    pub behind: Numbers,
    /// Which workers were pinned or in a call when the set was last to grow, and so prevented it.
    pub hindering: Numbers,
}

impl Fault {
    /// Returns the fault of an outcome below 0.
    pub(crate) fn of(outcome: Outcome) -> Fault {
        match outcome {
            -1 | -3 | -19 => Fault::Closed,
            -8 => Fault::NoMemory,
            -9 => Fault::Busy,
            -10 => Fault::NoNodes,
            -11 => Fault::Unfinished,
            -12 => Fault::Pending,
            -13 => Fault::Pinned,
            -22 => Fault::InUse(Numbers::default()),
            -30 => Fault::Forked,
            other => Fault::Other(other),
        }
    }
}

/// Returns whether the answer is not no, or the fault of an error.
#[inline]
pub(crate) fn answer(outcome: Outcome) -> Result<bool, Fault> {
    match outcome {
        0.. => Ok(outcome != 0),
        _ => Err(Fault::of(outcome)),
    }
}

/// Returns a number as text, in groups of three digits.
fn grouped(number: u64) -> String {
    let digits = number.to_string();
    let mut text = String::new();
    for (at, digit) in digits.chars().enumerate() {
        if at > 0 && (digits.len() - at) % 3 == 0 {
            text.push(',');
        }
        text.push(digit);
    }
    text
}

impl Full {
    /// Returns what it says of a set or a map, in the words of the library.
    fn words(&self, what: Filled) -> String {
        let fullness = Fullness {
            nodes: self.nodes,
            keys: self.keys,
            waiting: self.waiting,
            free: 0,
            unasked: self.unasked.mask(),
            behind: self.behind.mask(),
            hindering: self.hindering.mask(),
        };
        full_words(what, &fullness)
    }
}

impl From<Fullness> for Full {
    fn from(fullness: Fullness) -> Full {
        Full {
            nodes: fullness.nodes,
            keys: fullness.keys,
            waiting: fullness.waiting,
            unasked: Numbers::of(fullness.unasked),
            behind: Numbers::of(fullness.behind),
            hindering: Numbers::of(fullness.hindering),
        }
    }
}

impl fmt::Display for Full {
    fn fmt(&self, f: &mut fmt::Formatter<'_>) -> fmt::Result {
        f.write_str(&self.words(Filled::Set))
    }
}

impl fmt::Display for Fault {
    fn fmt(&self, f: &mut fmt::Formatter<'_>) -> fmt::Result {
        f.write_str(match *self {
            Fault::Key(key) => {
                return write!(f, "the key {key} is above {} (2^64 - 4)", grouped(MOST_KEY))
            }
            Fault::Value(value) => {
                return write!(
                    f,
                    "the value {value} is no key: of a type with 64 bits the three greatest values \
                     are none"
                )
            }
            Fault::Unordered(value) => {
                return write!(
                    f,
                    "the value {value} is no key: it has no place in the order"
                )
            }
            Fault::Nodes(nodes) => {
                return write!(f, "the number of nodes is not 7 to 268,435,456: {nodes}")
            }
            Fault::Workers(workers) => {
                return write!(f, "the number of workers is not 1 to 64: {workers}")
            }
            Fault::Number { number, workers } => {
                return write!(
                    f,
                    "there is no worker {number}: the set has {workers}, from 0 on"
                )
            }
            Fault::Full(full) => return full.fmt(f),
            Fault::MapFull(full) => return f.write_str(&full.words(Filled::Map)),
            Fault::NoWorker { workers } => {
                return write!(
                    f,
                    "no worker is free: each of the {workers} (64 at most) is attached or in a call"
                )
            }
            Fault::InUse(numbers) => {
                return write!(
                    f,
                    "{} in a call of another thread, which has not ended in time: call again",
                    numbers.are()
                )
            }
            Fault::Attached(numbers) => return write!(f, "{} attached to a thread", numbers.are()),
            Fault::PinnedWorkers(numbers) => {
                return write!(f, "the set gets no new size: {} pinned", numbers.are())
            }
            Fault::Other(number) => return write!(f, "the library returned outcome {number}"),
            Fault::NoMemory => "memory was refused",
            Fault::NoNodes => {
                "no nodes are free for the new key: call `insert`, which waits for nodes, or `collect`"
            }
            Fault::Busy => "other threads interfered with each try: call again, or give more tries",
            Fault::Contention => {
                "other threads interfered with each try of each round: call again, or raise the \
                 rounds of the options"
            }
            Fault::Unfinished => {
                "the remove is not finished: the key is found until the next call by its worker, \
                 so remove it again"
            }
            Fault::Pending => "an earlier remove has begun and is not finished: finish it first",
            Fault::Pinned => "the worker is pinned, and the guard of its pin was forgotten",
            Fault::Closed => "the set is closed",
            Fault::Forked => {
                "the set or the map was made before this process was forked: only the parent can \
                 use it"
            }
            Fault::OtherMap => "the guard is of another map: pin a worker of this one",
        })
    }
}

impl std::error::Error for Fault {}

#[cfg(test)]
mod tests {
    use super::{grouped, Fault, Full, Numbers};

    #[test]
    fn an_outcome_that_is_not_known_keeps_its_number() {
        assert_eq!(Fault::of(-99), Fault::Other(-99));
        assert_eq!(
            Fault::of(-99).to_string(),
            "the library returned outcome -99"
        );
    }

    #[test]
    fn digits_are_in_groups_of_three() {
        let text: Vec<_> = [0, 999, 1_000, 65_536, 268_435_456].map(grouped).into();
        assert_eq!(text, ["0", "999", "1,000", "65,536", "268,435,456"]);
    }

    #[test]
    fn a_full_set_writes_its_numbers() {
        let mut full = Full {
            nodes: 65_536,
            keys: 1_200,
            waiting: 63_131,
            ..Full::default()
        };
        let text =
            "the set is full: its 1,200 keys take 2,405 of its 65,536 nodes, and 63,131 wait \
                    to be freed";
        assert_eq!(full.to_string(), text);
        full.behind = Numbers::of(0b1010);
        let text = format!("{text}; workers 1 and 3 are in their way, by a pin or in a call");
        assert_eq!(Fault::Full(full).to_string(), text);
        full.hindering = Numbers::of(0b100);
        let grown = format!("{text}; the set cannot grow while worker 2 is pinned or in a call");
        assert_eq!(Fault::Full(full).to_string(), grown);
        full.hindering = Numbers::default();
        full.unasked = Numbers::of(0b1000);
        let text =
            format!("{text}; worker 3 is in a call, so what waits there is counted as last seen");
        assert_eq!(full.to_string(), text);
    }
}
