//! For bench/rust: times the calls of the crate's two maps, and of a `BTreeMap` in a `Mutex`. Arguments: the
//! rounds, how many calls each thread makes, and the numbers of keys. It prints rows of a table, in
//! nanoseconds of processor time a call: the most of all rounds.

use nm_set::{CopyMap, CopyMapWorker, InsertError, Map, MapWorker};
use std::collections::BTreeMap;
use std::sync::{Barrier, Mutex};
use std::thread;

const THREADS: [u64; 2] = [1, 4];

/// What is timed: of keys of which the map has half; or of keys that it has.
#[derive(Clone, Copy)]
enum Call {
    Get,
    InsertOrRemove,
    Put,
}

/// The calls of a thread on a map. Each returns whether the map had the key.
trait Calls {
    fn get(&mut self, key: u64) -> bool;
    fn insert(&mut self, key: u64) -> bool;
    fn remove(&mut self, key: u64) -> bool;
    fn put(&mut self, key: u64) -> bool;
}

/// Returns whether a key was found, with its value.
fn must_be_of(key: u64, found: Option<u64>) -> bool {
    assert!(found.map_or(true, |value| value == !key));
    found.is_some()
}

/// Returns whether the map had the key of an insert.
fn had_key(inserted: Result<(), InsertError<u64>>) -> bool {
    inserted.is_err_and(|error| error.fault().map_or(true, |fault| panic!("{fault}")))
}

impl Calls for CopyMapWorker<'_, u64> {
    fn get(&mut self, key: u64) -> bool {
        let found = CopyMapWorker::get(self, key).expect("a get");
        must_be_of(key, found)
    }

    fn insert(&mut self, key: u64) -> bool {
        had_key(CopyMapWorker::insert(self, key, !key))
    }

    fn remove(&mut self, key: u64) -> bool {
        CopyMapWorker::remove(self, key)
            .expect("a remove")
            .is_some()
    }

    fn put(&mut self, key: u64) -> bool {
        CopyMapWorker::put(self, key, !key)
            .expect("a put")
            .is_some()
    }
}

impl Calls for MapWorker<'_, u64> {
    fn get(&mut self, key: u64) -> bool {
        let guard = self.pin().expect("a pin");
        let found = guard.get(key).expect("a get");
        must_be_of(key, found.copied())
    }

    fn insert(&mut self, key: u64) -> bool {
        had_key(MapWorker::insert(self, key, !key))
    }

    fn remove(&mut self, key: u64) -> bool {
        MapWorker::remove(self, key).expect("a remove")
    }

    fn put(&mut self, key: u64) -> bool {
        !MapWorker::put(self, key, !key).expect("a put")
    }
}

type Locked = Mutex<BTreeMap<u64, u64>>;

impl Calls for &Locked {
    fn get(&mut self, key: u64) -> bool {
        let found = self.lock().unwrap().get(&key).copied();
        must_be_of(key, found)
    }

    fn insert(&mut self, key: u64) -> bool {
        let mut has_key = true;
        let absent = || {
            has_key = false;
            !key
        };
        self.lock().unwrap().entry(key).or_insert_with(absent);
        has_key
    }

    fn remove(&mut self, key: u64) -> bool {
        self.lock().unwrap().remove(&key).is_some()
    }

    fn put(&mut self, key: u64) -> bool {
        self.lock().unwrap().insert(key, !key).is_some()
    }
}

/// A map that threads share.
trait Shared: Sync {
    type Worker<'a>: Calls
    where
        Self: 'a;

    /// Makes an empty map for so many keys.
    fn made(keys: u64) -> Self;

    fn worker(&self) -> Self::Worker<'_>;
}

/// How many nodes the maps have for so many keys.
fn nodes(keys: u64) -> u32 {
    (4 * keys + 4_096) as u32
}

impl Shared for CopyMap<u64> {
    type Worker<'a> = CopyMapWorker<'a, u64>;

    fn made(keys: u64) -> Self {
        CopyMap::new(nodes(keys), 8).expect("a map")
    }

    fn worker(&self) -> Self::Worker<'_> {
        self.attach().expect("a worker")
    }
}

impl Shared for Map<u64> {
    type Worker<'a> = MapWorker<'a, u64>;

    fn made(keys: u64) -> Self {
        Map::new(nodes(keys), 8).expect("a map")
    }

    fn worker(&self) -> Self::Worker<'_> {
        self.attach().expect("a worker")
    }
}

impl Shared for Locked {
    type Worker<'a> = &'a Locked;

    fn made(_: u64) -> Self {
        Mutex::default()
    }

    fn worker(&self) -> Self::Worker<'_> {
        self
    }
}

/// Returns a key that is far from that of the next number.
fn scattered(number: u64) -> u64 {
    number.wrapping_mul(0x9e37_79b9_7f4a_7c15)
}

/// Returns the next number of xorshift.
fn drawn(seed: &mut u64) -> u64 {
    *seed ^= *seed << 13;
    *seed ^= *seed >> 7;
    *seed ^= *seed << 17;
    *seed
}

/// Returns the nanoseconds of processor time that this thread has taken.
fn taken() -> u64 {
    #[repr(C)]
    struct Time {
        seconds: i64,
        nanoseconds: i64,
    }
    extern "C" {
        fn clock_gettime(clock: i32, time: *mut Time) -> i32;
    }
    const THREAD: i32 = 3;
    let (seconds, nanoseconds) = (0, 0);
    let mut time = Time {
        seconds,
        nanoseconds,
    };
    // SAFETY: the place is borrowed for this call, and is a `timespec` of Linux on x86-64.
    assert_eq!(unsafe { clock_gettime(THREAD, &mut time) }, 0);
    (time.seconds * 1_000_000_000 + time.nanoseconds) as u64
}

/// Makes calls by a worker. Returns how many found their key.
fn make(worker: &mut impl Calls, call: Call, keys: u64, calls: u64, seed: &mut u64) -> u64 {
    let mut found = 0;
    for _ in 0..calls {
        let number = drawn(seed) % (2 * keys);
        found += u64::from(match call {
            Call::Get => worker.get(scattered(number)),
            Call::InsertOrRemove if drawn(seed) % 2 == 0 => worker.insert(scattered(number)),
            Call::InsertOrRemove => worker.remove(scattered(number)),
            Call::Put => worker.put(scattered(number & !1)),
        });
    }
    found
}

/// Returns the nanoseconds of processor time of a call by these threads on a new map.
fn timed<M: Shared>(call: Call, keys: u64, threads: u64, calls: u64) -> u64 {
    let map = M::made(keys);
    let mut worker = map.worker();
    for number in 0..keys {
        assert!(!worker.insert(scattered(2 * number)));
    }
    drop(worker);
    let barrier = Barrier::new(threads as usize);
    let run = |number: u64| {
        let (mut worker, mut seed) = (map.worker(), 88_172_645_463_325_252 + number);
        barrier.wait();
        make(&mut worker, call, keys, calls / 10, &mut seed);
        let begin = taken();
        let found = make(&mut worker, call, keys, calls, &mut seed);
        let is_right = match call {
            Call::Put => found == calls,
            Call::Get | Call::InsertOrRemove => found > calls / 3 && found < calls / 3 * 2,
        };
        assert!(is_right, "{found} of {calls} calls found their key");
        taken() - begin
    };
    let sum: u64 = thread::scope(|scope| {
        let running: Vec<_> = (0..threads)
            .map(|number| scope.spawn(move || run(number)))
            .collect();
        running.into_iter().map(|each| each.join().unwrap()).sum()
    });
    sum / (threads * calls)
}

/// Prints the row of a call. The maps are measured by turns.
fn row(name: &str, call: Call, keys: u64, threads: u64, (rounds, calls): (u64, u64)) {
    let mut most = [0; 3];
    for _ in 0..rounds {
        let each = [
            timed::<CopyMap<u64>>(call, keys, threads, calls),
            timed::<Map<u64>>(call, keys, threads, calls),
            timed::<Locked>(call, keys, threads, calls),
        ];
        most = [0, 1, 2].map(|at| u64::max(most[at], each[at]));
    }
    let [copy, boxed, locked] = most;
    println!("| {keys} | {threads} | {name} | {copy} | {boxed} | {locked} |");
}

fn main() {
    let mut words = std::env::args()
        .skip(1)
        .map(|word| word.parse().expect("a number"));
    let mut next = || words.next().expect("the rounds and the calls");
    let bounds = (next(), next());
    println!("| Keys | Threads | Call | CopyMap | Map | Mutex, BTreeMap |");
    println!("|---|---|---|---|---|---|");
    for keys in words {
        for threads in THREADS {
            row("`get`", Call::Get, keys, threads, bounds);
            row(
                "`insert`, `remove`",
                Call::InsertOrRemove,
                keys,
                threads,
                bounds,
            );
            row("`put`", Call::Put, keys, threads, bounds);
        }
    }
}
