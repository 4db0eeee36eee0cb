//! Rust's `BTreeSet` in a `Mutex` for bench/orders, with the rows and answers of orders.cpp.
use std::cell::Cell;
use std::collections::BTreeSet;
use std::io::BufRead;
use std::sync::atomic::{AtomicU64, Ordering};
use std::sync::Mutex;
use std::time::Instant;

type Set = Mutex<BTreeSet<u64>>;

fn next(seed: &mut u64) -> u64 {
    *seed ^= *seed << 13;
    *seed ^= *seed >> 7;
    *seed ^= *seed << 17;
    *seed
}

fn shuffle(keys: &mut [u64]) {
    let mut seed = 88_172_645_463_325_252;
    for at in (1..keys.len()).rev() {
        keys.swap(at, (next(&mut seed) % (at as u64 + 1)) as usize);
    }
}

fn keys_in(order: &str, count: usize) -> Vec<u64> {
    let mut keys: Vec<u64> = (1..=count as u64).collect();
    match order {
        "clustered" => {
            let mut seed = 7_777_777;
            let each = count / 32 + 1;
            keys = (0..32)
                .map(|_| next(&mut seed) >> 2)
                .flat_map(|first| (0..each as u64).map(move |at| first + at))
                .take(count)
                .collect();
        }
        "descending" => keys.reverse(),
        "shuffled" | "zipf" => shuffle(&mut keys),
        _ => {}
    }
    keys
}

fn zipf_picks(keys: &[u64], count: usize) -> Vec<u64> {
    let mut sum = 0.0;
    let sums: Vec<f64> = (0..keys.len())
        .map(|rank| {
            sum += 1.0 / ((rank + 1) as f64).powf(0.99);
            sum
        })
        .collect();
    let mut seed = 11_111_111;
    (0..count)
        .map(|_| {
            let drawn = (next(&mut seed) >> 11) as f64 / (1u64 << 53) as f64 * sum;
            keys[sums.partition_point(|it| *it < drawn).min(keys.len() - 1)]
        })
        .collect()
}

fn nanoseconds(calls: usize, work: impl FnOnce()) -> f64 {
    let begun = Instant::now();
    work();
    begun.elapsed().as_nanos() as f64 / calls as f64
}

fn in_threads(threads: usize, turns: usize, turn: impl Fn() + Sync) -> f64 {
    nanoseconds(turns, || {
        std::thread::scope(|scope| {
            for _ in 0..threads {
                scope.spawn(|| (0..turns / threads).for_each(|_| turn()));
            }
        })
    })
}

fn filled(order: &str, count: usize) -> f64 {
    let set = Set::default();
    let keys = keys_in(order, count);
    let fill = nanoseconds(count, || {
        for key in &keys {
            assert!(set.lock().unwrap().insert(*key));
        }
    });
    if order != "zipf" {
        return fill;
    }
    let picks = zipf_picks(&keys, 4 * count);
    nanoseconds(picks.len(), || {
        for key in &picks {
            assert!(set.lock().unwrap().contains(key));
        }
    })
}

fn standing(count: usize) -> (Set, AtomicU64) {
    let keys = (1..=count as u64).collect();
    (Mutex::new(keys), AtomicU64::new(count as u64 + 1))
}

fn windowed(window: usize, threads: usize) -> f64 {
    let (set, clock) = standing(window);
    in_threads(threads, window.max(200_000), || {
        let time = clock.fetch_add(1, Ordering::Relaxed);
        assert!(set.lock().unwrap().insert(time));
        while !set.lock().unwrap().remove(&(time - window as u64)) {
            std::thread::yield_now();
        }
    })
}

fn scheduled(count: usize, threads: usize) -> f64 {
    let (set, clock) = standing(count);
    in_threads(threads, 200_000, || {
        let time = clock.fetch_add(1, Ordering::Relaxed);
        assert!(set.lock().unwrap().insert(time));
        assert!(set.lock().unwrap().pop_first().is_some());
    })
}

/// A random key of a range that begins at the least key that was popped last.
fn some_key(least: u64, seed: &mut u64) -> u64 {
    least + 1 + (next(seed) & ((1 << 56) - 1))
}

/// Fills a set. Then it removes a key and inserts a random one as many times as the set has keys, by
/// turns the least key and a random one. Returns the keys, with some that the set has no longer, and
/// the key that was popped last.
fn churn(set: &Set, count: usize, seed: &mut u64) -> (Vec<u64>, u64) {
    let (mut keys, mut least) = (Vec::new(), 0);
    for turn in 0..2 * count {
        if turn < count {
        } else if turn % 2 == 0 {
            least = set.lock().unwrap().pop_first().unwrap();
        } else {
            loop {
                let at = (next(seed) % keys.len() as u64) as usize;
                let key: u64 = keys.swap_remove(at);
                if set.lock().unwrap().remove(&key) {
                    break;
                }
            }
        }
        let key = some_key(least, seed);
        assert!(set.lock().unwrap().insert(key));
        keys.push(key);
    }
    (keys, least)
}

fn churned(what: &str, count: usize, threads: usize) -> f64 {
    const TURNS: usize = 200_000;
    let set = Set::default();
    let mut seed = 33_333_333;
    let (mut keys, least) = churn(&set, count, &mut seed);
    keys.retain(|key| set.lock().unwrap().contains(key));
    shuffle(&mut keys);
    let len = keys.len();
    match what {
        "random-look-ups" => nanoseconds(TURNS, || {
            for turn in 0..TURNS {
                assert!(set.lock().unwrap().contains(&keys[turn % len]));
            }
        }),
        "random-changes" => nanoseconds(TURNS, || {
            for turn in 0..TURNS {
                let key = &mut keys[turn % len];
                assert!(set.lock().unwrap().remove(key));
                *key = some_key(least, &mut seed);
                assert!(set.lock().unwrap().insert(*key));
            }
        }),
        "random-pops" => {
            let seeds = AtomicU64::new(77_777_777);
            in_threads(threads, TURNS, || {
                thread_local!(static OWN: Cell<u64> = const { Cell::new(0) });
                let mut seed = OWN.get();
                if seed == 0 {
                    seed = seeds.fetch_add(11_111, Ordering::Relaxed);
                }
                let popped = set.lock().unwrap().pop_first().unwrap();
                assert!(set.lock().unwrap().insert(some_key(popped, &mut seed)));
                OWN.set(seed);
            })
        }
        _ => panic!("no such row: {what}"),
    }
}

fn main() {
    for line in std::io::stdin().lock().lines() {
        let line = line.unwrap();
        let words: Vec<&str> = line.split(' ').collect();
        let (keys, threads) = (words[1].parse().unwrap(), words[2].parse().unwrap());
        let taken = match words[0] {
            "window" => windowed(keys, threads),
            "scheduler" => scheduled(keys, threads),
            what if what.starts_with("random-") => churned(what, keys, threads),
            order => filled(order, keys),
        };
        println!("{taken:.1}");
    }
}
