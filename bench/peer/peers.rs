//! Rust's `BTreeSet` in a `Mutex` for bench/peers, with the rows and answers of peers.cpp.
use std::collections::BTreeSet;
use std::io::BufRead;
use std::sync::atomic::{AtomicBool, Ordering::Relaxed};
use std::sync::{Barrier, Mutex};
use std::time::{Duration, Instant};

fn next(seed: &mut u64) -> u64 {
    *seed ^= *seed << 13;
    *seed ^= *seed >> 7;
    *seed ^= *seed << 17;
    *seed
}

fn scattered(index: u64) -> u64 {
    index.wrapping_mul(0x9E37_79B9_7F4A_7C15) >> 1
}

/// The calls that a thread makes until the end, behind its part of the keys.
fn calls(
    set: &Mutex<BTreeSet<u64>>,
    row: &[u64],
    number: u64,
    ready: &Barrier,
    ends: &AtomicBool,
) -> u64 {
    let (keys, lookups, threads) = (row[0], row[1], row[2]);
    let mut seed = 88_172_645_463_325_252 + number * 1_000_003;
    for _ in (number..keys).step_by(threads as usize) {
        while !set.lock().unwrap().insert(scattered(next(&mut seed) % (2 * keys))) {}
    }
    ready.wait();
    let mut made = 0;
    while !ends.load(Relaxed) {
        let drawn = next(&mut seed);
        let (key, kind) = (scattered(drawn % (2 * keys)), (drawn >> 40) % 200);
        if kind < 2 * lookups {
            set.lock().unwrap().contains(&key);
        } else if kind & 1 == 1 {
            set.lock().unwrap().insert(key);
        } else {
            set.lock().unwrap().remove(&key);
        }
        made += 1;
    }
    made
}

fn rate(row: &[u64]) -> f64 {
    let (set, ends) = (Mutex::new(BTreeSet::new()), AtomicBool::new(false));
    let ready = Barrier::new(row[2] as usize + 1);
    std::thread::scope(|scope| {
        let (set, ends, ready) = (&set, &ends, &ready);
        let threads: Vec<_> = (0..row[2])
            .map(|number| scope.spawn(move || calls(set, row, number, ready, ends)))
            .collect();
        ready.wait();
        let begun = Instant::now();
        std::thread::sleep(Duration::from_millis(row[3]));
        ends.store(true, Relaxed);
        let micros = begun.elapsed().as_secs_f64() * 1e6;
        threads.into_iter().map(|thread| thread.join().unwrap()).sum::<u64>() as f64 / micros
    })
}

fn main() {
    for line in std::io::stdin().lock().lines() {
        let row: Vec<u64> = line
            .unwrap()
            .split_whitespace()
            .map(|word| word.parse().unwrap())
            .collect();
        println!("{:.4}", rate(&row));
    }
}
