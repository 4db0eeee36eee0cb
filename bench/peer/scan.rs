//! Rust's `BTreeSet` in a `Mutex` for bench/scan, with the rows and answers of scan.cpp.
use std::collections::BTreeSet;
use std::io::BufRead;
use std::sync::atomic::{AtomicBool, Ordering};
use std::sync::Mutex;
use std::time::{Duration, Instant};

fn next(seed: &mut u64) -> u64 {
    *seed ^= *seed << 13;
    *seed ^= *seed >> 7;
    *seed ^= *seed << 17;
    *seed
}

fn scattered(number: u64) -> u64 {
    number.wrapping_mul(0x9E37_79B9_7F4A_7C15) >> 1
}

/// Removes random keys of its own, or inserts them if they are not there, until it is over. A third
/// of the range's keys are those of one writer.
fn change(set: &Mutex<BTreeSet<u64>>, number: u64, count: u64, is_over: &AtomicBool) {
    let mut seed = 1_111 * number;
    while !is_over.load(Ordering::Relaxed) {
        let key = scattered(next(&mut seed) % (2 * count / 3) * 3 + number - 1);
        let is_removed = set.lock().unwrap().remove(&key);
        if !is_removed {
            set.lock().unwrap().insert(key);
        }
    }
}

/// Makes scans from random keys on for a quarter of a second or more; returns the nanoseconds a key.
fn scanned(set: &Mutex<BTreeSet<u64>>, length: u64, count: u64) -> f64 {
    let (mut seed, mut total, mut keys) = (77_777_777, 0, Vec::<u64>::new());
    let begun = Instant::now();
    while begun.elapsed() < Duration::from_millis(250) {
        let from = if length < count {
            scattered(next(&mut seed) % (2 * count))
        } else {
            0
        };
        keys.clear();
        keys.extend(set.lock().unwrap().range(from..).take(length as usize));
        assert!(keys.is_sorted());
        total += keys.len();
    }
    begun.elapsed().as_nanos() as f64 / total as f64
}

fn timed(length: u64, count: u64, writers: u64) -> f64 {
    let (mut seed, set) = (55_555_555, Mutex::new(BTreeSet::new()));
    while set.lock().unwrap().len() < count as usize {
        set.lock().unwrap().insert(scattered(next(&mut seed) % (2 * count)));
    }
    let is_over = AtomicBool::new(false);
    std::thread::scope(|scope| {
        for number in 1..=writers {
            let (set, is_over) = (&set, &is_over);
            scope.spawn(move || change(set, number, count, is_over));
        }
        let taken = scanned(&set, length, count);
        is_over.store(true, Ordering::Relaxed);
        taken
    })
}

fn main() {
    for line in std::io::stdin().lock().lines() {
        let row: Vec<u64> = line
            .unwrap()
            .split(' ')
            .map(|word| word.parse().unwrap())
            .collect();
        println!("{:.1}", timed(row[0], row[1], row[2]));
    }
}
