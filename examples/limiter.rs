//! A rate limiter: a client may make 20 requests in a second, whichever threads serve it.
//!
//! A key is a request: its client, its millisecond, and a number that makes it unique. So the
//! requests of a client in the last second are one range of the set. A thread inserts a request
//! before it counts them. So two threads at the limit see each other, and no client gets more.
use nm_set::{Fault, SetOf};
use std::sync::atomic::{AtomicU16, Ordering::Relaxed};
use std::thread;

const WINDOW: u32 = 1_000; // milliseconds
const LIMIT: u64 = 20;

struct Limiter {
    requests: SetOf<(u16, u32, u16)>,
    numbers: AtomicU16,
}

impl Limiter {
    /// Returns whether a client may make a request now; then the request counts.
    fn allows(&self, client: u16, now: u32) -> Result<bool, Fault> {
        let start = (client, (now + 1).saturating_sub(WINDOW), 0);
        self.requests.remove_range((client, 0, 0)..start)?;
        let request = (client, now, self.numbers.fetch_add(1, Relaxed));
        self.requests.insert(request)?;
        if self.requests.count(start..=(client, now, u16::MAX))? <= LIMIT {
            return Ok(true);
        }
        self.requests.remove(request)?;
        Ok(false)
    }

    /// Makes requests of a client; returns how many are allowed.
    fn ask(&self, client: u16, now: u32, requests: usize) -> Result<usize, Fault> {
        let answers = (0..requests).map(|_| self.allows(client, now));
        let allowed = answers.collect::<Result<Vec<bool>, Fault>>()?;
        Ok(allowed.into_iter().filter(|&is_allowed| is_allowed).count())
    }
}

fn main() -> Result<(), Fault> {
    let limiter = Limiter {
        requests: SetOf::new()?,
        numbers: AtomicU16::new(0),
    };
    println!("at 0 ms: {} of 15", limiter.ask(7, 0, 15)?);
    println!("at 500 ms: {} of 15", limiter.ask(7, 500, 15)?);
    println!("at 1000 ms: {} of 30", limiter.ask(7, 1_000, 30)?);
    println!("another client: {} of 30", limiter.ask(8, 1_000, 30)?);
    let allowed: usize = thread::scope(|scope| {
        let ask = |_| scope.spawn(|| limiter.ask(9, 2_000, 30).unwrap());
        let threads: Vec<_> = (0..4).map(ask).collect();
        threads.into_iter().map(|each| each.join().unwrap()).sum()
    });
    // Three other threads may each have a request in the set that is then refused.
    assert!((17..=20).contains(&allowed), "{allowed}");
    println!("four threads: at most 20 of 120");
    Ok(())
}
