//! A scheduler: threads queue tasks for a time and cancel some of them, workers run those that are
//! due, and a shutdown returns how many are left.
//!
//! A key is the microsecond at which a task is due, with the task's number in the low bits. So the
//! least key is the task that is due next. The thread that removes a key owns its task, and runs or
//! cancels it. A worker with nothing to run sleeps until the next task is due, or an earlier one is
//! queued.

use nm_set::{Fault, Set};
use std::sync::atomic::{AtomicU64, Ordering::SeqCst};
use std::thread::{scope, sleep};
use std::time::{Duration, Instant};

const NUMBER_BITS: u32 = 20;

struct Scheduler {
    begun: Instant,
    due: Set,
    ran: AtomicU64,
}

impl Scheduler {
    fn new(tasks: u32) -> Result<Scheduler, Fault> {
        Ok(Scheduler {
            begun: Instant::now(),
            due: Set::with_nodes(4 * tasks)?,
            ran: AtomicU64::new(0),
        })
    }

    fn now(&self) -> u64 {
        self.begun.elapsed().as_micros() as u64
    }

    /// Queues the task of a number, below 2^20, and returns its key.
    fn run_in(&self, wait: Duration, number: u64) -> Result<u64, Fault> {
        let key = (self.now() + wait.as_micros() as u64) << NUMBER_BITS | number;
        self.due.insert(key)?;
        Ok(key)
    }

    /// Returns false if the task has begun or ended; otherwise it will not run.
    fn cancel(&self, key: u64) -> Result<bool, Fault> {
        self.due.remove(key)
    }

    /// Runs tasks that are due, until a fault: `Closed` at the shutdown. Several threads may work.
    fn work(&self, run: impl Fn(u64)) -> Result<(), Fault> {
        loop {
            match self.due.pop_first_below((self.now() + 1) << NUMBER_BITS)? {
                Some(key) => {
                    run(key % (1 << NUMBER_BITS));
                    self.ran.fetch_add(1, SeqCst);
                }
                None => self.sleep_until_due()?,
            }
        }
    }

    /// Sleeps until the next task is due, or an earlier one is queued.
    fn sleep_until_due(&self) -> Result<(), Fault> {
        let next = self.due.first()?;
        let due = next.map_or(u64::MAX, |key| key >> NUMBER_BITS);
        let wait = Duration::from_micros(due.saturating_sub(self.now()).min(3_600_000_000));
        self.due.wait_first_below(next.unwrap_or(u64::MAX), wait)?;
        Ok(())
    }
}

/// Queues a thousand tasks, and cancels every fourth. Returns how many did not run because of that.
fn produce(scheduler: &Scheduler, first: u64) -> Result<u64, Fault> {
    let mut cancelled = 0;
    for number in first..first + 1_000 {
        let millis = number * 37 % 20 + 3_600_000 * u64::from(number % 10 == 9);
        let key = scheduler.run_in(Duration::from_millis(millis), number)?;
        cancelled += u64::from(number % 4 == 0 && scheduler.cancel(key)?);
    }
    Ok(cancelled)
}

fn main() -> Result<(), Fault> {
    let scheduler = &Scheduler::new(10_000)?;
    let (left, cancelled) = scope(|scope| {
        let workers = [(); 2].map(|()| scope.spawn(|| scheduler.work(|_number| ())));
        let producers = [0, 1_000, 2_000].map(|at| scope.spawn(move || produce(scheduler, at)));
        let cancelled = producers.map(|it| it.join().unwrap().expect("the set has room"));
        sleep(Duration::from_millis(50));
        let left = scheduler
            .due
            .close()
            .expect("each worker waits or ends its call")
            .len() as u64;
        for worker in workers {
            assert_eq!(worker.join().unwrap(), Err(Fault::Closed));
        }
        (left, cancelled.iter().sum::<u64>())
    });
    let ran = scheduler.ran.load(SeqCst);
    println!("3000 tasks: {ran} ran, {cancelled} cancelled, {left} left");
    assert!(ran + cancelled + left == 3_000 && left >= 300);
    Ok(())
}
