//! Timers: threads set tasks for a time and cancel some of them, and workers run those that are due.
//! A task is a value of a map, so no table of tasks is needed.
//!
//! A key is the microsecond at which a task is due, with a number in the low bits that makes it
//! unique. So the least key is the task that is due next. The thread that removes a key owns its
//! task, and runs or cancels it. A worker with nothing to run sleeps until the next task is due, or
//! an earlier one is set.

use nm_set::{Fault, InsertError, Map, MapWorker};
use std::sync::atomic::{AtomicBool, AtomicU64, Ordering::SeqCst};
use std::sync::Arc;
use std::thread::{scope, sleep};
use std::time::{Duration, Instant};

const NUMBER_BITS: u32 = 20;

/// A worker clones it under a guard, and runs it when the guard has ended.
type Task = Arc<dyn Fn() + Send + Sync>;

struct Timers {
    begun: Instant,
    due: Map<Task>,
    used: AtomicU64,
    is_closing: AtomicBool,
}

impl Timers {
    fn new(tasks: u32) -> Result<Timers, Fault> {
        Ok(Timers {
            begun: Instant::now(),
            due: Map::new(4 * tasks, 64)?,
            used: AtomicU64::new(0),
            is_closing: AtomicBool::new(false),
        })
    }

    fn now(&self) -> u64 {
        self.begun.elapsed().as_micros() as u64
    }

    /// Sets a task by the worker of this thread, and returns its key.
    fn set(
        &self,
        worker: &mut MapWorker<'_, Task>,
        wait: Duration,
        task: Task,
    ) -> Result<u64, InsertError<Task>> {
        let number = self.used.fetch_add(1, SeqCst) % (1 << NUMBER_BITS);
        let key = (self.now() + wait.as_micros() as u64) << NUMBER_BITS | number;
        worker.insert(key, task)?;
        Ok(key)
    }

    /// Takes the next task that is due, or None. No other thread gets it.
    fn next(
        &self,
        reader: &mut MapWorker<'_, Task>,
        worker: &mut MapWorker<'_, Task>,
    ) -> Result<Option<Task>, Fault> {
        let guard = reader.pin()?;
        let below = (self.now() + 1) << NUMBER_BITS;
        let popped = worker.under(&guard)?.pop_first_below(below)?;
        Ok(popped.map(|(_, task)| Arc::clone(task)))
    }

    /// Runs tasks that are due, until the shutdown. Several threads may work.
    fn work(&self) -> Result<(), Fault> {
        let (mut reader, mut worker) = (self.due.attach()?, self.due.attach()?);
        while !self.is_closing.load(SeqCst) {
            match self.next(&mut reader, &mut worker)? {
                Some(task) => task(),
                None => self.sleep_until_due(&mut worker)?,
            }
        }
        Ok(())
    }

    /// Sleeps until the next task is due, or an earlier one is set.
    fn sleep_until_due(&self, worker: &mut MapWorker<'_, Task>) -> Result<(), Fault> {
        let next = worker.first()?;
        let due = next.map_or(u64::MAX, |key| key >> NUMBER_BITS);
        let wait = Duration::from_micros(due.saturating_sub(self.now()).min(3_600_000_000));
        worker.wait_first_below(next.unwrap_or(u64::MAX), wait)?;
        Ok(())
    }

    /// Ends the workers, also those that sleep: each is woken by a task for it, which is due at once.
    /// Returns how many tasks are left, without these.
    fn shut_down(&self, workers: u64) -> Result<u64, Fault> {
        let left = self.due.len()? as u64;
        self.is_closing.store(true, SeqCst);
        let mut closer = self.due.attach()?;
        for key in 0..workers {
            let is_set = closer.insert(key, Arc::new(|| ()));
            assert!(is_set.is_ok(), "the map has room");
        }
        Ok(left)
    }
}

/// Sets a thousand tasks, and cancels every fourth. Returns how many did not run because of that.
fn produce(timers: &Timers, runs: &Arc<AtomicU64>) -> Result<u64, InsertError<Task>> {
    let mut worker = timers.due.attach().expect("a worker is free");
    let mut cancelled = 0;
    for number in 0..1_000 {
        let millis = number * 37 % 20 + 3_600_000 * u64::from(number % 10 == 9);
        let runs = Arc::clone(runs);
        let task = Arc::new(move || {
            runs.fetch_add(1, SeqCst);
        });
        let key = timers.set(&mut worker, Duration::from_millis(millis), task)?;
        let is_cancelled = number % 4 == 0 && worker.remove(key).expect("the key is one");
        cancelled += u64::from(is_cancelled);
    }
    Ok(cancelled)
}

fn main() -> Result<(), Fault> {
    let (timers, runs) = (&Timers::new(10_000)?, &Arc::new(AtomicU64::new(0)));
    let [ran, cancelled, left] = scope(|scope| {
        let workers = [(); 2].map(|()| scope.spawn(|| timers.work()));
        let producers = [(); 3].map(|()| scope.spawn(|| produce(timers, runs)));
        let cancelled = producers.map(|it| it.join().unwrap().expect("the map has room"));
        sleep(Duration::from_millis(50));
        let left = timers.shut_down(2).expect("a worker is free");
        for worker in workers {
            worker.join().unwrap().expect("workers are free");
        }
        let ran = runs.load(SeqCst);
        [ran, cancelled.iter().sum::<u64>(), left]
    });
    println!("{ran} tasks ran, {cancelled} were cancelled, {left} are left");
    assert!(ran + cancelled + left == 3_000 && left >= 300);
    Ok(())
}
