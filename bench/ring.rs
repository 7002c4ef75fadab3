//! The real `crossbeam_queue::ArrayQueue`, by the cases of `bench/ring`: so many nanoseconds an item, of the best of eleven runs and of
//! the one in the middle. `bench/ring` builds it where the crate's sources lie, by `rustc -C opt-level=3`.
use crossbeam_queue::ArrayQueue;
use crossbeam_utils::Backoff;
use std::thread;
use std::time::{Duration, Instant};

const CAPACITY: usize = 1024;

/// The items of a run, over all its threads.
const ITEMS: u64 = 1 << 20;

const RUNS: usize = 11;

#[inline(always)]
fn push_next(queue: &ArrayQueue<u64>, value: u64) {
    let backoff = Backoff::new();
    while queue.push(value).is_err() {
        backoff.snooze();
    }
}

#[inline(always)]
fn pop_next(queue: &ArrayQueue<u64>) -> u64 {
    let backoff = Backoff::new();
    loop {
        if let Some(value) = queue.pop() {
            return value;
        }
        backoff.snooze();
    }
}

/// One thread pushes each item and pops it, in turn.
fn alone(queue: &ArrayQueue<u64>) -> u64 {
    let mut sum = 0u64;
    for value in 0..ITEMS {
        push_next(queue, value);
        sum = sum.wrapping_add(pop_next(queue));
    }
    sum
}

/// So many threads push and as many pop. Answers what the latter's items sum up to.
fn pairs(queue: &ArrayQueue<u64>, pairs: u64) -> u64 {
    let count = ITEMS / pairs;
    thread::scope(|scope| {
        let mut pops = Vec::new();
        for _ in 0..pairs {
            scope.spawn(|| (0..count).for_each(|value| push_next(queue, value)));
            pops.push(scope.spawn(|| (0..count).fold(0u64, |sum, _| sum.wrapping_add(pop_next(queue)))));
        }
        pops.into_iter().fold(0u64, |sum, it| sum.wrapping_add(it.join().unwrap()))
    })
}

/// One run on a queue of its own. A wrong sum ends the program.
fn run(count: u64) -> Duration {
    let queue = ArrayQueue::new(CAPACITY);
    let start = Instant::now();
    let sum = if count == 0 { alone(&queue) } else { pairs(&queue, count) };
    let time = start.elapsed();
    let each = ITEMS / count.max(1);
    assert_eq!(sum, count.max(1) * (each * (each - 1) / 2));
    time
}

fn main() {
    for (count, name) in [(0, "one thread"), (1, "one pair of threads"), (2, "two pairs of threads"), (4, "four pairs of threads")] {
        let mut times: Vec<Duration> = (0..RUNS).map(|_| run(count)).collect();
        times.sort_unstable();
        let nanos = |time: Duration| time.as_secs_f64() * 1e9 / ITEMS as f64;
        println!("{name:21}  best {:7.1} ns  middle {:7.1} ns  the real ArrayQueue", nanos(times[0]), nanos(times[RUNS / 2]));
    }
}
