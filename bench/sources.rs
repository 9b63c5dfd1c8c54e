// Times sources in memory with many outstanding fetches, beside a stock Rust queue of the same entries. Built and run by
// `bench/sources`.
mod clock;
mod memory;

use std::collections::VecDeque;
use std::hint::black_box;

extern "C" {
    fn bench_drain(order: u64, count: u64) -> u64;
    fn bench_release(count: u64) -> usize;
}

const RUNS: usize = 11;

#[derive(Clone, Copy)]
struct Fetch {
    owner: u64,
    request: u64,
    chunk: Option<(u64, u64)>,
}

fn entries(owner: u64, count: u64) -> Vec<Fetch> {
    (0..count).map(|request| Fetch { owner, request, chunk: Some((0, 0)) }).collect()
}

// The same job over a queue: each entry is put into the queue and into a journal, and then taken from an end.
#[inline(never)]
fn stock_drain(oldest: bool, count: u64) -> u64 {
    let batch = entries(1, count);
    let mut queue = VecDeque::with_capacity(batch.len());
    let mut journal = Vec::with_capacity(batch.len());
    for fetch in &batch {
        queue.push_back(*fetch);
        journal.push(*fetch);
    }
    let mut sum = 0u64;
    while let Some(fetch) = if oldest { queue.pop_front() } else { queue.pop_back() } {
        if black_box(fetch.chunk).is_some() {
            sum = sum.wrapping_add(fetch.request);
        }
    }
    black_box(journal);
    sum
}

#[inline(never)]
fn stock_release(count: u64) -> usize {
    let mut queue = VecDeque::with_capacity(2 * count as usize);
    let mut journal = Vec::with_capacity(2 * count as usize);
    for owner in [1, 2] {
        for fetch in &entries(owner, count) {
            queue.push_back(*fetch);
            journal.push(*fetch);
        }
    }
    queue.retain(|fetch| fetch.owner != 1);
    black_box(queue);
    journal.len()
}

// The least of so many times, in nanoseconds for each fetch.
fn least(count: u64, job: &mut dyn FnMut() -> u64) -> f64 {
    let mut best = f64::INFINITY;
    for _ in 0..RUNS {
        let start = clock::now();
        black_box(job());
        best = best.min(clock::now() - start);
    }
    best * 1e6 / count as f64
}

fn main() {
    println!("{:<26} {:>9} {:>9} {:>9}", "nanoseconds a fetch", "fetches", "source", "stock");
    for count in [1_000, 10_000, 100_000, 1_000_000] {
        let total = count * (count - 1) / 2;
        for (name, order) in [("oldest first", 0), ("latest first", 1)] {
            assert_eq!(unsafe { bench_drain(order, count) }, total);
            assert_eq!(stock_drain(order == 0, count), total);
            let ours = least(count, &mut || unsafe { bench_drain(order, count) });
            let stock = least(count, &mut || stock_drain(order == 0, count));
            println!("{name:<26} {count:>9} {ours:>9.1} {stock:>9.1}");
        }
        assert_eq!(unsafe { bench_release(count) } as u64, 2 * count);
        assert_eq!(stock_release(count) as u64, 2 * count);
        let ours = least(2 * count, &mut || unsafe { bench_release(count) as u64 });
        let stock = least(2 * count, &mut || stock_release(count) as u64);
        println!("{:<26} {:>9} {ours:>9.1} {stock:>9.1}", "taken, half released", 2 * count);
    }
    for count in [1_000, 10_000] {
        assert_eq!(unsafe { bench_drain(7, count) }, count * (count - 1) / 2);
        let ours = least(count, &mut || unsafe { bench_drain(7, count) });
        println!("{:<26} {count:>9} {ours:>9.1}", "by a generator");
    }
}
