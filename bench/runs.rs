// Times visits of runs, beside a stock Rust driver of the same rule. Built and run by `bench/run`.
mod clock;
mod memory;

use std::collections::VecDeque;
use std::hint::black_box;

extern "C" {
    fn bench_run(roots: u64, children: u64, times: u64, waits: u64) -> u64;
}

const RUNS: usize = 5;

// A planner that makes morsels which go on so many times, or such a morsel.
enum Work {
    Maker { left: u64, times: u64 },
    Counter { left: u64 },
}

enum Output {
    Done,
    Continue,
    Child(Work),
}

trait Worker {
    fn compute(&mut self) -> Output;
}

impl Worker for Work {
    #[inline(never)]
    fn compute(&mut self) -> Output {
        match self {
            Work::Maker { left: 0, .. } | Work::Counter { left: 0 } => Output::Done,
            Work::Maker { left, times } => {
                *left -= 1;
                Output::Child(Work::Counter { left: *times })
            }
            Work::Counter { left } => {
                *left -= 1;
                Output::Continue
            }
        }
    }
}

struct Item {
    root: u64,
    owner: u64,
    path: Vec<u64>,
    next: u64,
    asked: Vec<(u64, u64)>,
    ready: bool,
    work: Work,
}

#[derive(Default)]
struct Source {
    outstanding: VecDeque<(u64, u64)>,
    live: bool,
}

impl Source {
    #[inline(never)]
    fn poll(&mut self) -> Option<(u64, u64)> {
        self.outstanding.pop_front()
    }
}

// Whether one item's path and next number stand before another's.
fn less(a: &Item, b: &Item) -> bool {
    a.path.iter().chain([&a.next]).lt(b.path.iter().chain([&b.next]))
}

fn least(items: &[Item]) -> Option<usize> {
    let mut best: Option<usize> = None;
    for (at, item) in items.iter().enumerate() {
        if item.ready && best.map_or(true, |b| less(item, &items[b])) {
            best = Some(at);
        }
    }
    best
}

// The same rule: the ready item whose path and next number are least is visited, and each live root's source is polled until it gives
// nothing at first, after 64 visits and where nothing is ready.
#[inline(never)]
fn stock_run(roots: u64, children: u64, times: u64) -> u64 {
    let mut items = Vec::new();
    let mut sources = Vec::new();
    for root in 0..roots {
        let work = Work::Maker { left: children, times };
        items.push(Item { root, owner: root, path: vec![root], next: 0, asked: Vec::new(), ready: true, work });
        sources.push(Source { live: true, ..Source::default() });
    }
    let (mut since, mut owners, mut done) = (64, roots, 0);
    loop {
        let mut best = if since < 64 { least(&items) } else { None };
        if best.is_none() {
            for source in sources.iter_mut().filter(|source| source.live) {
                while let Some(completion) = source.poll() {
                    black_box(completion);
                }
            }
            since = 0;
            best = least(&items);
        }
        let Some(at) = best else { return done };
        since += 1;
        match items[at].work.compute() {
            Output::Continue => {}
            Output::Child(work) => {
                let parent = &mut items[at];
                let mut path = parent.path.clone();
                path.push(parent.next);
                parent.next += 1;
                let root = parent.root;
                items.push(Item { root, owner: owners, path, next: 0, asked: Vec::new(), ready: true, work });
                owners += 1;
            }
            Output::Done => {
                let item = items.remove(at);
                let source = &mut sources[item.root as usize];
                source.outstanding.retain(|fetch| fetch.0 != item.owner);
                black_box(item.asked);
                if !items.iter().any(|other| other.root == item.root) {
                    source.live = false;
                    done += 1;
                }
            }
        }
    }
}

// The best of so many times, in millions of visits a second.
fn best(visits: u64, job: &mut dyn FnMut() -> u64) -> f64 {
    let mut shortest = f64::INFINITY;
    for _ in 0..RUNS {
        let start = clock::now();
        black_box(job());
        shortest = shortest.min(clock::now() - start);
    }
    visits as f64 / shortest / 1e3
}

fn main() {
    println!("{:<34} {:>9} {:>9} {:>9}", "millions of visits a second", "visits", "run", "stock");
    for (name, roots, children, times) in [
        ("one root of 1,000 children", 1, 1_000, 10),
        ("1,000 roots of one morsel", 1_000, 1, 0),
        ("one root of ten children", 1, 10, 1_000),
    ] {
        let visits = roots * (children + 1 + children * (times + 1));
        assert_eq!(stock_run(roots, children, times), roots);
        let stock = best(visits, &mut || stock_run(roots, children, times));
        for (how, waits) in [("on poll", 0), ("on wait", 1)] {
            assert_eq!(unsafe { bench_run(roots, children, times, waits) }, roots);
            let ours = best(visits, &mut || unsafe { bench_run(roots, children, times, waits) });
            println!("{:<34} {visits:>9} {ours:>9.3} {stock:>9.3}", format!("{name}, {how}"));
        }
    }
}
