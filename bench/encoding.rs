// Times `dict_encode` beside stock Rust of the same job: a hashed map with the default hasher from each row to its place, and a
// list of the distinct rows. Built and run by `bench/encoding`.
//
// A call of the library builds its column and then encodes it so many times, so what one call takes is what further ones add:
// the median time with more calls, less the median time with one. The stock side is timed in the same way; its rows stand ready.
mod clock;
mod memory;

use clock::now;
use std::collections::HashMap;
use std::hint::black_box;

// How many values there are, and the first, the middle and the last code as one number.
#[repr(C)]
#[derive(Clone, Copy, Debug, PartialEq, Eq)]
pub struct Told {
    values: usize,
    codes: u64,
}

extern "C" {
    fn bench_encode_numbers(numbers: *const u64, len: usize, times: usize) -> Told;
    fn bench_encode_texts(bytes: *const u8, bytes_len: usize, ends: *const usize, ends_len: usize, times: usize) -> Told;
}

const ROWS: usize = 10_000_000;
// How many calls are timed beyond the first.
const MORE: usize = 2;

struct Random(u64);

impl Random {
    fn next(&mut self) -> u64 {
        self.0 ^= self.0 << 13;
        self.0 ^= self.0 >> 7;
        self.0 ^= self.0 << 17;
        self.0
    }
}

// The rows of a job.
enum Rows {
    Numbers(Vec<u64>),
    Texts { bytes: Vec<u8>, ends: Vec<usize> },
}

fn numbers(distinct: u64) -> Rows {
    let mut random = Random(7);
    Rows::Numbers((0..ROWS).map(|_| (random.next() % distinct).wrapping_mul(0x9E3779B97F4A7C15)).collect())
}

// Texts of four to twelve letters.
fn texts(distinct: u64) -> Rows {
    let mut random = Random(7);
    let words: Vec<String> = (0..distinct)
        .map(|k| {
            let mut word = format!("{k:x}");
            let len = 4 + (random.next() % 9) as usize;
            while word.len() < len {
                word.push((b'a' + (random.next() % 26) as u8) as char);
            }
            word
        })
        .collect();
    let (mut bytes, mut ends) = (Vec::new(), Vec::with_capacity(ROWS));
    for _ in 0..ROWS {
        bytes.extend_from_slice(words[(random.next() % distinct) as usize].as_bytes());
        ends.push(bytes.len());
    }
    Rows::Texts { bytes, ends }
}

fn told(values: usize, codes: &[u32]) -> Told {
    let sum = codes[0] as u64 + codes[codes.len() / 2] as u64 + codes[codes.len() - 1] as u64;
    Told { values, codes: sum }
}

#[inline(never)]
fn stock_numbers(rows: &[u64]) -> Told {
    let mut places: HashMap<u64, u32> = HashMap::new();
    let mut entries = Vec::new();
    let mut codes = Vec::with_capacity(rows.len());
    for row in rows {
        codes.push(*places.entry(*row).or_insert_with(|| {
            entries.push(*row);
            entries.len() as u32 - 1
        }));
    }
    black_box(&entries);
    told(entries.len(), black_box(&codes))
}

#[inline(never)]
fn stock_texts(bytes: &[u8], ends: &[usize]) -> Told {
    let mut places: HashMap<&[u8], u32> = HashMap::new();
    let (mut entries, mut entry_ends) = (Vec::new(), Vec::new());
    let mut codes = Vec::with_capacity(ends.len());
    let mut start = 0;
    for end in ends {
        let text = &bytes[start..*end];
        start = *end;
        codes.push(*places.entry(text).or_insert_with(|| {
            entries.extend_from_slice(text);
            entry_ends.push(entries.len());
            entry_ends.len() as u32 - 1
        }));
    }
    black_box((&entries, &entry_ends));
    told(entry_ends.len(), black_box(&codes))
}

fn ours(rows: &Rows, times: usize) -> Told {
    match rows {
        Rows::Numbers(numbers) => unsafe { bench_encode_numbers(numbers.as_ptr(), numbers.len(), times) },
        Rows::Texts { bytes, ends } => unsafe { bench_encode_texts(bytes.as_ptr(), bytes.len(), ends.as_ptr(), ends.len(), times) },
    }
}

fn stock(rows: &Rows, times: usize) -> Told {
    let once = || match rows {
        Rows::Numbers(numbers) => stock_numbers(black_box(numbers)),
        Rows::Texts { bytes, ends } => stock_texts(black_box(bytes), black_box(ends)),
    };
    let mut told = once();
    for _ in 1..times {
        told = once();
    }
    told
}

fn median(mut times: Vec<f64>) -> f64 {
    times.sort_by(f64::total_cmp);
    times[times.len() / 2]
}

fn time(job: impl Fn(usize) -> Told, times: usize) -> f64 {
    let began = now();
    black_box(job(times));
    now() - began
}

fn compare(name: &str, rows: &Rows, runs: usize) {
    assert_eq!(ours(rows, 1), stock(rows, 1), "{name}");
    let (mut one, mut more, mut stock_one, mut stock_more) = (Vec::new(), Vec::new(), Vec::new(), Vec::new());
    for _ in 0..runs {
        one.push(time(|times| ours(rows, times), 1));
        stock_one.push(time(|times| stock(rows, times), 1));
        more.push(time(|times| ours(rows, times), 1 + MORE));
        stock_more.push(time(|times| stock(rows, times), 1 + MORE));
    }
    let per = |one, more| (median(more) - median(one)) / MORE as f64;
    let (ours, stock) = (per(one, more), per(stock_one, stock_more));
    println!("{name:<44} {ours:>9.2} {stock:>9.2} {:>6.2}", ours / stock);
}

const JOBS: [(&str, fn() -> Rows); 4] = [
    ("u64, 1,000 distinct", || numbers(1_000)),
    ("u64, 1,000,000 distinct", || numbers(1_000_000)),
    ("texts, 8 distinct", || texts(8)),
    ("texts, 100,000 distinct", || texts(100_000)),
];

// A line of what the system tells of this process's memory, in KiB.
fn memory_of(line: &str) -> u64 {
    let status = std::fs::read_to_string("/proc/self/status").unwrap_or_default();
    status
        .lines()
        .find_map(|it| it.strip_prefix(line))
        .and_then(|it| it.split_whitespace().next())
        .and_then(|it| it.parse().ok())
        .unwrap_or(0)
}

// What one encoding takes at the peak beyond the rows that are lent. Our side's column is a copy of them, which is part of it.
fn peak(side: &str, job: usize) {
    let (name, rows) = JOBS[job];
    let rows = rows();
    let before = memory_of("VmRSS:");
    let _ = std::fs::write("/proc/self/clear_refs", "5");
    black_box(if side == "ours" { ours(&rows, 1) } else { stock(&rows, 1) });
    println!("peak of memory, {name}, {side}: {} KiB", memory_of("VmHWM:").saturating_sub(before));
}

fn main() {
    let words: Vec<String> = std::env::args().collect();
    if words.len() == 4 && words[1] == "memory" {
        return peak(&words[2], words[3].parse().unwrap_or(0));
    }
    let runs = words.get(1).and_then(|word| word.parse().ok()).unwrap_or(5);
    println!("{:<44} {:>9} {:>9} {:>6}", "dict_encode", "ours", "stock", "ratio");
    for (name, rows) in JOBS {
        compare(name, &rows(), runs);
    }
}
