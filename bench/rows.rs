// Times the row operations of `vortex_array_rows` beside stock Rust loops of the same job. Built and run by `bench/rows`.
mod clock;
mod memory;
mod stock;

use std::hint::black_box;
use stock::{count, kept_values};

extern "C" {
    fn bench_filter(values: *const u64, len: usize, words: *const u64, words_len: usize, last: *mut u64) -> usize;
    fn bench_take(values: *const u64, len: usize, places: *const usize, places_len: usize, last: *mut u64) -> usize;
    fn bench_slice(values: *const u64, len: usize, start: usize, end: usize, last: *mut u64) -> usize;
    fn bench_lists_below(bytes: *const u8, bytes_len: usize, ends: *const usize, len: usize, other: *const u8, other_len: usize, times: usize) -> usize;
    fn bench_lists_equal(bytes: *const u8, bytes_len: usize, ends: *const usize, len: usize, other: *const u8, other_len: usize, times: usize) -> usize;
    fn bench_lists_below_next(bytes: *const u8, bytes_len: usize, ends: *const usize, len: usize, times: usize) -> usize;
    fn bench_lists_equal_next(bytes: *const u8, bytes_len: usize, ends: *const usize, len: usize, times: usize) -> usize;
}

const ROWS: usize = 10_000_000;
const RUNS: usize = 11;

// A loop over the rows that asks each bit.
#[inline(never)]
fn stock_filter(values: &[u64], words: &[u64]) -> Vec<u64> {
    let mut kept = Vec::with_capacity(count(words));
    for (i, value) in values.iter().enumerate() {
        if words[i / 64] >> (i % 64) & 1 == 1 {
            kept.push(*value);
        }
    }
    kept
}

#[inline(never)]
fn stock_take(values: &[u64], places: &[usize]) -> Vec<u64> {
    places.iter().map(|place| values[*place]).collect()
}

#[inline(never)]
fn stock_slice(values: &[u64], start: usize, end: usize) -> Vec<u64> {
    values[start..end].to_vec()
}

// The least processor time of each of these jobs, in milliseconds. They take turns.
fn least(jobs: &mut [&mut dyn FnMut() -> usize]) -> Vec<f64> {
    let mut times = vec![f64::INFINITY; jobs.len()];
    for _ in 0..RUNS {
        for (time, job) in times.iter_mut().zip(jobs.iter_mut()) {
            let start = clock::now();
            black_box(job());
            *time = time.min(clock::now() - start);
        }
    }
    times
}

fn row(name: &str, ours: f64, stock: &[f64]) {
    print!("{name:<28} {ours:8.2}");
    for time in stock {
        print!(" {time:8.2} {:6.2}", ours / time);
    }
    println!();
}

fn main() {
    let mut seed = 0x9e3779b97f4a7c15u64;
    let mut random = move || {
        seed ^= seed << 13;
        seed ^= seed >> 7;
        seed ^= seed << 17;
        seed
    };
    let values: Vec<u64> = (0..ROWS).map(|_| random()).collect();
    let mut last = 0u64;
    println!("{:<28} {:>8} {:>8} {:>6} {:>8} {:>6}", "job", "ours", "stock", "ratio", "by words", "ratio");
    for percent in [1, 50, 99] {
        let mut words = vec![0u64; ROWS.div_ceil(64)];
        for i in 0..ROWS {
            if random() % 100 < percent {
                words[i / 64] |= 1 << (i % 64);
            }
        }
        let expected = stock_filter(&values, &words);
        let given = unsafe { bench_filter(values.as_ptr(), ROWS, words.as_ptr(), words.len(), &mut last) };
        assert_eq!((given, Some(&last)), (expected.len(), expected.last()));
        assert_eq!(expected, kept_values(&values, &words));
        let times = least(&mut [
            &mut || unsafe { bench_filter(values.as_ptr(), ROWS, words.as_ptr(), words.len(), &mut last) },
            &mut || black_box(stock_filter(black_box(&values), black_box(&words))).len(),
            &mut || black_box(kept_values(black_box(&values), black_box(&words))).len(),
        ]);
        row(&format!("filter, {percent} % set"), times[0], &times[1..]);
    }
    let places: Vec<usize> = (0..ROWS).map(|_| random() as usize % ROWS).collect();
    let near: Vec<usize> = (0..ROWS).map(|i| (i + random() as usize % 100).min(ROWS - 1)).collect();
    for (name, places) in [("take, places anywhere", &places), ("take, places close by", &near)] {
        let given = unsafe { bench_take(values.as_ptr(), ROWS, places.as_ptr(), ROWS, &mut last) };
        assert_eq!((given, last), (ROWS, values[places[ROWS - 1]]));
        let times = least(&mut [
            &mut || unsafe { bench_take(values.as_ptr(), ROWS, places.as_ptr(), ROWS, &mut last) },
            &mut || black_box(stock_take(black_box(&values), black_box(places))).len(),
        ]);
        row(name, times[0], &times[1..]);
    }
    let times = least(&mut [
        &mut || unsafe { bench_slice(values.as_ptr(), ROWS, 1, ROWS - 1, &mut last) },
        &mut || black_box(stock_slice(black_box(&values), 1, ROWS - 1)).len(),
    ]);
    row("slice, all but two", times[0], &times[1..]);
    println!();
    lists(&mut random);
}

// Texts one after another, and where each ends.
struct Texts {
    bytes: Vec<u8>,
    ends: Vec<usize>,
}

impl Texts {
    fn get(&self, i: usize) -> &[u8] {
        let start = if i == 0 { 0 } else { self.ends[i - 1] };
        &self.bytes[start..self.ends[i]]
    }

    fn count(&self, start: usize, answer: impl Fn(&[u8], usize) -> bool) -> usize {
        (start..self.ends.len()).map(|i| answer(self.get(i), i) as usize).sum()
    }

    fn next(&self, i: usize) -> &[u8] {
        self.get(if i + 1 < self.ends.len() { i + 1 } else { 0 })
    }
}

// Lists of bytes compared. Ours copies the lists that are lent first, so that a call that asks twice less one that asks once
// counts.
fn lists(random: &mut dyn FnMut() -> u64) {
    let words = ["north", "south", "east", "west", "northeast", "southwest", "northwestern", "southern"];
    let mut texts = Texts { bytes: Vec::new(), ends: Vec::new() };
    for _ in 0..ROWS {
        texts.bytes.extend_from_slice(words[random() as usize % words.len()].as_bytes());
        texts.ends.push(texts.bytes.len());
    }
    let (bytes, size, ends) = (texts.bytes.as_ptr(), texts.bytes.len(), texts.ends.as_ptr());
    for other in ["northwest", "south", "southwest", "northwestern", "x"] {
        let other = black_box(other).as_bytes();
        let ours = |times| unsafe { bench_lists_below(bytes, size, ends, ROWS, other.as_ptr(), other.len(), times) };
        raced(&texts, &format!("< {}", String::from_utf8_lossy(other)), &ours, |text, _| text < other);
        let ours = |times| unsafe { bench_lists_equal(bytes, size, ends, ROWS, other.as_ptr(), other.len(), times) };
        raced(&texts, &format!("= {}", String::from_utf8_lossy(other)), &ours, |text, _| text == other);
    }
    let ours = |times| unsafe { bench_lists_below_next(bytes, size, ends, ROWS, times) };
    raced(&texts, "< the next", &ours, |text, i| text < texts.next(i));
    let ours = |times| unsafe { bench_lists_equal_next(bytes, size, ends, ROWS, times) };
    raced(&texts, "= the next", &ours, |text, i| text == texts.next(i));
}

fn raced(texts: &Texts, name: &str, ours: &dyn Fn(usize) -> usize, answer: impl Fn(&[u8], usize) -> bool + Copy) {
    assert_eq!(ours(1), texts.count(0, answer), "{name}");
    let times = least(&mut [&mut || ours(1), &mut || ours(5), &mut || black_box(texts).count(0, answer)]);
    row(&format!("lists {name}"), (times[1] - times[0]) / 4.0, &times[2..]);
}
