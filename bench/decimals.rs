// Times the calls of `vortex_decimal_byte_parts` beside stock Rust of the same job, and beside the same calls on plain
// decimals. Built and run by `bench/decimals`.
//
// A call of the library builds its decimals and then calls so many times, so what one call takes is what further ones add:
// the median time with more calls, less the median time with one. The stock side is timed in the same way; its parts stand
// ready.
mod clock;
mod memory;

use clock::now;
use std::hint::black_box;

// How many rows there are, and how many answers are true; of numbers, the first, the middle and the last as one number of
// 64 bits.
#[repr(C)]
#[derive(Clone, Copy, Debug, PartialEq, Eq)]
pub struct Told {
    rows: usize,
    value: u64,
}

extern "C" {
    fn bench_decimal_split(msp: *const i64, msp_len: usize, lower: *const u64, lower_len: usize, times: usize) -> Told;
    fn bench_decimal_assemble(msp: *const i64, msp_len: usize, lower: *const u64, lower_len: usize, times: usize) -> Told;
    fn bench_decimal_below(msp: *const i64, msp_len: usize, lower: *const u64, lower_len: usize, high: i64, low: u64, decoded: usize, times: usize) -> Told;
    fn bench_decimal_between(msp: *const i64, msp_len: usize, lower: *const u64, lower_len: usize, least_high: i64, least_low: u64, end_high: i64, end_low: u64, decoded: usize, times: usize) -> Told;
    fn bench_decimal_filter(msp: *const i64, msp_len: usize, lower: *const u64, lower_len: usize, mask: *const u64, mask_len: usize, decoded: usize, times: usize) -> Told;
    fn bench_decimal_take(msp: *const i64, msp_len: usize, lower: *const u64, lower_len: usize, places: *const u64, places_len: usize, decoded: usize, times: usize) -> Told;
}

const ROWS: usize = 10_000_000;
// How many calls are timed beyond the first.
const MORE: usize = 6;

fn parts(number: i128) -> (i64, u64) {
    ((number >> 64) as i64, number as u64)
}

#[inline(always)]
fn number(high: i64, low: u64) -> i128 {
    (high as i128) << 64 | low as i128
}

#[inline(never)]
fn stock_split(numbers: &[i128]) -> (Vec<i64>, Vec<u64>) {
    let mut high = Vec::with_capacity(numbers.len());
    let mut low = Vec::with_capacity(numbers.len());
    for number in numbers {
        high.push((*number >> 64) as i64);
        low.push(*number as u64);
    }
    (high, low)
}

#[inline(never)]
fn stock_assemble(high: &[i64], low: &[u64]) -> Vec<i128> {
    high.iter().zip(low).map(|(high, low)| number(*high, *low)).collect()
}

// The truths of numbers of two parts, 64 in a word.
#[inline(always)]
fn packed_pairs(high: &[i64], low: &[u64], answer: impl Fn(i128) -> bool) -> Vec<u64> {
    high.chunks(64)
        .zip(low.chunks(64))
        .map(|(high, low)| high.iter().zip(low).enumerate().fold(0u64, |word, (i, (high, low))| word | (answer(number(*high, *low)) as u64) << i))
        .collect()
}

// The truths of numbers, 64 in a word.
#[inline(always)]
fn packed(numbers: &[i64], answer: impl Fn(i64) -> bool) -> Vec<u64> {
    numbers
        .chunks(64)
        .map(|group| group.iter().enumerate().fold(0u64, |word, (i, number)| word | (answer(*number) as u64) << i))
        .collect()
}

#[inline(never)]
fn stock_below(high: &[i64], low: &[u64], bound: i128) -> Vec<u64> {
    if low.is_empty() {
        let bound = bound as i64;
        packed(high, |number| number < bound)
    } else {
        packed_pairs(high, low, |number| number < bound)
    }
}

#[inline(never)]
fn stock_between(high: &[i64], low: &[u64], least: i128, end: i128) -> Vec<u64> {
    if low.is_empty() {
        let (least, end) = (least as i64, end as i64);
        packed(high, |number| least <= number && number < end)
    } else {
        packed_pairs(high, low, |number| least <= number && number < end)
    }
}

// The kept numbers, from set bit to set bit.
#[inline(never)]
fn stock_filter<T: Copy>(numbers: &[T], mask: &[u64]) -> Vec<T> {
    if numbers.is_empty() {
        return Vec::new();
    }
    let mut kept = Vec::with_capacity(count(mask));
    for (k, word) in mask.iter().enumerate() {
        let mut rest = *word;
        while rest != 0 {
            kept.push(numbers[64 * k + rest.trailing_zeros() as usize]);
            rest &= rest - 1;
        }
    }
    kept
}

#[inline(never)]
fn stock_take<T: Copy>(numbers: &[T], places: &[u64]) -> Vec<T> {
    if numbers.is_empty() {
        return Vec::new();
    }
    places.iter().map(|place| numbers[*place as usize]).collect()
}

fn count(words: &[u64]) -> usize {
    words.iter().map(|word| word.count_ones() as usize).sum()
}

fn told_bits(bits: &[u64]) -> Told {
    Told { rows: ROWS, value: count(bits) as u64 }
}

fn told_rows(len: usize, row: impl Fn(usize) -> u64) -> Told {
    Told { rows: len, value: row(0).wrapping_add(row(len / 2)).wrapping_add(row(len - 1)) }
}

// The last 64 bits of numbers.
fn told_parts(high: &[i64], low: &[u64]) -> Told {
    told_rows(high.len(), |i| if low.is_empty() { high[i] as u64 } else { low[i] })
}

fn median(mut times: Vec<f64>) -> f64 {
    times.sort_by(|a, b| a.total_cmp(b));
    times[times.len() / 2]
}

// Prints the time of a call, the stock side's and their ratio, and what the same call takes on plain decimals, in
// milliseconds. Jobs take turns, and each counts with the median of its runs.
fn race(name: &str, runs: usize, ours: &dyn Fn(usize) -> Told, stock: &dyn Fn() -> usize, plain: Option<&dyn Fn(usize) -> Told>) {
    let timed = |job: &dyn Fn() -> usize| {
        let start = now();
        black_box(job());
        now() - start
    };
    let (mut one, mut many, mut peer_one, mut peer_many) = (Vec::new(), Vec::new(), Vec::new(), Vec::new());
    let (mut plain_one, mut plain_many) = (Vec::new(), Vec::new());
    for _ in 0..runs {
        one.push(timed(&|| ours(1).rows));
        peer_one.push(timed(stock));
        many.push(timed(&|| ours(1 + MORE).rows));
        peer_many.push(timed(&|| (0..1 + MORE).map(|_| stock()).sum()));
        if let Some(plain) = plain {
            plain_one.push(timed(&|| plain(1).rows));
            plain_many.push(timed(&|| plain(1 + MORE).rows));
        }
    }
    let call = (median(many) - median(one)) / MORE as f64;
    let peer = (median(peer_many) - median(peer_one)) / MORE as f64;
    let beside = match plain {
        Some(_) => format!("{:9.2}", (median(plain_many) - median(plain_one)) / MORE as f64),
        None => format!("{:>9}", "-"),
    };
    println!("{name:<44} {call:9.2} {peer:9.2} {:6.2} {beside}", call / peer);
}

struct Random(u64);

impl Random {
    fn next(&mut self) -> u64 {
        self.0 ^= self.0 << 13;
        self.0 ^= self.0 >> 7;
        self.0 ^= self.0 << 17;
        self.0
    }

    fn bits(&mut self, percent: u64) -> Vec<u64> {
        let mut words = vec![0u64; ROWS.div_ceil(64)];
        for i in 0..ROWS {
            if self.next() % 100 < percent {
                words[i / 64] |= 1 << (i % 64);
            }
        }
        words
    }
}

// Decimals split in parts, and put together.
fn whole(high: &[i64], low: &[u64], runs: usize) {
    let numbers = stock_assemble(high, low);
    let split = |times| unsafe { bench_decimal_split(high.as_ptr(), high.len(), low.as_ptr(), low.len(), times) };
    let told = told_rows(ROWS, |i| (high[i] as u64).wrapping_add(low[i]));
    assert_eq!(split(1), told);
    race("split_decimal, 128 bits", runs, &split, &|| black_box(stock_split(black_box(&numbers))).0.len(), None);
    let assemble = |times| unsafe { bench_decimal_assemble(high.as_ptr(), high.len(), low.as_ptr(), low.len(), times) };
    assert_eq!(assemble(1), told_parts(high, low));
    race("assemble_decimal, 128 bits", runs, &assemble, &|| black_box(stock_assemble(black_box(high), black_box(low))).len(), None);
}

// Answers row by row, between two numbers of which the least is the bound, and parts of the rows.
fn raced(high: &[i64], low: &[u64], mask: &[u64], places: &[u64], bounds: (i128, i128), runs: usize, kind: &str) {
    let (least, end) = bounds;
    let (least_parts, end_parts) = (parts(least), parts(end));
    let below = |times, plain| unsafe { bench_decimal_below(high.as_ptr(), high.len(), low.as_ptr(), low.len(), end_parts.0, end_parts.1, plain, times) };
    let answers = told_bits(&stock_below(high, low, end));
    assert_eq!((below(1, 0), below(1, 1)), (answers, answers), "compare, {kind}");
    race(&format!("compare with a constant, {kind}"), runs, &|times| below(times, 0), &|| black_box(stock_below(black_box(high), black_box(low), black_box(end))).len(), Some(&|times| below(times, 1)));
    let between = |times, plain| unsafe { bench_decimal_between(high.as_ptr(), high.len(), low.as_ptr(), low.len(), least_parts.0, least_parts.1, end_parts.0, end_parts.1, plain, times) };
    let answers = told_bits(&stock_between(high, low, least, end));
    assert_eq!((between(1, 0), between(1, 1)), (answers, answers), "between, {kind}");
    race(&format!("between constants, {kind}"), runs, &|times| between(times, 0), &|| black_box(stock_between(black_box(high), black_box(low), black_box(least), black_box(end))).len(), Some(&|times| between(times, 1)));
    let filter = |times, plain| unsafe { bench_decimal_filter(high.as_ptr(), high.len(), low.as_ptr(), low.len(), mask.as_ptr(), mask.len(), plain, times) };
    let kept = told_parts(&stock_filter(high, mask), &stock_filter(low, mask));
    assert_eq!((filter(1, 0), filter(1, 1)), (kept, kept), "filter, {kind}");
    race(&format!("filter, 50 % set, {kind}"), runs, &|times| filter(times, 0), &|| {
        black_box(stock_filter(black_box(low), black_box(mask)));
        black_box(stock_filter(black_box(high), black_box(mask))).len()
    }, Some(&|times| filter(times, 1)));
    let take = |times, plain| unsafe { bench_decimal_take(high.as_ptr(), high.len(), low.as_ptr(), low.len(), places.as_ptr(), places.len(), plain, times) };
    let taken = told_parts(&stock_take(high, places), &stock_take(low, places));
    assert_eq!((take(1, 0), take(1, 1)), (taken, taken), "take, {kind}");
    race(&format!("take, places close by, {kind}"), runs, &|times| take(times, 0), &|| {
        black_box(stock_take(black_box(low), black_box(places)));
        black_box(stock_take(black_box(high), black_box(places))).len()
    }, Some(&|times| take(times, 1)));
}

fn main() {
    let runs = std::env::args().nth(1).and_then(|word| word.parse().ok()).unwrap_or(5);
    let mut random = Random(0x9e3779b97f4a7c15);
    let mask = random.bits(50);
    let places: Vec<u64> = (0..ROWS as u64).map(|i| (i + random.next() % 100).min(ROWS as u64 - 1)).collect();
    println!("{:<44} {:>9} {:>9} {:>6} {:>9}", "job", "ours", "stock", "ratio", "plain");
    // Numbers of at most 30 digits, so that all fit the type.
    let high: Vec<i64> = (0..ROWS).map(|_| (random.next() >> 30) as i64 - (1 << 33)).collect();
    let low: Vec<u64> = (0..ROWS).map(|_| random.next()).collect();
    whole(&high, &low, runs);
    let bounds = (number(-(1 << 31), 5), number(1 << 32, 7));
    raced(&high, &low, &mask, &places, bounds, runs, "two parts");
    let bounds = (-(1 << 31), 1 << 32);
    raced(&high, &[], &mask, &places, bounds, runs, "one part");
}
