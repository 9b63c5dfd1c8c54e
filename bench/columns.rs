// Times the calls of `vortex_array` on columns beside stock Rust of the same job. Built and run by `bench/columns`.
//
// A call of the library builds its columns and then calls so many times, so what one call takes is what further ones add:
// the least time with more calls, less the least time with one. The stock side's columns stand ready.
mod clock;
mod memory;
mod stock;

use clock::now;
use std::hint::black_box;
use stock::{count, kept_values};

// How many rows there are, and how many of them are true; of other values, the first, the middle and the last row as one
// number, where a null row counts as 0 and a text as its length.
#[repr(C)]
#[derive(Clone, Copy, Debug, PartialEq, Eq)]
pub struct Told {
    rows: usize,
    value: u64,
}

extern "C" {
    fn bench_column_filter(values: *const u64, len: usize, nulls: *const u64, nulls_len: usize, mask: *const u64, mask_len: usize, times: usize) -> Told;
    fn bench_column_take(values: *const u64, len: usize, nulls: *const u64, nulls_len: usize, places: *const u64, places_len: usize, times: usize) -> Told;
    fn bench_column_slice(values: *const u64, len: usize, nulls: *const u64, nulls_len: usize, start: usize, end: usize, times: usize) -> Told;
    fn bench_column_cast(values: *const i32, len: usize, nulls: *const u64, nulls_len: usize, times: usize) -> Told;
    fn bench_column_below(values: *const u64, len: usize, nulls: *const u64, nulls_len: usize, number: u64, times: usize) -> Told;
    fn bench_column_below_each(left: *const i32, len: usize, right: *const i32, right_len: usize, nulls: *const u64, nulls_len: usize, times: usize) -> Told;
    fn bench_texts_filter(bytes: *const u8, bytes_len: usize, ends: *const usize, len: usize, nulls: *const u64, nulls_len: usize, mask: *const u64, mask_len: usize, times: usize) -> Told;
    fn bench_texts_below(bytes: *const u8, bytes_len: usize, ends: *const usize, len: usize, nulls: *const u64, nulls_len: usize, text: *const u8, text_len: usize, times: usize) -> Told;
    fn bench_texts_like(bytes: *const u8, bytes_len: usize, ends: *const usize, len: usize, nulls: *const u64, nulls_len: usize, pattern: *const u8, pattern_len: usize, times: usize) -> Told;
}

const ROWS: usize = 10_000_000;
// How many calls are timed beyond the first.
const MORE: usize = 6;

fn bit(words: &[u64], i: usize) -> bool {
    words[i / 64] >> (i % 64) & 1 == 1
}

// The answers for each row, 64 in a word.
#[inline(always)]
fn packed(len: usize, answer: impl Fn(usize) -> bool) -> Vec<u64> {
    let mut words = Vec::with_capacity(len.div_ceil(64));
    let mut start = 0;
    while start < len {
        let mut word = 0u64;
        for i in start..len.min(start + 64) {
            word |= (answer(i) as u64) << (i - start);
        }
        words.push(word);
        start += 64;
    }
    words
}

// The truths of a slice, 64 in a word.
#[inline(always)]
fn packed_items<T: Copy>(items: &[T], answer: impl Fn(T) -> bool) -> Vec<u64> {
    items
        .chunks(64)
        .map(|group| group.iter().enumerate().fold(0u64, |word, (i, item)| word | (answer(*item) as u64) << i))
        .collect()
}

// The truths of pairs, 64 in a word.
#[inline(always)]
fn packed_pairs<T: Copy>(left: &[T], right: &[T], answer: impl Fn(T, T) -> bool) -> Vec<u64> {
    left.chunks(64)
        .zip(right.chunks(64))
        .map(|(a, b)| a.iter().zip(b).enumerate().fold(0u64, |word, (i, (x, y))| word | (answer(*x, *y) as u64) << i))
        .collect()
}

fn told_bits(len: usize, bits: &[u64], nulls: &[u64]) -> Told {
    let true_rows = if nulls.is_empty() { count(bits) } else { count(&both(bits, nulls)) };
    Told { rows: len, value: true_rows as u64 }
}

fn told_rows(len: usize, nulls: &[u64], row: impl Fn(usize) -> u64) -> Told {
    let number = |i: usize| if nulls.is_empty() || bit(nulls, i) { row(i) } else { 0 };
    Told { rows: len, value: number(0).wrapping_add(number(len / 2)).wrapping_add(number(len - 1)) }
}

fn told_items(items: &[u64], nulls: &[u64]) -> Told {
    told_rows(items.len(), nulls, |i| items[i])
}

// The bits that are set on both sides.
#[inline(never)]
fn both(left: &[u64], right: &[u64]) -> Vec<u64> {
    left.iter().zip(right).map(|(a, b)| a & b).collect()
}

// The kept bits of a validity.
#[inline(never)]
fn stock_filter_bits(bits: &[u64], mask: &[u64]) -> Vec<u64> {
    let kept = count(mask);
    let mut out = vec![0u64; kept.div_ceil(64)];
    let mut at = 0;
    for (k, word) in mask.iter().enumerate() {
        let mut rest = *word;
        while rest != 0 {
            out[at / 64] |= (bits[k] >> rest.trailing_zeros() & 1) << (at % 64);
            at += 1;
            rest &= rest - 1;
        }
    }
    out
}

#[inline(never)]
fn stock_take(values: &[u64], places: &[u64]) -> Vec<u64> {
    places.iter().map(|place| values[*place as usize]).collect()
}

#[inline(never)]
fn stock_take_bits(bits: &[u64], places: &[u64]) -> Vec<u64> {
    packed_items(places, |place| bit(bits, place as usize))
}

#[inline(never)]
fn stock_slice(values: &[u64], start: usize, end: usize) -> Vec<u64> {
    values[start..end].to_vec()
}

#[inline(never)]
fn stock_slice_bits(bits: &[u64], start: usize, end: usize) -> Vec<u64> {
    let (first, shift, len) = (start / 64, start % 64, end - start);
    let word = |k: usize| bits.get(first + k).copied().unwrap_or(0);
    let mut part: Vec<u64> = match shift {
        0 => (0..len.div_ceil(64)).map(word).collect(),
        _ => (0..len.div_ceil(64)).map(|k| word(k) >> shift | word(k + 1) << (64 - shift)).collect(),
    };
    if len % 64 != 0 {
        part[len / 64] &= (1 << (len % 64)) - 1;
    }
    part
}

#[inline(never)]
fn stock_cast(values: &[i32]) -> Vec<i64> {
    values.iter().map(|value| *value as i64).collect()
}

#[inline(never)]
fn stock_below(values: &[u64], constant: u64) -> Vec<u64> {
    packed_items(values, |value| value < constant)
}

#[inline(never)]
fn stock_below_each(left: &[i32], right: &[i32]) -> Vec<u64> {
    packed_pairs(left, right, |x, y| x < y)
}

// Texts one after another, and where each begins; behind the last, where that ends.
struct Texts {
    bytes: Vec<u8>,
    offsets: Vec<usize>,
}

impl Texts {
    fn new() -> Texts {
        Texts { bytes: Vec::new(), offsets: vec![0] }
    }

    fn len(&self) -> usize {
        self.offsets.len() - 1
    }

    fn get(&self, i: usize) -> &str {
        unsafe { std::str::from_utf8_unchecked(&self.bytes[self.offsets[i]..self.offsets[i + 1]]) }
    }

    fn push(&mut self, text: &str) {
        self.bytes.extend_from_slice(text.as_bytes());
        self.offsets.push(self.bytes.len());
    }
}

#[inline(never)]
fn stock_filter_texts(texts: &Texts, mask: &[u64]) -> Texts {
    let mut kept = Texts::new();
    for (k, word) in mask.iter().enumerate() {
        let mut rest = *word;
        while rest != 0 {
            kept.push(texts.get(64 * k + rest.trailing_zeros() as usize));
            rest &= rest - 1;
        }
    }
    kept
}

#[inline(never)]
fn stock_texts(texts: &Texts, answer: impl Fn(&str) -> bool) -> Vec<u64> {
    packed(texts.len(), |i| answer(texts.get(i)))
}

// Prints the time of a call beside the stock side's, in milliseconds. Jobs take turns, and each counts with the least of
// its runs.
fn race(name: &str, runs: usize, ours: &dyn Fn(usize) -> Told, stock: &dyn Fn() -> usize) {
    let timed = |job: &dyn Fn() -> usize| {
        let start = now();
        black_box(job());
        now() - start
    };
    let (mut one, mut many, mut peer) = (f64::INFINITY, f64::INFINITY, f64::INFINITY);
    for _ in 0..runs {
        one = one.min(timed(&|| ours(1).rows));
        peer = peer.min(timed(stock));
        many = many.min(timed(&|| ours(1 + MORE).rows));
        peer = peer.min(timed(stock));
    }
    let call = (many - one) / MORE as f64;
    println!("{name:<44} {call:9.2} {peer:9.2} {:6.2}", call / peer);
}

struct Random(u64);

impl Random {
    fn next(&mut self) -> u64 {
        self.0 ^= self.0 << 13;
        self.0 ^= self.0 >> 7;
        self.0 ^= self.0 << 17;
        self.0
    }

    fn bits(&mut self, percent: u64) -> Vec<u64> {
        let mut words = vec![0u64; ROWS.div_ceil(64)];
        for i in 0..ROWS {
            if self.next() % 100 < percent {
                words[i / 64] |= 1 << (i % 64);
            }
        }
        words
    }
}

fn numbers(random: &mut Random, runs: usize) {
    let values: Vec<u64> = (0..ROWS).map(|_| random.next() >> 1).collect();
    let present = random.bits(90);
    let none: Vec<u64> = Vec::new();
    for percent in [1, 50, 99] {
        let mask = random.bits(percent);
        let ours = |times| unsafe { bench_column_filter(values.as_ptr(), ROWS, none.as_ptr(), 0, mask.as_ptr(), mask.len(), times) };
        assert_eq!(ours(1), told_items(&kept_values(&values, &mask), &none));
        race(&format!("filter, {percent} % set"), runs, &ours, &|| black_box(kept_values(black_box(&values), black_box(&mask))).len());
    }
    let mask = random.bits(50);
    let ours = |times| unsafe { bench_column_filter(values.as_ptr(), ROWS, present.as_ptr(), present.len(), mask.as_ptr(), mask.len(), times) };
    assert_eq!(ours(1), told_items(&kept_values(&values, &mask), &stock_filter_bits(&present, &mask)));
    race("filter, 50 % set, with nulls", runs, &ours, &|| {
        black_box(stock_filter_bits(black_box(&present), black_box(&mask)));
        black_box(kept_values(black_box(&values), black_box(&mask))).len()
    });
    let far: Vec<u64> = (0..ROWS).map(|_| random.next() % ROWS as u64).collect();
    let near: Vec<u64> = (0..ROWS as u64).map(|i| (i + random.next() % 100).min(ROWS as u64 - 1)).collect();
    for (name, places) in [("take, places anywhere", &far), ("take, places close by", &near)] {
        let ours = |times| unsafe { bench_column_take(values.as_ptr(), ROWS, none.as_ptr(), 0, places.as_ptr(), ROWS, times) };
        assert_eq!(ours(1), told_items(&stock_take(&values, places), &none));
        race(name, runs, &ours, &|| black_box(stock_take(black_box(&values), black_box(places))).len());
    }
    let ours = |times| unsafe { bench_column_take(values.as_ptr(), ROWS, present.as_ptr(), present.len(), near.as_ptr(), ROWS, times) };
    assert_eq!(ours(1), told_items(&stock_take(&values, &near), &stock_take_bits(&present, &near)));
    race("take, places close by, with nulls", runs, &ours, &|| {
        black_box(stock_take_bits(black_box(&present), black_box(&near)));
        black_box(stock_take(black_box(&values), black_box(&near))).len()
    });
    let ours = |times| unsafe { bench_column_slice(values.as_ptr(), ROWS, none.as_ptr(), 0, 1, ROWS - 1, times) };
    assert_eq!(ours(1), told_items(&stock_slice(&values, 1, ROWS - 1), &none));
    race("slice, all but two", runs, &ours, &|| black_box(stock_slice(black_box(&values), 1, ROWS - 1)).len());
    let ours = |times| unsafe { bench_column_slice(values.as_ptr(), ROWS, present.as_ptr(), present.len(), 1, ROWS - 1, times) };
    assert_eq!(ours(1), told_items(&stock_slice(&values, 1, ROWS - 1), &stock_slice_bits(&present, 1, ROWS - 1)));
    race("slice, all but two, with nulls", runs, &ours, &|| {
        black_box(stock_slice_bits(black_box(&present), 1, ROWS - 1));
        black_box(stock_slice(black_box(&values), 1, ROWS - 1)).len()
    });
    let constant = u64::MAX / 4;
    let ours = |times| unsafe { bench_column_below(values.as_ptr(), ROWS, none.as_ptr(), 0, constant, times) };
    assert_eq!(ours(1), told_bits(ROWS, &stock_below(&values, constant), &none));
    race("compare u64 with a constant", runs, &ours, &|| black_box(stock_below(black_box(&values), black_box(constant))).len());
    let ours = |times| unsafe { bench_column_below(values.as_ptr(), ROWS, present.as_ptr(), present.len(), constant, times) };
    assert_eq!(ours(1), told_bits(ROWS, &stock_below(&values, constant), &present));
    race("compare u64 with a constant, with nulls", runs, &ours, &|| {
        black_box(black_box(&present).clone());
        black_box(stock_below(black_box(&values), black_box(constant))).len()
    });
}

fn small_numbers(random: &mut Random, runs: usize) {
    let left: Vec<i32> = (0..ROWS).map(|_| (random.next() >> 33) as i32).collect();
    let right: Vec<i32> = (0..ROWS).map(|_| (random.next() >> 33) as i32).collect();
    let present = random.bits(90);
    let none: Vec<u64> = Vec::new();
    let wide: Vec<u64> = stock_cast(&left).iter().map(|value| *value as u64).collect();
    let ours = |times| unsafe { bench_column_cast(left.as_ptr(), ROWS, none.as_ptr(), 0, times) };
    assert_eq!(ours(1), told_items(&wide, &none));
    race("cast i32 to i64", runs, &ours, &|| black_box(stock_cast(black_box(&left))).len());
    let ours = |times| unsafe { bench_column_cast(left.as_ptr(), ROWS, present.as_ptr(), present.len(), times) };
    assert_eq!(ours(1), told_items(&wide, &present));
    race("cast i32 to i64, with nulls", runs, &ours, &|| {
        black_box(black_box(&present).clone());
        black_box(stock_cast(black_box(&left))).len()
    });
    let ours = |times| unsafe { bench_column_below_each(left.as_ptr(), ROWS, right.as_ptr(), ROWS, none.as_ptr(), 0, times) };
    assert_eq!(ours(1), told_bits(ROWS, &stock_below_each(&left, &right), &none));
    race("compare two columns of i32", runs, &ours, &|| black_box(stock_below_each(black_box(&left), black_box(&right))).len());
    let ours = |times| unsafe { bench_column_below_each(left.as_ptr(), ROWS, right.as_ptr(), ROWS, present.as_ptr(), present.len(), times) };
    assert_eq!(ours(1), told_bits(ROWS, &stock_below_each(&left, &right), &present));
    race("compare two columns of i32, with nulls", runs, &ours, &|| {
        black_box(both(black_box(&present), black_box(&present)));
        black_box(stock_below_each(black_box(&left), black_box(&right))).len()
    });
}

fn texts(random: &mut Random, runs: usize) {
    let words = ["north", "south", "east", "west", "northeast", "southwest", "northwestern", "southern"];
    let mut texts = Texts::new();
    for _ in 0..ROWS {
        texts.push(words[random.next() as usize % words.len()]);
    }
    let none: Vec<u64> = Vec::new();
    let present = random.bits(90);
    let mask = random.bits(50);
    filtered(&texts, &none, &mask, runs, "filter of texts, 50 % set");
    filtered(&texts, &present, &mask, runs, "filter of texts, 50 % set, with nulls");
    matched(&texts, &none, runs, "");
    matched(&texts, &present, runs, ", with nulls");
}

// Texts that a mask keeps.
fn filtered(texts: &Texts, nulls: &[u64], mask: &[u64], runs: usize, name: &str) {
    let ends = &texts.offsets[1..];
    let (bytes, size) = (texts.bytes.as_ptr(), texts.bytes.len());
    let ours = |times| unsafe { bench_texts_filter(bytes, size, ends.as_ptr(), ROWS, nulls.as_ptr(), nulls.len(), mask.as_ptr(), mask.len(), times) };
    let kept_nulls = || if nulls.is_empty() { Vec::new() } else { stock_filter_bits(black_box(nulls), black_box(mask)) };
    let kept = stock_filter_texts(texts, mask);
    assert_eq!(ours(1), told_rows(kept.len(), &kept_nulls(), |i| kept.get(i).len() as u64), "{name}");
    race(name, runs, &ours, &|| {
        black_box(kept_nulls());
        black_box(stock_filter_texts(black_box(texts), black_box(mask))).len()
    });
}

// Texts compared with a text and matched with two patterns.
fn matched(texts: &Texts, nulls: &[u64], runs: usize, with: &str) {
    let ends = &texts.offsets[1..];
    let (bytes, size) = (texts.bytes.as_ptr(), texts.bytes.len());
    let (bound, front, inside) = (black_box("northwest"), black_box("n"), black_box("rt"));
    let ours = |times| unsafe { bench_texts_below(bytes, size, ends.as_ptr(), ROWS, nulls.as_ptr(), nulls.len(), bound.as_ptr(), bound.len(), times) };
    raced(texts, nulls, runs, &format!("compare texts with a constant{with}"), &ours, |text| text < bound);
    let ours = |times| unsafe { bench_texts_like(bytes, size, ends.as_ptr(), ROWS, nulls.as_ptr(), nulls.len(), "n%".as_ptr(), 2, times) };
    raced(texts, nulls, runs, &format!("like n%{with}"), &ours, |text| text.starts_with(front));
    let ours = |times| unsafe { bench_texts_like(bytes, size, ends.as_ptr(), ROWS, nulls.as_ptr(), nulls.len(), "%rt%".as_ptr(), 4, times) };
    raced(texts, nulls, runs, &format!("like %rt%{with}"), &ours, |text| text.contains(inside));
}

// One answer for each text. Beside nulls the bits of a null row may be any, so those of valid rows are compared.
fn raced(texts: &Texts, nulls: &[u64], runs: usize, name: &str, ours: &dyn Fn(usize) -> Told, answer: impl Fn(&str) -> bool + Copy) {
    assert_eq!(ours(1), told_bits(ROWS, &stock_texts(texts, answer), nulls), "{name}");
    race(name, runs, ours, &|| {
        black_box(black_box(nulls).to_vec());
        black_box(stock_texts(black_box(texts), answer)).len()
    });
}

// Fifty times `%a` against ten thousand `a`: what both lengths multiplied bound. There is no peer in the standard library.
fn long_pattern() {
    let text = "a".repeat(10_000);
    let pattern = "%a".repeat(50);
    let ends = [text.len()];
    let timed = |times| {
        let start = now();
        black_box(unsafe { bench_texts_like(text.as_ptr(), text.len(), ends.as_ptr(), 1, std::ptr::null::<u64>().wrapping_add(1), 0, pattern.as_ptr(), pattern.len(), times) });
        now() - start
    };
    let (mut one, mut many) = (f64::INFINITY, f64::INFINITY);
    for _ in 0..11 {
        one = one.min(timed(1));
        many = many.min(timed(101));
    }
    println!("{:<44} {:9.4}", "like, fifty %a against ten thousand a", (many - one) / 100.0);
}

fn main() {
    let runs = std::env::args().nth(1).and_then(|word| word.parse().ok()).unwrap_or(7);
    let mut random = Random(0x9e3779b97f4a7c15);
    println!("{:<44} {:>9} {:>9} {:>6}", "job", "ours", "stock", "ratio");
    numbers(&mut random, runs);
    small_numbers(&mut random, runs);
    texts(&mut random, runs);
    long_pattern();
}
