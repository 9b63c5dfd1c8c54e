// Times the calls of `vortex_dict` beside stock Rust of the same job, and beside the same calls on the decoded column. Built
// and run by `bench/dictionaries`.
//
// A call of the library builds its dictionary and then calls so many times, so what one call takes is what further ones
// add: the median time with more calls, less the median time with one. The stock side is timed in the same way; its codes
// and values stand ready.
mod clock;
mod memory;

use clock::now;
use std::hint::black_box;

// How many rows there are, and how many answers in a column are true; of other rows, the first, the middle and the last as
// one number, where a text counts as its length and a truth as 1.
#[repr(C)]
#[derive(Clone, Copy, Debug, PartialEq, Eq)]
pub struct Told {
    rows: usize,
    value: u64,
}

extern "C" {
    fn bench_dictionary_decode(narrow: *const u8, narrow_len: usize, wide: *const u32, wide_len: usize, numbers: *const u64, numbers_len: usize, bytes: *const u8, bytes_len: usize, ends: *const usize, ends_len: usize, times: usize) -> Told;
    fn bench_dictionary_below(narrow: *const u8, narrow_len: usize, wide: *const u32, wide_len: usize, numbers: *const u64, numbers_len: usize, bytes: *const u8, bytes_len: usize, ends: *const usize, ends_len: usize, number: u64, text: *const u8, text_len: usize, decoded: usize, times: usize) -> Told;
    fn bench_dictionary_like(narrow: *const u8, narrow_len: usize, wide: *const u32, wide_len: usize, bytes: *const u8, bytes_len: usize, ends: *const usize, ends_len: usize, pattern: *const u8, pattern_len: usize, decoded: usize, times: usize) -> Told;
    fn bench_dictionary_apply(narrow: *const u8, narrow_len: usize, wide: *const u32, wide_len: usize, numbers: *const u64, numbers_len: usize, bytes: *const u8, bytes_len: usize, ends: *const usize, ends_len: usize, number: u64, text: *const u8, text_len: usize, times: usize) -> Told;
    fn bench_dictionary_filter(narrow: *const u8, narrow_len: usize, wide: *const u32, wide_len: usize, numbers: *const u64, numbers_len: usize, bytes: *const u8, bytes_len: usize, ends: *const usize, ends_len: usize, mask: *const u64, mask_len: usize, decoded: usize, times: usize) -> Told;
    fn bench_dictionary_take(narrow: *const u8, narrow_len: usize, wide: *const u32, wide_len: usize, numbers: *const u64, numbers_len: usize, bytes: *const u8, bytes_len: usize, ends: *const usize, ends_len: usize, places: *const u64, places_len: usize, decoded: usize, times: usize) -> Told;
    fn bench_dictionary_slice(narrow: *const u8, narrow_len: usize, wide: *const u32, wide_len: usize, numbers: *const u64, numbers_len: usize, bytes: *const u8, bytes_len: usize, ends: *const usize, ends_len: usize, start: usize, end: usize, decoded: usize, times: usize) -> Told;
    fn bench_dictionary_cast(narrow: *const u8, narrow_len: usize, wide: *const u32, wide_len: usize, numbers: *const u64, numbers_len: usize, bytes: *const u8, bytes_len: usize, ends: *const usize, ends_len: usize, decoded: usize, times: usize) -> Told;
    fn bench_dictionary_fill(narrow: *const u8, narrow_len: usize, wide: *const u32, wide_len: usize, numbers: *const u64, numbers_len: usize, bytes: *const u8, bytes_len: usize, ends: *const usize, ends_len: usize, valid: *const u64, valid_len: usize, number: u64, text: *const u8, text_len: usize, decoded: usize, times: usize) -> Told;
    fn bench_dictionary_extremes(narrow: *const u8, narrow_len: usize, wide: *const u32, wide_len: usize, numbers: *const u64, numbers_len: usize, bytes: *const u8, bytes_len: usize, ends: *const usize, ends_len: usize, decoded: usize, times: usize) -> Told;
}

const ROWS: usize = 10_000_000;
// How many calls are timed beyond the first.
const MORE: usize = 6;

// Codes, as the stock side reads them.
trait Code: Copy {
    fn place(self) -> usize;
    fn of(place: usize) -> Self;
    // The codes as those of 8 bits, and as those of 32.
    fn lent(codes: &[Self]) -> (&[u8], &[u32])
    where
        Self: Sized;
}

impl Code for u8 {
    #[inline(always)]
    fn place(self) -> usize {
        self as usize
    }

    fn of(place: usize) -> u8 {
        place as u8
    }

    fn lent(codes: &[u8]) -> (&[u8], &[u32]) {
        (codes, &[])
    }
}

impl Code for u32 {
    #[inline(always)]
    fn place(self) -> usize {
        self as usize
    }

    fn of(place: usize) -> u32 {
        place as u32
    }

    fn lent(codes: &[u32]) -> (&[u8], &[u32]) {
        (&[], codes)
    }
}

// Texts one after another, and where each begins; behind the last, where that ends.
#[derive(Clone)]
struct Texts {
    bytes: Vec<u8>,
    offsets: Vec<usize>,
}

impl Texts {
    fn new() -> Texts {
        Texts { bytes: Vec::new(), offsets: vec![0] }
    }

    fn len(&self) -> usize {
        self.offsets.len() - 1
    }

    fn get(&self, i: usize) -> &str {
        unsafe { std::str::from_utf8_unchecked(&self.bytes[self.offsets[i]..self.offsets[i + 1]]) }
    }

    fn push(&mut self, text: &str) {
        self.bytes.extend_from_slice(text.as_bytes());
        self.offsets.push(self.bytes.len());
    }
}

// Values of a dictionary, as the stock side keeps them.
trait Values: Clone {
    fn len(&self) -> usize;
    // What is told of a value.
    fn told(&self, i: usize) -> u64;
    fn decoded<C: Code>(&self, codes: &[C]) -> Self;
    fn truths(&self, bound: u64, text: &str) -> Vec<bool>;
    // How many values are cast: numbers to `i64`, texts to a type with nulls.
    fn cast(&self) -> usize;
    // The first place of the value at a place.
    fn place_of(&self, i: usize) -> usize;
    // The places of the least and of the greatest of the values that are marked.
    fn extremes(&self, marks: &[bool]) -> (usize, usize);
    // The number or the text at a place.
    fn value(&self, i: usize) -> (u64, &str);
    // The numbers, the bytes, and where each text ends.
    fn lent(&self) -> (&[u64], &[u8], &[usize]);
}

impl Values for Vec<u64> {
    fn len(&self) -> usize {
        Vec::len(self)
    }

    fn told(&self, i: usize) -> u64 {
        self[i]
    }

    #[inline(never)]
    fn decoded<C: Code>(&self, codes: &[C]) -> Vec<u64> {
        codes.iter().map(|code| self[code.place()]).collect()
    }

    #[inline(never)]
    fn truths(&self, bound: u64, _text: &str) -> Vec<bool> {
        self.iter().map(|value| *value < bound).collect()
    }

    #[inline(never)]
    fn cast(&self) -> usize {
        let numbers: Vec<i64> = self.iter().map_while(|value| i64::try_from(*value).ok()).collect();
        black_box(numbers).len()
    }

    fn place_of(&self, i: usize) -> usize {
        self.iter().position(|value| *value == self[i]).unwrap()
    }

    fn extremes(&self, marks: &[bool]) -> (usize, usize) {
        let named = || (0..marks.len()).filter(|i| marks[*i]);
        (named().min_by_key(|i| self[*i]).unwrap(), named().max_by_key(|i| self[*i]).unwrap())
    }

    fn value(&self, i: usize) -> (u64, &str) {
        (self[i], "")
    }

    fn lent(&self) -> (&[u64], &[u8], &[usize]) {
        (self, &[], &[])
    }
}

impl Values for Texts {
    fn len(&self) -> usize {
        Texts::len(self)
    }

    fn told(&self, i: usize) -> u64 {
        self.get(i).len() as u64
    }

    #[inline(never)]
    fn decoded<C: Code>(&self, codes: &[C]) -> Texts {
        let mut rows = Texts::new();
        rows.offsets.reserve(codes.len());
        for code in codes {
            rows.push(self.get(code.place()));
        }
        rows
    }

    #[inline(never)]
    fn truths(&self, _bound: u64, text: &str) -> Vec<bool> {
        (0..self.len()).map(|i| self.get(i) < text).collect()
    }

    #[inline(never)]
    fn cast(&self) -> usize {
        black_box(self.clone()).len()
    }

    fn place_of(&self, i: usize) -> usize {
        (0..self.len()).position(|place| self.get(place) == self.get(i)).unwrap()
    }

    fn extremes(&self, marks: &[bool]) -> (usize, usize) {
        let named = || (0..marks.len()).filter(|i| marks[*i]);
        (named().min_by_key(|i| self.get(*i)).unwrap(), named().max_by_key(|i| self.get(*i)).unwrap())
    }

    fn value(&self, i: usize) -> (u64, &str) {
        (0, self.get(i))
    }

    fn lent(&self) -> (&[u64], &[u8], &[usize]) {
        (&[], &self.bytes, &self.offsets[1..])
    }
}

// The truths at the codes, 64 in a word.
#[inline(never)]
fn stock_truths<C: Code>(codes: &[C], truths: &[bool]) -> Vec<u64> {
    codes
        .chunks(64)
        .map(|group| group.iter().enumerate().fold(0u64, |word, (i, code)| word | (truths[code.place()] as u64) << i))
        .collect()
}

#[inline(never)]
fn stock_like(texts: &Texts, inside: &str) -> Vec<bool> {
    (0..texts.len()).map(|i| texts.get(i).contains(inside)).collect()
}

// The kept codes, from set bit to set bit.
#[inline(never)]
fn stock_filter<C: Code>(codes: &[C], mask: &[u64]) -> Vec<C> {
    let mut kept = Vec::with_capacity(count(mask));
    for (k, word) in mask.iter().enumerate() {
        let mut rest = *word;
        while rest != 0 {
            kept.push(codes[64 * k + rest.trailing_zeros() as usize]);
            rest &= rest - 1;
        }
    }
    kept
}

#[inline(never)]
fn stock_take<C: Code>(codes: &[C], places: &[u64]) -> Vec<C> {
    places.iter().map(|place| codes[*place as usize]).collect()
}

#[inline(never)]
fn stock_slice<C: Code>(codes: &[C], start: usize, end: usize) -> Vec<C> {
    codes[start..end].to_vec()
}

// The codes, and one in the place of those whose bit is not set.
#[inline(never)]
fn stock_fill<C: Code>(codes: &[C], valid: &[u64], fill: C) -> Vec<C> {
    let mut full = Vec::with_capacity(codes.len());
    for (group, word) in codes.chunks(64).zip(valid) {
        full.extend(group.iter().enumerate().map(|(i, code)| if word >> i & 1 == 1 { *code } else { fill }));
    }
    full
}

// Which of so many values a code names.
#[inline(never)]
fn stock_marks<C: Code>(codes: &[C], values: usize) -> Vec<bool> {
    let mut marks = vec![false; values];
    for code in codes {
        marks[code.place()] = true;
    }
    marks
}

fn count(words: &[u64]) -> usize {
    words.iter().map(|word| word.count_ones() as usize).sum()
}

fn told_rows(len: usize, row: impl Fn(usize) -> u64) -> Told {
    Told { rows: len, value: row(0).wrapping_add(row(len / 2)).wrapping_add(row(len - 1)) }
}

fn told_codes<C: Code, V: Values>(codes: &[C], values: &V) -> Told {
    told_rows(codes.len(), |i| values.told(codes[i].place()))
}

fn told_bits(bits: &[u64]) -> Told {
    Told { rows: ROWS, value: count(bits) as u64 }
}

fn median(mut times: Vec<f64>) -> f64 {
    times.sort_by(|a, b| a.total_cmp(b));
    times[times.len() / 2]
}

// Prints the time of a call, the stock side's and their ratio, and what the same call takes on the decoded column, in
// milliseconds. Jobs take turns, and each counts with the median of its runs.
fn race(name: &str, runs: usize, ours: &dyn Fn(usize) -> Told, stock: &dyn Fn() -> usize, decoded: Option<&dyn Fn(usize) -> Told>) {
    let timed = |job: &dyn Fn() -> usize| {
        let start = now();
        black_box(job());
        now() - start
    };
    let (mut one, mut many, mut peer_one, mut peer_many) = (Vec::new(), Vec::new(), Vec::new(), Vec::new());
    let (mut plain_one, mut plain_many) = (Vec::new(), Vec::new());
    for _ in 0..runs {
        one.push(timed(&|| ours(1).rows));
        peer_one.push(timed(stock));
        many.push(timed(&|| ours(1 + MORE).rows));
        peer_many.push(timed(&|| (0..1 + MORE).map(|_| stock()).sum()));
        if let Some(plain) = decoded {
            plain_one.push(timed(&|| plain(1).rows));
            plain_many.push(timed(&|| plain(1 + MORE).rows));
        }
    }
    let call = (median(many) - median(one)) / MORE as f64;
    let peer = (median(peer_many) - median(peer_one)) / MORE as f64;
    let beside = match decoded {
        Some(_) => format!("{:9.2}", (median(plain_many) - median(plain_one)) / MORE as f64),
        None => format!("{:>9}", "-"),
    };
    println!("{name:<44} {call:9.2} {peer:9.2} {:6.2} {beside}", call / peer);
}

struct Random(u64);

impl Random {
    fn next(&mut self) -> u64 {
        self.0 ^= self.0 << 13;
        self.0 ^= self.0 >> 7;
        self.0 ^= self.0 << 17;
        self.0
    }

    fn bits(&mut self, percent: u64) -> Vec<u64> {
        let mut words = vec![0u64; ROWS.div_ceil(64)];
        for i in 0..ROWS {
            if self.next() % 100 < percent {
                words[i / 64] |= 1 << (i % 64);
            }
        }
        words
    }
}

// What all calls are asked with.
struct Asked {
    mask: Vec<u64>,
    // Of ten rows nine are set.
    valid: Vec<u64>,
    places: Vec<u64>,
    bound: u64,
    text: &'static str,
    runs: usize,
}

fn raced<C: Code, V: Values>(codes: &[C], values: &V, asked: &Asked, kind: &str) {
    let (narrow, wide) = C::lent(codes);
    let (numbers, bytes, ends) = values.lent();
    let runs = asked.runs;
    let ours = |times| unsafe { bench_dictionary_decode(narrow.as_ptr(), narrow.len(), wide.as_ptr(), wide.len(), numbers.as_ptr(), numbers.len(), bytes.as_ptr(), bytes.len(), ends.as_ptr(), ends.len(), times) };
    assert_eq!(ours(1), told_codes(codes, values), "canonicalize, {kind}");
    race(&format!("canonicalize, {kind}"), runs, &ours, &|| Values::len(&black_box(values.decoded(black_box(codes)))), None);

    let (bound, text) = (asked.bound, asked.text);
    let below = |times, decoded| unsafe { bench_dictionary_below(narrow.as_ptr(), narrow.len(), wide.as_ptr(), wide.len(), numbers.as_ptr(), numbers.len(), bytes.as_ptr(), bytes.len(), ends.as_ptr(), ends.len(), bound, text.as_ptr(), text.len(), decoded, times) };
    let stock = || stock_truths(black_box(codes), &values.truths(black_box(bound), black_box(text)));
    assert_eq!(below(1, 0), told_bits(&stock()), "compare, {kind}");
    assert_eq!(below(1, 1), told_bits(&stock()), "compare, {kind}, decoded");
    race(&format!("compare with a constant, {kind}"), runs, &|times| below(times, 0), &|| black_box(stock()).len(), Some(&|times| below(times, 1)));

    let apply = |times| unsafe { bench_dictionary_apply(narrow.as_ptr(), narrow.len(), wide.as_ptr(), wide.len(), numbers.as_ptr(), numbers.len(), bytes.as_ptr(), bytes.len(), ends.as_ptr(), ends.len(), bound, text.as_ptr(), text.len(), times) };
    assert_eq!(apply(1), told_bits(&stock()), "apply, {kind}");
    race(&format!("apply, {kind}"), runs, &apply, &|| black_box(stock()).len(), None);

    let mask = &asked.mask;
    let filter = |times, decoded| unsafe { bench_dictionary_filter(narrow.as_ptr(), narrow.len(), wide.as_ptr(), wide.len(), numbers.as_ptr(), numbers.len(), bytes.as_ptr(), bytes.len(), ends.as_ptr(), ends.len(), mask.as_ptr(), mask.len(), decoded, times) };
    let kept = told_codes(&stock_filter(codes, mask), values);
    assert_eq!((filter(1, 0), filter(1, 1)), (kept, kept), "filter, {kind}");
    race(&format!("filter, 50 % set, {kind}"), runs, &|times| filter(times, 0), &|| {
        black_box(black_box(values).clone());
        black_box(stock_filter(black_box(codes), black_box(mask))).len()
    }, Some(&|times| filter(times, 1)));

    let places = &asked.places;
    let take = |times, decoded| unsafe { bench_dictionary_take(narrow.as_ptr(), narrow.len(), wide.as_ptr(), wide.len(), numbers.as_ptr(), numbers.len(), bytes.as_ptr(), bytes.len(), ends.as_ptr(), ends.len(), places.as_ptr(), places.len(), decoded, times) };
    let taken = told_codes(&stock_take(codes, places), values);
    assert_eq!((take(1, 0), take(1, 1)), (taken, taken), "take, {kind}");
    race(&format!("take, places close by, {kind}"), runs, &|times| take(times, 0), &|| {
        black_box(black_box(values).clone());
        black_box(stock_take(black_box(codes), black_box(places))).len()
    }, Some(&|times| take(times, 1)));

    let slice = |times, decoded| unsafe { bench_dictionary_slice(narrow.as_ptr(), narrow.len(), wide.as_ptr(), wide.len(), numbers.as_ptr(), numbers.len(), bytes.as_ptr(), bytes.len(), ends.as_ptr(), ends.len(), 1, ROWS - 1, decoded, times) };
    let part = told_codes(&codes[1..ROWS - 1], values);
    assert_eq!((slice(1, 0), slice(1, 1)), (part, part), "slice, {kind}");
    race(&format!("slice, all but two, {kind}"), runs, &|times| slice(times, 0), &|| {
        black_box(black_box(values).clone());
        black_box(stock_slice(black_box(codes), 1, ROWS - 1)).len()
    }, Some(&|times| slice(times, 1)));
}

// Dictionaries cast, filled, and asked for their extremes.
fn changed<C: Code, V: Values>(codes: &[C], values: &V, asked: &Asked, kind: &str) {
    let (narrow, wide) = C::lent(codes);
    let (numbers, bytes, ends) = values.lent();
    let runs = asked.runs;
    let cast = |times, decoded| unsafe { bench_dictionary_cast(narrow.as_ptr(), narrow.len(), wide.as_ptr(), wide.len(), numbers.as_ptr(), numbers.len(), bytes.as_ptr(), bytes.len(), ends.as_ptr(), ends.len(), decoded, times) };
    let same = told_codes(codes, values);
    assert_eq!((cast(1, 0), cast(1, 1)), (same, same), "cast, {kind}");
    race(&format!("cast, {kind}"), runs, &|times| cast(times, 0), &|| {
        black_box(black_box(values).cast());
        black_box(black_box(codes).to_vec()).len()
    }, Some(&|times| cast(times, 1)));

    let valid = &asked.valid;
    let (number, text) = values.value(7);
    let fill = |times, decoded| unsafe { bench_dictionary_fill(narrow.as_ptr(), narrow.len(), wide.as_ptr(), wide.len(), numbers.as_ptr(), numbers.len(), bytes.as_ptr(), bytes.len(), ends.as_ptr(), ends.len(), valid.as_ptr(), valid.len(), number, text.as_ptr(), text.len(), decoded, times) };
    let full = told_codes(&stock_fill(codes, valid, C::of(7)), values);
    assert_eq!((fill(1, 0), fill(1, 1)), (full, full), "fill_null, {kind}");
    race(&format!("fill_null, a tenth null, {kind}"), runs, &|times| fill(times, 0), &|| {
        let code = C::of(black_box(values).place_of(7));
        black_box(black_box(values).clone());
        black_box(stock_fill(black_box(codes), black_box(valid), code)).len()
    }, Some(&|times| fill(times, 1)));

    let extremes = |times, decoded| unsafe { bench_dictionary_extremes(narrow.as_ptr(), narrow.len(), wide.as_ptr(), wide.len(), numbers.as_ptr(), numbers.len(), bytes.as_ptr(), bytes.len(), ends.as_ptr(), ends.len(), decoded, times) };
    let stock = || values.extremes(&stock_marks(black_box(codes), Values::len(black_box(values))));
    let (least, greatest) = stock();
    let both = Told { rows: ROWS, value: values.told(least).wrapping_add(values.told(greatest)) };
    assert_eq!((extremes(1, 0), extremes(1, 1)), (both, both), "min_max, {kind}");
    race(&format!("min_max, {kind}"), runs, &|times| extremes(times, 0), &|| black_box(stock()).0, Some(&|times| extremes(times, 1)));
}

// Texts matched with a pattern: a dictionary of truths, and on the decoded column a column of answers.
fn matched<C: Code>(codes: &[C], texts: &Texts, runs: usize, kind: &str) {
    let (narrow, wide) = C::lent(codes);
    let (_, bytes, ends) = texts.lent();
    let pattern = "%rt%";
    let inside = black_box("rt");
    let like = |times, decoded| unsafe { bench_dictionary_like(narrow.as_ptr(), narrow.len(), wide.as_ptr(), wide.len(), bytes.as_ptr(), bytes.len(), ends.as_ptr(), ends.len(), pattern.as_ptr(), pattern.len(), decoded, times) };
    let truths = stock_like(texts, inside);
    assert_eq!(like(1, 0), told_rows(ROWS, |i| truths[codes[i].place()] as u64), "like, {kind}");
    assert_eq!(like(1, 1), told_bits(&stock_truths(codes, &truths)), "like, {kind}, decoded");
    race(&format!("like %rt%, {kind}"), runs, &|times| like(times, 0), &|| {
        black_box(stock_like(black_box(texts), inside));
        black_box(black_box(codes).to_vec()).len()
    }, Some(&|times| like(times, 1)));
}

// So many short texts, none twice.
fn short_texts(random: &mut Random, many: usize) -> Texts {
    let words = ["north", "south", "east", "west", "northeast", "southwest", "port", "mid"];
    let mut texts = Texts::new();
    for i in 0..many {
        texts.push(&format!("{}{i}", words[random.next() as usize % words.len()]));
    }
    texts
}

fn of_codes<C: Code>(random: &mut Random, codes: &[C], many: usize, asked: &Asked, width: &str) {
    let numbers: Vec<u64> = (0..many).map(|_| random.next() >> 1).collect();
    raced(codes, &numbers, asked, &format!("{width} of u64"));
    changed(codes, &numbers, asked, &format!("{width} of u64"));
    let texts = short_texts(random, many);
    raced(codes, &texts, asked, &format!("{width} of texts"));
    changed(codes, &texts, asked, &format!("{width} of texts"));
    matched(codes, &texts, asked.runs, &format!("{width} of texts"));
}

fn main() {
    let runs = std::env::args().nth(1).and_then(|word| word.parse().ok()).unwrap_or(5);
    let mut random = Random(0x9e3779b97f4a7c15);
    let mask = random.bits(50);
    let places = (0..ROWS as u64).map(|i| (i + random.next() % 100).min(ROWS as u64 - 1)).collect();
    let valid = random.bits(90);
    let asked = Asked { mask, valid, places, bound: u64::MAX / 4, text: "northw", runs };
    println!("{:<44} {:>9} {:>9} {:>6} {:>9}", "job", "ours", "stock", "ratio", "decoded");
    let narrow: Vec<u8> = (0..ROWS).map(|_| (random.next() % 200) as u8).collect();
    of_codes(&mut random, &narrow, 200, &asked, "u8");
    let wide: Vec<u32> = (0..ROWS).map(|_| (random.next() % 1000) as u32).collect();
    of_codes(&mut random, &wide, 1000, &asked, "u32");
}
