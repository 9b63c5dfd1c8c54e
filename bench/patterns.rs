// Times the patterns of `vortex_array_predicates` over many texts beside stock Rust of the same job. Built and run by
// `bench/patterns`.
//
// The library first tests once that all bytes are text. What that takes is timed by a call with no texts, and not counted.
mod clock;
mod memory;

use clock::now;
use std::hint::black_box;

extern "C" {
    fn bench_patterns(bytes: *const u8, len: usize, ends: *const usize, ends_len: usize, pattern: *const u8, pattern_len: usize) -> usize;
}

const ROWS: usize = 10_000_000;
const RUNS: usize = 9;

// Texts one after another, and where each ends.
struct Texts {
    bytes: String,
    ends: Vec<usize>,
}

impl Texts {
    fn count(&self, matches: impl Fn(&str) -> bool) -> usize {
        let mut start = 0;
        let mut count = 0;
        for end in &self.ends {
            count += matches(&self.bytes[start..*end]) as usize;
            start = *end;
        }
        count
    }

    // How many texts match, by the library.
    fn ours(&self, pattern: &str) -> usize {
        unsafe { bench_patterns(self.bytes.as_ptr(), self.bytes.len(), self.ends.as_ptr(), self.ends.len(), pattern.as_ptr(), pattern.len()) }
    }

    // The same call with no text to match.
    fn checked(&self, pattern: &str) -> usize {
        unsafe { bench_patterns(self.bytes.as_ptr(), self.bytes.len(), self.ends.as_ptr(), 0, pattern.as_ptr(), pattern.len()) }
    }
}

// The least times of these jobs, which take turns.
fn least(jobs: &[&dyn Fn() -> usize]) -> Vec<f64> {
    let mut times = vec![f64::INFINITY; jobs.len()];
    for _ in 0..RUNS {
        for (time, job) in times.iter_mut().zip(jobs) {
            let start = now();
            black_box(job());
            *time = time.min(now() - start);
        }
    }
    times
}

fn race(texts: &Texts, pattern: &str, matches: impl Fn(&str) -> bool) {
    assert_eq!(texts.ours(pattern), texts.count(&matches), "{pattern}");
    let times = least(&[&|| texts.checked(pattern), &|| texts.ours(pattern), &|| black_box(texts).count(&matches)]);
    let ours = times[1] - times[0];
    println!("{pattern:<24} {ours:9.1} {:9.1} {:6.2}", times[2], ours / times[2]);
}

fn main() {
    let words = ["north", "south", "east", "west", "northeast", "southwest", "northwestern", "southern"];
    let mut seed = 0x9e3779b97f4a7c15u64;
    let mut texts = Texts { bytes: String::new(), ends: Vec::new() };
    for _ in 0..ROWS {
        seed ^= seed << 13;
        seed ^= seed >> 7;
        seed ^= seed << 17;
        texts.bytes.push_str(words[seed as usize % words.len()]);
        texts.ends.push(texts.bytes.len());
    }
    let (front, inside, back, whole) = (black_box("n"), black_box("rt"), black_box("west"), black_box("southwest"));
    println!("{:<24} {:>9} {:>9} {:>6}", "pattern", "ours", "stock", "ratio");
    race(&texts, "n%", |text| text.starts_with(front));
    race(&texts, "%rt%", |text| text.contains(inside));
    race(&texts, "%west", |text| text.ends_with(back));
    race(&texts, "southwest", |text| text == whole);
    let long = Texts { bytes: "a".repeat(10_000), ends: vec![10_000] };
    let pattern = "%a".repeat(50);
    assert_eq!(long.ours(&pattern), 1);
    let times = least(&[&|| long.checked(&pattern), &|| long.ours(&pattern)]);
    println!("{:<24} {:9.4}", "fifty %a, 10,000 a", times[1] - times[0]);
}
