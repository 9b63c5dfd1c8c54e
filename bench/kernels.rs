// Times the lane kernels of `vortex_compute` beside stock Rust loops of the same job. Built and run by `bench/kernels`.
use std::hint::black_box;
use std::time::Instant;

extern "C" {
    fn bench_map_into(values: *const u64, len: usize, out: *mut u64, out_len: usize);
    fn bench_map_bits_into(values: *const u64, len: usize, constant: u64, words: *mut u64, words_len: usize);
    fn bench_try_map_into(values: *const u64, len: usize, out: *mut u32, out_len: usize) -> usize;
    fn bench_compare_u64_bits(values: *const u64, len: usize, constant: u64, words: *mut u64, words_len: usize);
}

const LANES: usize = 10_000_000;
const RUNS: usize = 101;

#[inline(never)]
fn stock_map(values: &[u64], out: &mut [u64]) {
    for (place, value) in out.iter_mut().zip(values) {
        *place = value.wrapping_mul(3).wrapping_add(1);
    }
}

#[inline(never)]
fn stock_bits(values: &[u64], constant: u64, words: &mut [u64]) {
    for (word, group) in words.iter_mut().zip(values.chunks(64)) {
        let mut bits = 0;
        for (bit, value) in group.iter().enumerate() {
            bits |= ((*value < constant) as u64) << bit;
        }
        *word = bits;
    }
}

// A plain loop, which stops at the first value that does not fit.
#[inline(never)]
fn stock_narrow(values: &[u64], out: &mut [u32]) -> usize {
    for (i, (place, value)) in out.iter_mut().zip(values).enumerate() {
        match u32::try_from(*value) {
            Ok(narrow) => *place = narrow,
            Err(_) => return i + 1,
        }
    }
    0
}

// The same by groups of 64, with the failures looked at behind each group.
#[inline(never)]
fn stock_narrow_by_groups(values: &[u64], out: &mut [u32]) -> usize {
    for (k, (places, group)) in out.chunks_mut(64).zip(values.chunks(64)).enumerate() {
        let mut failed = 0u64;
        for (bit, (place, value)) in places.iter_mut().zip(group).enumerate() {
            let narrow = u32::try_from(*value).ok();
            failed |= (narrow.is_none() as u64) << bit;
            *place = narrow.unwrap_or(0);
        }
        if failed != 0 {
            return 64 * k + failed.trailing_zeros() as usize + 1;
        }
    }
    0
}

// The least time of each of these jobs, in milliseconds. They take turns, and other work on the machine can only add to
// a time, so that the least of many is what a job costs.
fn least(jobs: &mut [&mut dyn FnMut()]) -> Vec<f64> {
    let mut times = vec![f64::INFINITY; jobs.len()];
    for _ in 0..RUNS {
        for (time, job) in times.iter_mut().zip(jobs.iter_mut()) {
            let start = Instant::now();
            job();
            *time = time.min(start.elapsed().as_secs_f64() * 1000.0);
        }
    }
    times
}

fn row(name: &str, kernel: f64, stock: f64, copy: f64) {
    println!("{name:<34} {kernel:8.2} {stock:8.2} {:8.2} {:8.2}", kernel / stock, kernel / copy);
}

fn main() {
    let mut state = 1u64;
    let values: Vec<u64> = (0..LANES)
        .map(|_| {
            state = state.wrapping_mul(6364136223846793005).wrapping_add(1442695040888963407);
            state >> 33
        })
        .collect();
    let constant = 1u64 << 30;
    let count = LANES.div_ceil(64);
    let (mut copied, mut out, mut mapped) = (vec![0u64; LANES], vec![0u64; LANES], vec![0u64; LANES]);
    let (mut narrow, mut narrowed, mut grouped) = (vec![0u32; LANES], vec![0u32; LANES], vec![0u32; LANES]);
    let (mut words, mut compared, mut packed) = (vec![0u64; count], vec![0u64; count], vec![0u64; count]);
    let from = || black_box(values.as_ptr());
    let times = least(&mut [
        &mut || copied.copy_from_slice(black_box(&values)),
        &mut || unsafe { bench_map_into(from(), LANES, out.as_mut_ptr(), LANES) },
        &mut || stock_map(black_box(&values), &mut mapped),
        &mut || unsafe { bench_map_bits_into(from(), LANES, black_box(constant), words.as_mut_ptr(), count) },
        &mut || stock_bits(black_box(&values), black_box(constant), &mut packed),
        &mut || unsafe { assert_eq!(bench_try_map_into(from(), LANES, narrow.as_mut_ptr(), LANES), 0) },
        &mut || assert_eq!(stock_narrow(black_box(&values), &mut narrowed), 0),
        &mut || assert_eq!(stock_narrow_by_groups(black_box(&values), &mut grouped), 0),
        &mut || unsafe { bench_compare_u64_bits(from(), LANES, black_box(constant), compared.as_mut_ptr(), count) },
    ]);
    assert!(copied == values && out == mapped && words == packed && compared == packed);
    assert!(narrow == narrowed && narrow == grouped);
    let copy = times[0];
    println!("{LANES} lanes, the least of {RUNS} runs, milliseconds; copying the lanes' 80 MB takes {copy:.2}");
    println!("{:<34} {:>8} {:>8} {:>8} {:>8}", "", "kernel", "stock", "/stock", "/copy");
    row("map_into", times[1], times[2], copy);
    row("map_bits_into, less than", times[3], times[4], copy);
    row("try_map_into, u64 to u32", times[5], times[6], copy);
    row("the same, stock by groups of 64", times[5], times[7], copy);
    row("compare_u64_bits, Lt", times[8], times[4], copy);
}
