// The stock side that two drivers share.

pub fn count(words: &[u64]) -> usize {
    words.iter().map(|word| word.count_ones() as usize).sum()
}

// The kept values, from set bit to set bit.
#[inline(never)]
pub fn kept_values(values: &[u64], mask: &[u64]) -> Vec<u64> {
    let mut kept = Vec::with_capacity(count(mask));
    for (k, word) in mask.iter().enumerate() {
        let mut rest = *word;
        while rest != 0 {
            kept.push(values[64 * k + rest.trailing_zeros() as usize]);
            rest &= rest - 1;
        }
    }
    kept
}
