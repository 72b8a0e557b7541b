// The value of the median of nine over windows of pixels in plain Rust: the greatest, over the terms, of the
// least among the term's cells, a term being left as soon as it cannot raise the greatest.
use std::time::Instant;

#[inline(never)]
fn value(terms: &[u64], window: &[u16; 63]) -> u16 {
    let mut high = 0;
    for &term in terms {
        let mut rest = term;
        let mut low = u16::MAX;
        while rest != 0 && low > high {
            low = low.min(window[62 - rest.trailing_zeros() as usize]);
            rest &= rest - 1;
        }
        high = high.max(low);
    }
    high
}

fn main() {
    let cell = |k: u32| (k / 3 + 3) * 7 + k % 3 + 2;
    let term = |mask: u32| (0..9).filter(|k| mask >> k & 1 == 1).map(|k| 1u64 << (62 - cell(k))).sum::<u64>();
    let mut terms: Vec<u64> = (0..512u32).filter(|m| m.count_ones() == 5).map(term).collect();
    terms.sort();
    let mut seed = 1u32;
    let mut windows = vec![[0u16; 63]; 200_000];
    for window in windows.iter_mut() {
        for element in window.iter_mut() {
            seed = seed.wrapping_mul(1_664_525).wrapping_add(1_013_904_223);
            *element = (seed >> 16) as u16;
        }
    }
    let start = Instant::now();
    let sum: u64 = windows.iter().map(|window| u64::from(value(&terms, window))).sum();
    println!("value, terms {}: {} us, sum {sum}", terms.len(), start.elapsed().as_micros());
}
