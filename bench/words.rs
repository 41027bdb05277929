//! A yardstick for the shared words: the same loads and stores of a million atomic words, in the same order, in plain Rust without
//! proofs. Prints the microseconds and the last word.

use std::sync::atomic::{AtomicU64, Ordering::SeqCst};
use std::time::Instant;

const WORDS: usize = 1_000_000;

#[inline(never)]
fn add_to_all(words: &[AtomicU64]) {
    for word in &words[1..] {
        let value = word.load(SeqCst) as i64;
        word.store(value.wrapping_add(1) as u64, SeqCst);
    }
}

fn main() {
    let words: Vec<AtomicU64> = (0..=WORDS).map(|_| AtomicU64::new(0)).collect();
    for _ in 0..10 {
        add_to_all(&words);
    }
    let start = Instant::now();
    for _ in 0..10 {
        add_to_all(&words);
    }
    let micros = start.elapsed().as_micros();
    println!("{micros} {}", words[WORDS].load(SeqCst));
}
