//! A yardstick for links: packets of a thousand words, each posted and taken by the same loads and stores of atomic words, in the same
//! order, in plain Rust without proofs. Prints the microseconds, whether each packet came at once, and the words of the last packet.

use std::sync::atomic::{AtomicU64, Ordering::SeqCst};
use std::time::Instant;

const WORDS: usize = 1000;

#[inline(never)]
fn post(turn: &AtomicU64, data: &[AtomicU64], packet: &[u64]) -> bool {
    let word = turn.load(SeqCst);
    if word % 2 == 1 {
        return false;
    }
    data[0].store(packet.len() as u64, SeqCst);
    for (index, value) in packet.iter().enumerate() {
        data[index + 1].store(*value, SeqCst);
    }
    turn.store(word + 1, SeqCst);
    true
}

#[inline(never)]
fn take(turn: &AtomicU64, data: &[AtomicU64], into: &mut Vec<u64>) -> bool {
    let word = turn.load(SeqCst);
    if word % 2 == 0 {
        return false;
    }
    let length = data[0].load(SeqCst) as usize;
    into.resize(length, 0);
    for (index, value) in into.iter_mut().enumerate() {
        *value = data[index + 1].load(SeqCst);
    }
    turn.store(word + 1, SeqCst);
    true
}

fn exchange(turn: &AtomicU64, data: &[AtomicU64], packet: &[u64], into: &mut Vec<u64>, count: usize) -> bool {
    for _ in 0..count {
        if !post(turn, data, packet) || !take(turn, data, into) {
            return false;
        }
    }
    true
}

fn main() {
    let turn = AtomicU64::new(0);
    let data: Vec<AtomicU64> = (0..=WORDS).map(|_| AtomicU64::new(0)).collect();
    let packet = vec![0; WORDS];
    let mut into = Vec::with_capacity(WORDS);
    exchange(&turn, &data, &packet, &mut into, 2000);
    let start = Instant::now();
    let all = exchange(&turn, &data, &packet, &mut into, 10_000);
    let micros = start.elapsed().as_micros();
    println!("{micros} {all} {}", into.len());
}
