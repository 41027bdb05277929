//! A yardstick for regions: the same plan of 18,000 fields in 9,000 scopes, in plain Rust without proofs. Prints the nanoseconds of a
//! plan, its peak, and the first words of two fields.

use std::hint::black_box;
use std::time::Instant;

const SCOPES: u32 = 9000;
const PLANS: u32 = 200;

struct Region {
    scopes: Vec<u32>,
    sizes: Vec<(u32, u32)>,
    firsts: Vec<u32>,
    peak: u32,
}

#[inline(never)]
fn plan(scopes: &[u32], sizes: &[(u32, u32)], limit: u32) -> Option<Region> {
    let mut own = vec![0u64; scopes.len()];
    for &(scope, size) in sizes {
        own[scope as usize] += u64::from(size);
    }
    let mut ends = Vec::new();
    let mut peak = 0;
    for (scope, &parent) in scopes.iter().enumerate() {
        let words = if scope == 0 { 0 } else { ends[parent as usize] + own[parent as usize] };
        ends.push(words);
        peak = peak.max(words + own[scope]);
    }
    if peak > u64::from(limit) {
        return None;
    }
    let mut firsts = Vec::new();
    for &(scope, size) in sizes {
        let words = ends[scope as usize];
        firsts.push(u32::try_from(words + 1).ok()?);
        ends[scope as usize] = words + u64::from(size);
    }
    Some(Region { scopes: scopes.to_vec(), sizes: sizes.to_vec(), firsts, peak: peak as u32 })
}

fn main() {
    let scopes: Vec<u32> = (0..SCOPES).map(|scope| scope.saturating_sub(1) / 2).collect();
    let sizes: Vec<(u32, u32)> = (0..2 * SCOPES).map(|field| (field % SCOPES, field % 1000)).collect();
    let start = Instant::now();
    let first = plan(black_box(&scopes), black_box(&sizes), 16_777_216);
    let cold = start.elapsed().as_nanos();
    let start = Instant::now();
    for _ in 0..PLANS {
        black_box(plan(black_box(&scopes), black_box(&sizes), 16_777_216));
    }
    let warm = start.elapsed().as_nanos() / u128::from(PLANS);
    let region = first.unwrap();
    assert_eq!(region.scopes.len() + region.sizes.len(), 27_000);
    println!("{cold} {warm} {} {}", region.peak, region.firsts.len());
}
