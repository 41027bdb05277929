//! A yardstick for the colours of iterations: two greedy colourings of the same lists in plain Rust without proofs. Prints the
//! microseconds, the number of colours and a checksum of each.

use std::time::Instant;

struct Lists {
    items: Vec<u32>,
    ends: Vec<usize>,
}

impl Lists {
    fn of(&self, i: usize) -> &[u32] {
        let start = if i == 0 { 0 } else { self.ends[i - 1] };
        &self.items[start..self.ends[i]]
    }

    fn bound(&self) -> usize {
        self.items.iter().max().map_or(0, |x| *x as usize + 1)
    }
}

fn read(name: &str) -> Lists {
    let bytes = std::fs::read(name).unwrap();
    let mut lists = Lists { items: Vec::new(), ends: Vec::new() };
    for row in bytes.chunks_exact(8) {
        lists.items.push(u32::from_le_bytes(row[..4].try_into().unwrap()));
        let second = u32::from_le_bytes(row[4..].try_into().unwrap());
        if second != u32::MAX {
            lists.items.push(second);
        }
        lists.ends.push(lists.items.len());
    }
    lists
}

/// The colours, and the iterations of each colour with the end of each.
type Colours = (Vec<u32>, Vec<u32>, Vec<usize>);

/// One sweep over the iterations without a colour for each colour.
#[inline(never)]
fn by_sweeps(lists: &Lists) -> Colours {
    let count = lists.ends.len();
    let mut colours = vec![0; count];
    let mut first_free = vec![0; lists.bound()];
    let mut remaining: Vec<u32> = (0..count as u32).collect();
    let (mut batches, mut ends) = (Vec::new(), Vec::new());
    let mut colour = 0;
    while !remaining.is_empty() {
        remaining.retain(|i| {
            let numbers = lists.of(*i as usize);
            if numbers.iter().any(|x| first_free[*x as usize] > colour) {
                return true;
            }
            for x in numbers {
                first_free[*x as usize] = colour + 1;
            }
            colours[*i as usize] = colour;
            batches.push(*i);
            false
        });
        ends.push(batches.len());
        colour += 1;
    }
    (colours, batches, ends)
}

/// An index from each number to the colours of its iterations, in slots of one buffer.
#[inline(never)]
fn by_index(lists: &Lists) -> Colours {
    let count = lists.ends.len();
    let mut starts = vec![0usize; lists.bound() + 1];
    for x in &lists.items {
        starts[*x as usize + 1] += 1;
    }
    for x in 1..starts.len() {
        starts[x] += starts[x - 1];
    }
    let mut slot_ends = starts.clone();
    let mut slots = vec![0u32; lists.items.len()];
    let mut marks = vec![0u32; count + 1];
    let mut colours = Vec::with_capacity(count);
    for i in 0..count {
        let numbers = lists.of(i);
        for x in numbers {
            for colour in &slots[starts[*x as usize]..slot_ends[*x as usize]] {
                marks[*colour as usize] = i as u32 + 1;
            }
        }
        let colour = marks.iter().position(|mark| *mark != i as u32 + 1).unwrap() as u32;
        for x in numbers {
            let end = &mut slot_ends[*x as usize];
            slots[*end] = colour;
            *end += 1;
        }
        colours.push(colour);
    }
    let mut ends = vec![0usize; colours.iter().max().map_or(0, |c| *c as usize + 1) + 1];
    for colour in &colours {
        ends[*colour as usize + 1] += 1;
    }
    for colour in 1..ends.len() {
        ends[colour] += ends[colour - 1];
    }
    let mut batches = vec![0u32; count];
    for (i, colour) in colours.iter().enumerate() {
        batches[ends[*colour as usize]] = i as u32;
        ends[*colour as usize] += 1;
    }
    ends.pop();
    (colours, batches, ends)
}

fn time(file: &str, name: &str, colour: fn(&Lists) -> Colours) {
    let lists = read(file);
    let start = Instant::now();
    let (colours, batches, ends) = colour(&lists);
    let micros = start.elapsed().as_micros();
    assert_eq!(batches.len(), colours.len());
    let sum = colours.iter().fold(0u32, |sum, c| sum.wrapping_mul(31).wrapping_add(*c));
    println!("{file} {name} {micros} {} {sum}", ends.len());
}

fn main() {
    for file in ["edges", "faces"] {
        time(file, "sweeps", by_sweeps);
        time(file, "index", by_index);
    }
}
