//! Yardsticks for sequential runs: hand-written loops over arrays, in plain Rust without proofs, that write the texts of the programs in
//! bench/runs. `runs KIND NODE ELE` reads the mesh as bench/yardstick.rs does, by the rules of docs/MESH-TEXT.md. It writes to standard
//! error the seconds that the loops alone took, after reading and before writing.

use std::io::{self, BufWriter, Write};
use std::process::ExitCode;
use std::time::Instant;

#[allow(dead_code)]
#[path = "yardstick.rs"]
mod yardstick;

use yardstick::Cell;

/// The second side of a face at the boundary.
const NO_CELL: u32 = u32::MAX;

/// The cells beside each face, by ascending number. The faces are in the order of their sorted corners.
fn face_sides(cells: &[Cell]) -> Vec<[u32; 2]> {
    let mut keys = Vec::with_capacity(4 * cells.len());
    for (id, cell) in cells.iter().enumerate() {
        let mut corners = cell.corners;
        corners.sort_unstable();
        let [a, b, c, d] = corners;
        keys.extend([[a, b, c], [a, b, d], [a, c, d], [b, c, d]].map(|face| (face, id as u32)));
    }
    keys.sort_unstable();
    let same_face = |x: &([u32; 3], u32), y: &([u32; 3], u32)| x.0 == y.0;
    let sides = |group: &[([u32; 3], u32)]| [group[0].1, group.get(1).map_or(NO_CELL, |key| key.1)];
    keys.chunk_by(same_face).map(sides).collect()
}

/// Twenty steps of heat flow: the sum, and the heat of each cell.
fn heat(cells: usize, sides: &[[u32; 2]]) -> (i64, Vec<i64>) {
    let mut heat: Vec<i64> = (0..cells as i64).map(|id| id * 1000).collect();
    for _ in 0..20 {
        let mut flow = vec![0; sides.len()];
        for (flow, &[inside, outside]) in flow.iter_mut().zip(sides) {
            if outside != NO_CELL {
                *flow = (heat[inside as usize] - heat[outside as usize]) / 8;
            }
        }
        for (flow, &[inside, outside]) in flow.iter().zip(sides) {
            if outside != NO_CELL {
                heat[inside as usize] -= flow;
                heat[outside as usize] += flow;
            }
        }
    }
    (heat.iter().sum(), heat)
}

/// Five fields of the cells.
fn fields(cells: usize) -> [Vec<i64>; 5] {
    let mut fields = [0; 5].map(|first| vec![first; cells]);
    for id in 0..cells {
        let n = id as i64;
        for (field, value) in fields.iter_mut().zip([n, 3 * n, -n, n * n, n % 7]) {
            field[id] = value;
        }
    }
    fields
}

/// The squares of the first numbers.
fn squares() -> Vec<i64> {
    (0..65536).map(|n| n * n).collect()
}

fn write_field(out: &mut impl Write, name: &str, values: &[i64]) -> io::Result<()> {
    for (id, value) in values.iter().enumerate() {
        writeln!(out, "{name} {id} {value}")?;
    }
    Ok(())
}

fn main() -> io::Result<ExitCode> {
    let words: Vec<String> = std::env::args().skip(1).collect();
    let [kind, node, ele] = &words[..] else {
        return Ok(ExitCode::from(1));
    };
    let Ok(cells) = yardstick::mesh(&std::fs::read(node)?, &std::fs::read(ele)?) else {
        return Ok(ExitCode::from(3));
    };
    let mut out = BufWriter::new(io::stdout().lock());
    let seconds = match &kind[..] {
        "heat" => {
            let sides = face_sides(&cells);
            let start = Instant::now();
            let (sum, heat) = heat(cells.len(), &sides);
            let seconds = start.elapsed().as_secs_f64();
            writeln!(out, "{sum}")?;
            write_field(&mut out, "T", &heat)?;
            seconds
        }
        "fields" => {
            let start = Instant::now();
            let fields = fields(cells.len());
            let seconds = start.elapsed().as_secs_f64();
            for (name, values) in ["A", "B", "C", "D", "E"].into_iter().zip(&fields) {
                write_field(&mut out, name, values)?;
            }
            seconds
        }
        "prints" => {
            let start = Instant::now();
            let squares = squares();
            let seconds = start.elapsed().as_secs_f64();
            for number in squares {
                writeln!(out, "{number}")?;
            }
            seconds
        }
        _ => return Ok(ExitCode::from(1)),
    };
    out.flush()?;
    eprintln!("{seconds}");
    Ok(ExitCode::SUCCESS)
}
