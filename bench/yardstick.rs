//! A yardstick for the program's time and memory: the same mesh text, the same faults and the same one loop, in plain Rust
//! without proofs. `yardstick NODE ELE` reads both files whole, tests them by the rules of docs/MESH-TEXT.md, finds cells that
//! come twice and faces of three cells by sorting, and prints what `seq add.liszt NODE ELE` prints. With a third word, `tables`, it finds the
//! edges and the faces by sorting instead, and prints how many of each there are.

use std::collections::BTreeMap;
use std::io::{self, BufWriter, Write};
use std::process::ExitCode;

const RANGE: u128 = 1_000_000_000_000_000;

/// The name of a fault, or a limit that is passed.
pub enum Fault {
    Mesh(&'static str, &'static str, usize),
    Limit(&'static str, usize),
}

type Checked<T> = Result<T, &'static str>;

/// What stands in the header's place of each word, with the numbers that the missing words stand for.
const NODE_HEADER: [i64; 4] = [0, 3, 0, 0];
const ELE_HEADER: [i64; 3] = [0, 4, 0];

struct Rows<'a> {
    rest: &'a [u8],
    line: usize,
}

impl<'a> Rows<'a> {
    /// Puts the words of the next row into the list and gives its line.
    fn next(&mut self, words: &mut Vec<&'a [u8]>) -> Option<usize> {
        while !self.rest.is_empty() {
            let end = self.rest.iter().position(|&b| b == b'\n');
            let line = &self.rest[..end.unwrap_or(self.rest.len())];
            self.rest = end.map_or(&[], |end| &self.rest[end + 1..]);
            self.line += 1;
            let line = line.strip_suffix(b"\r").unwrap_or(line);
            let text = line.split(|&b| b == b'#').next().unwrap_or(line);
            words.clear();
            words.extend(
                text.split(|&b| b == b' ' || b == b'\t')
                    .filter(|word| !word.is_empty()),
            );
            if !words.is_empty() {
                return Some(self.line);
            }
        }
        None
    }
}

fn without_sign(word: &[u8]) -> (bool, &[u8]) {
    match word {
        [b'-', digits @ ..] => (true, digits),
        [b'+', digits @ ..] => (false, digits),
        digits => (false, digits),
    }
}

fn whole(word: &[u8]) -> Option<i64> {
    let (minus, digits) = without_sign(word);
    if digits.is_empty() || digits.len() > 18 || !digits.iter().all(u8::is_ascii_digit) {
        return None;
    }
    let value = digits
        .iter()
        .fold(0, |value, &b| value * 10 + i64::from(b - b'0'));
    Some(if minus { -value } else { value })
}

/// A coordinate or an attribute in millionths.
fn real(word: &[u8]) -> Checked<i64> {
    if word.len() > 64 {
        return Err("BadNumber");
    }
    let (minus, rest) = without_sign(word);
    let mark = rest.iter().position(|&b| b == b'e' || b == b'E');
    let mantissa = &rest[..mark.unwrap_or(rest.len())];
    let point = mantissa
        .iter()
        .position(|&b| b == b'.')
        .unwrap_or(mantissa.len());
    let fraction = mantissa.get(point + 1..).unwrap_or(&[]);
    let digits = || mantissa[..point].iter().chain(fraction);
    if digits().next().is_none() || !digits().all(u8::is_ascii_digit) {
        return Err("BadNumber");
    }
    let mut exponent = 0i64;
    if let Some(mark) = mark {
        let (down, size) = without_sign(&rest[mark + 1..]);
        if size.is_empty() || !size.iter().all(u8::is_ascii_digit) {
            return Err("BadNumber");
        }
        let size = size.iter().fold(0, |size: i64, &b| {
            (size * 10 + i64::from(b - b'0')).min(1000)
        });
        exponent = if down { -size } else { size };
    }
    // the places that are kept: those in front of the millionths' point
    let kept = point as i64 + exponent + 6;
    let mut value = 0u128;
    for (place, &b) in digits().enumerate() {
        if place as i64 >= kept {
            break;
        }
        value = (value * 10 + u128::from(b - b'0')).min(RANGE + 1);
    }
    let count = digits().count() as i64;
    for _ in count..kept {
        value = (value * 10).min(RANGE + 1);
        if value == 0 {
            break;
        }
    }
    if value > RANGE {
        return Err("CoordRange");
    }
    Ok(if minus { -(value as i64) } else { value as i64 })
}

/// The numbers of a header, and of the words that are missing.
fn header<const N: usize>(words: &[&[u8]], mut numbers: [i64; N]) -> Checked<[i64; N]> {
    if words.len() > N {
        return Err("Header");
    }
    for (number, word) in numbers.iter_mut().zip(words) {
        *number = whole(word).ok_or("Header")?;
    }
    if numbers[0] < 0 {
        Err("Header")
    } else {
        Ok(numbers)
    }
}

fn row_fits(words: &[&[u8]], wanted: usize, place: usize, count: usize) -> Checked<()> {
    if place >= count {
        Err("Extra")
    } else if words.len() < wanted {
        Err("Missing")
    } else if words.len() > wanted {
        Err("Extra")
    } else {
        Ok(())
    }
}

/// Tests the row's number. The first one, 0 or 1, is kept.
fn row_number(word: &[u8], place: usize, first: &mut i64) -> Checked<()> {
    let number = whole(word).ok_or("BadNumber")?;
    if place == 0 {
        *first = i64::from(number == 1);
    }
    if number == *first + place as i64 {
        Ok(())
    } else {
        Err("NumberOrder")
    }
}

struct Point {
    _at: [i64; 3],
    _mark: i64,
}

fn point(words: &[&[u8]], attributes: usize, markers: usize) -> Checked<Point> {
    let at = [real(words[1])?, real(words[2])?, real(words[3])?];
    for word in &words[4..4 + attributes] {
        real(word)?;
    }
    let mut mark = 0;
    if markers == 1 {
        mark = whole(words[4 + attributes]).ok_or("BadNumber")?;
    }
    Ok(Point {
        _at: at,
        _mark: mark,
    })
}

fn points(bytes: &[u8]) -> Result<(Vec<Point>, i64), Fault> {
    let (mut rows, mut words) = (
        Rows {
            rest: bytes,
            line: 0,
        },
        Vec::new(),
    );
    let at = |line| move |what| Fault::Mesh("node", what, line);
    let Some(line) = rows.next(&mut words) else {
        return Err(at(rows.line)("Header"));
    };
    let [count, dimension, attributes, markers] = header(&words, NODE_HEADER).map_err(at(line))?;
    if count > 200_000 {
        return Err(Fault::Limit("Points", 200_000));
    }
    if dimension != 3 {
        return Err(at(line)("Dimension"));
    }
    if !(0..=64).contains(&attributes) || !(0..=1).contains(&markers) {
        return Err(at(line)("Header"));
    }
    let (count, attributes, markers) = (count as usize, attributes as usize, markers as usize);
    let (mut list, mut base) = (Vec::with_capacity(count), 0);
    while let Some(line) = rows.next(&mut words) {
        row_fits(&words, 4 + attributes + markers, list.len(), count).map_err(at(line))?;
        row_number(words[0], list.len(), &mut base).map_err(at(line))?;
        list.push(point(&words, attributes, markers).map_err(at(line))?);
    }
    if list.len() < count {
        return Err(at(rows.line)("Missing"));
    }
    Ok((list, base))
}

pub struct Cell {
    pub corners: [u32; 4],
    _region: i64,
    line: u32,
}

fn cell(words: &[&[u8]], points: usize, base: i64, line: usize) -> Checked<Cell> {
    let mut corners = [0; 4];
    for (corner, word) in corners.iter_mut().zip(&words[1..5]) {
        let number = whole(word).ok_or("BadNumber")?;
        if number < base || number >= base + points as i64 {
            return Err("CornerRange");
        }
        *corner = (number - base) as u32;
    }
    let mut region = 0;
    for (place, word) in words[5..].iter().enumerate() {
        let value = real(word)?;
        if place == 0 {
            region = value;
        }
    }
    let [a, b, c, d] = corners;
    if a == b || a == c || a == d || b == c || b == d || c == d {
        return Err("CornerTwice");
    }
    Ok(Cell {
        corners,
        _region: region,
        line: line as u32,
    })
}

fn cells(bytes: &[u8], points: usize, base: i64) -> Result<Vec<Cell>, Fault> {
    let (mut rows, mut words) = (
        Rows {
            rest: bytes,
            line: 0,
        },
        Vec::new(),
    );
    let at = |line| move |what| Fault::Mesh("ele", what, line);
    let Some(line) = rows.next(&mut words) else {
        return Err(at(rows.line)("Header"));
    };
    let [count, corners, attributes] = header(&words, ELE_HEADER).map_err(at(line))?;
    if count > 1_000_000 {
        return Err(Fault::Limit("Cells", 1_000_000));
    }
    if corners == 10 {
        return Err(at(line)("SecondOrder"));
    }
    if corners != 4 || !(0..=64).contains(&attributes) {
        return Err(at(line)("Header"));
    }
    let (count, attributes) = (count as usize, attributes as usize);
    let (mut list, mut first) = (Vec::with_capacity(count), 0);
    while let Some(line) = rows.next(&mut words) {
        row_fits(&words, 5 + attributes, list.len(), count).map_err(at(line))?;
        row_number(words[0], list.len(), &mut first).map_err(at(line))?;
        list.push(cell(&words, points, base, line).map_err(at(line))?);
    }
    if list.len() < count {
        return Err(at(rows.line)("Missing"));
    }
    Ok(list)
}

/// The least place that stands in a run of equal keys behind so many others.
fn least_behind<const N: usize>(keys: &mut [([u32; N], u32)], others: usize) -> Option<u32> {
    keys.sort_unstable();
    let behind = keys.iter().zip(keys.get(others..).unwrap_or(&[]));
    behind
        .filter(|(early, late)| early.0 == late.0)
        .map(|(_, late)| late.1)
        .min()
}

fn fit_together(cells: &[Cell]) -> Result<(), Fault> {
    let ordered = |cell: &Cell| {
        let mut corners = cell.corners;
        corners.sort_unstable();
        corners
    };
    let fault = |what, place: u32| Fault::Mesh("ele", what, cells[place as usize].line as usize);
    let mut keys: Vec<_> = cells.iter().map(ordered).zip(0u32..).collect();
    if let Some(place) = least_behind(&mut keys, 1) {
        return Err(fault("CellTwice", place));
    }
    let faces = |(key, place): &([u32; 4], u32)| {
        let ([a, b, c, d], place) = (*key, *place);
        [
            ([b, c, d], place),
            ([a, c, d], place),
            ([a, b, d], place),
            ([a, b, c], place),
        ]
    };
    let mut keys: Vec<_> = keys.iter().flat_map(faces).collect();
    match least_behind(&mut keys, 2) {
        Some(place) => Err(fault("FaceShared", place)),
        None => Ok(()),
    }
}

/// The cells of a mesh, or the first fault of its two files.
pub fn mesh(node: &[u8], ele: &[u8]) -> Result<Vec<Cell>, Fault> {
    let (points, base) = points(node)?;
    let cells = cells(ele, points.len(), base)?;
    fit_together(&cells)?;
    Ok(cells)
}

/// The sets of so many corners, in order, each once.
fn in_order<const N: usize>(mut sets: Vec<[u32; N]>) -> Vec<[u32; N]> {
    sets.sort_unstable();
    sets.dedup();
    sets
}

/// The edges and the faces, in order.
fn tables(cells: &[Cell]) -> (Vec<[u32; 2]>, Vec<[u32; 3]>) {
    let (mut edges, mut faces) = (Vec::new(), Vec::new());
    for cell in cells {
        let mut corners = cell.corners;
        corners.sort_unstable();
        let [a, b, c, d] = corners;
        edges.extend([[a, b], [a, c], [a, d], [b, c], [b, d], [c, d]]);
        faces.extend([[a, b, c], [a, b, d], [a, c, d], [b, c, d]]);
    }
    (in_order(edges), in_order(faces))
}

fn main() -> io::Result<ExitCode> {
    let names: Vec<String> = std::env::args().skip(1).collect();
    let (node, ele, with_tables) = match &names[..] {
        [node, ele] => (node, ele, false),
        [node, ele, word] if word == "tables" => (node, ele, true),
        _ => return Ok(ExitCode::from(1)),
    };
    let mut out = BufWriter::new(io::stdout().lock());
    let status = match mesh(&std::fs::read(node)?, &std::fs::read(ele)?) {
        Ok(cells) if with_tables => {
            let (edges, faces) = tables(&cells);
            writeln!(out, "edges {} faces {}", edges.len(), faces.len())?;
            0
        }
        Ok(cells) => {
            let mut field = vec![5i64; cells.len()];
            for value in &mut field {
                *value += 2;
            }
            let fields = BTreeMap::from([("A", field)]);
            for (name, values) in &fields {
                for (id, value) in values.iter().enumerate() {
                    writeln!(out, "{name} {id} {value}")?;
                }
            }
            0
        }
        Err(Fault::Mesh(file, what, line)) => {
            writeln!(out, "mesh {file} {what} line {line}")?;
            3
        }
        Err(Fault::Limit(what, limit)) => {
            writeln!(out, "limit {what} over {limit}")?;
            6
        }
    };
    out.flush()?;
    Ok(ExitCode::from(status))
}
