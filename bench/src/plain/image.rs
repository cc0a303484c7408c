//! The image of a plan: written into lent bytes, and read from bytes. Places and widths are counted in bits, from the most
//! significant bit of the first byte on.

use super::paths::{legal, length};
use super::{plan_in, plan_in_mut, refused, Path, Plan, Row, CLOSED, EMPTY, LINES};
use crate::Record;

/// The field of a word that is so many bits wide and has its lowest bit at a place.
fn field_of(word: u64, width: usize, place: usize) -> u64 {
    (word >> place) & ((1 << width) - 1)
}

/// The byte at an index, 0 behind the last one.
fn byte_at(bytes: &[u8], index: usize) -> u64 {
    bytes.get(index).copied().unwrap_or(0).into()
}

/// The number of the field at a place. It stands in three bytes.
fn number_at(bytes: &[u8], at: usize, width: usize) -> u64 {
    let first = at / 8;
    let upper = byte_at(bytes, first) << 8 | byte_at(bytes, first + 1);
    let word = upper << 8 | byte_at(bytes, first + 2);
    field_of(word, width, 24 - at % 8 - width)
}

/// Writes a field behind the bits that stand in a buffer so far. The last byte that it begins is filled with zeros.
fn put_number(buffer: &mut [u8], at: usize, width: usize, number: u64) {
    let first = at / 8;
    let used = at % 8;
    let kept = if used == 0 {
        0
    } else {
        u64::from(buffer[first])
    };
    let word = kept << 16 | number << (24 - used - width);
    buffer[first] = (word >> 16) as u8;
    if 8 < used + width {
        buffer[first + 1] = (word >> 8) as u8;
    }
    if 16 < used + width {
        buffer[first + 2] = word as u8;
    }
}

/// How many lines are open, and how many bits their image has.
struct Size {
    lines: u64,
    bits: usize,
}

fn size_of(plan: &Plan) -> Size {
    let mut size = Size { lines: 0, bits: 7 };
    for path in plan {
        let rows = length(path);
        if rows != 0 {
            size.lines += 1;
            size.bits += 10 + 24 * rows;
        }
    }
    size
}

/// Writes the rows of a path, and answers the place behind them.
fn write_path(rows: &[Row], buffer: &mut [u8], at: usize) -> usize {
    for (k, &[weight, edge]) in rows.iter().enumerate() {
        put_number(buffer, at + 24 * k, 12, weight.into());
        put_number(buffer, at + 24 * k + 12, 12, edge.into());
    }
    at + 24 * rows.len()
}

/// Writes an open line, and answers the place behind it.
fn write_line(line: usize, path: &Path, buffer: &mut [u8], at: usize) -> usize {
    let count = length(path);
    if count == 0 {
        return at;
    }
    put_number(buffer, at, 6, line as u64);
    put_number(buffer, at + 6, 4, count as u64);
    write_path(&path[..count], buffer, at + 10)
}

/// In a plan that is a tree.
fn write_plan(plan: &Plan, buffer: &mut [u8]) -> i64 {
    let size = size_of(plan);
    let length = size.bits.div_ceil(8);
    if buffer.len() < length {
        return refused(8);
    }
    put_number(buffer, 0, 7, size.lines);
    let mut next = 7;
    for (line, path) in plan.iter().enumerate() {
        next = write_line(line, path, buffer, next);
    }
    length as i64
}

/// Writes the image of a plan record, and answers how many bytes it has. A record that is no tree counts as the empty plan.
pub fn write_image(rows: &Record, buffer: &mut [u8]) -> i64 {
    let plan = plan_in(rows);
    if legal(plan) {
        return write_plan(plan, buffer);
    }
    write_plan(&EMPTY, buffer)
}

/// What was read, and the place behind it.
struct Part<T> {
    value: T,
    next: usize,
}

/// The field of so many bits at a place: refused with 13 where bits of it are missing, then with 14 where its number is
/// out of range.
fn read_field(
    bytes: &[u8],
    at: usize,
    width: usize,
    least: u64,
    most: u64,
) -> Result<Part<u64>, i64> {
    let next = at + width;
    if bytes.len() < next.div_ceil(8) {
        return Err(refused(13));
    }
    let value = number_at(bytes, at, width);
    if !(least..=most).contains(&value) {
        return Err(refused(14));
    }
    Ok(Part { value, next })
}

fn read_row(bytes: &[u8], at: usize) -> Result<Part<Row>, i64> {
    let weight = read_field(bytes, at, 12, 1, 4095)?;
    let edge = read_field(bytes, weight.next, 12, 0, 4095)?;
    Ok(Part {
        value: [weight.value as u16, edge.value as u16],
        next: edge.next,
    })
}

/// So many rows, which become those of a path. Answers the place behind them.
fn read_path(bytes: &[u8], at: usize, count: usize, path: &mut Path) -> Result<usize, i64> {
    *path = CLOSED;
    let mut next = at;
    for row in &mut path[..count] {
        let read = read_row(bytes, next)?;
        *row = read.value;
        next = read.next;
    }
    Ok(next)
}

/// A line, whose path is written into the plan. Answers its number.
fn read_line(bytes: &[u8], at: usize, plan: &mut Plan) -> Result<Part<u64>, i64> {
    let number = read_field(bytes, at, 6, 0, LINES as u64 - 1)?;
    let count = read_field(bytes, number.next, 4, 1, 11)?;
    let path = &mut plan[number.value as usize];
    let next = read_path(bytes, count.next, count.value as usize, path)?;
    Ok(Part {
        value: number.value,
        next,
    })
}

/// So many lines. Answers whether their numbers rise, and the place behind them.
fn read_lines(bytes: &[u8], at: usize, count: u64, plan: &mut Plan) -> Result<Part<bool>, i64> {
    let mut rising = true;
    let mut least = 0;
    let mut next = at;
    for _ in 0..count {
        let line = read_line(bytes, next, plan)?;
        rising &= least <= line.value;
        least = line.value + 1;
        next = line.next;
    }
    Ok(Part {
        value: rising,
        next,
    })
}

fn read_plan(bytes: &[u8], plan: &mut Plan) -> Result<Part<bool>, i64> {
    let count = read_field(bytes, 0, 7, 0, LINES as u64)?;
    read_lines(bytes, count.next, count.value, plan)
}

/// The plan of an image. Behind the fields: refused with 13 for more bytes, with 14 for a set bit that fills the last one,
/// and with 14 where the lines make no tree.
fn read_tree(bytes: &[u8]) -> Result<Plan, i64> {
    let mut plan = EMPTY;
    let Part {
        value: rising,
        next,
    } = read_plan(bytes, &mut plan)?;
    let length = next.div_ceil(8);
    if length < bytes.len() {
        return Err(refused(13));
    }
    if number_at(bytes, next, 8 * length - next) != 0 {
        return Err(refused(14));
    }
    if !rising || !legal(&plan) {
        return Err(refused(14));
    }
    Ok(plan)
}

/// Reads an image into a plan record, which then has the image's tree.
pub fn read_image(rows: &mut Record, bytes: &[u8]) -> i64 {
    match read_tree(bytes) {
        Ok(plan) => {
            *plan_in_mut(rows) = plan;
            0
        }
        Err(answer) => answer,
    }
}
