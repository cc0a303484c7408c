//! Bytes that are an image or nearly one, drawn at random (document 02, Ask 9).

use crate::ask::{paths, Path, Row};
use crate::image::{fields, image, pack, Field};
use crate::random::Random;
use crate::tree::{Plan, LAST_LINE, LAST_PERIOD};

/// Any bytes, or the image of the plan or of a few drawn paths, mostly with something changed.
pub fn drawn_bytes(plan: &Plan, random: &mut Random) -> Vec<u8> {
    match random.below(6) {
        0 => any_bytes(random),
        1 => bits_turned(image(plan), random),
        2 => another_end(image(plan), random),
        3 => pack(&another_number(fields(&paths(plan)), random)),
        4 => pack(&fields(&another_path(paths(plan), random))),
        _ => pack(&fields(&drawn_paths(random))),
    }
}

fn any_bytes(random: &mut Random) -> Vec<u8> {
    let most = random.pick(&[2, 8, 64]);
    let length = random.below(most);
    (0..length).map(|_| random.draw() as u8).collect()
}

/// One bit to three, any of them.
fn bits_turned(mut bytes: Vec<u8>, random: &mut Random) -> Vec<u8> {
    for _ in 0..=random.below(3) {
        let bit = random.below(8 * bytes.len() as u64) as usize;
        turn_bit(&mut bytes, bit);
    }
    bytes
}

/// Each bit of at most so many bytes (`short`); of more bytes so many bits, drawn.
pub(crate) fn bits_to_turn(
    length: usize,
    short: usize,
    drawn: usize,
    random: &mut Random,
) -> Vec<usize> {
    let bits = 8 * length;
    if length <= short {
        return (0..bits).collect();
    }
    let any = |_| random.below(bits as u64) as usize;
    (0..drawn).map(any).collect()
}

/// Counted from the first byte's most significant one on.
pub(crate) fn turn_bit(bytes: &mut [u8], bit: usize) {
    bytes[bit / 8] ^= 0x80 >> (bit % 8);
}

/// The last bytes are taken away, some are added, or the last bit is turned: in an image a fill
/// bit (Ask 9, 2), since the widths of its fields never make whole bytes.
fn another_end(mut bytes: Vec<u8>, random: &mut Random) -> Vec<u8> {
    let (length, added) = (bytes.len(), 1 + random.below(3) as usize);
    match random.below(3) {
        0 => bytes.truncate(random.below(length as u64) as usize),
        1 => bytes.resize(length + added, random.pick(&[0x00, 0x01, 0x80, 0xff])),
        _ => turn_bit(&mut bytes, 8 * length - 1),
    }
    bytes
}

/// In one field, any that it can hold or one next to its own.
fn another_number(mut fields: Vec<Field>, random: &mut Random) -> Vec<Field> {
    let at = random.below(fields.len() as u64) as usize;
    let (number, width) = fields[at];
    let any = random.draw() as u16;
    let chosen = random.pick(&[any, number.wrapping_sub(1), number + 1, 0, 1]);
    fields[at].0 = chosen & ((1 << width) - 1);
    fields
}

/// One line has another number, the path of another line, a row less or a row more.
fn another_path(mut paths: Vec<Path>, random: &mut Random) -> Vec<Path> {
    if paths.is_empty() {
        return paths;
    }
    let at = random.below(paths.len() as u64) as usize;
    match random.below(4) {
        0 => paths[at].line = random.below(LAST_LINE + 1) as u8,
        1 => {
            let other = random.below(paths.len() as u64) as usize;
            paths[at].rows = paths[other].rows.clone();
        }
        2 => drop(paths[at].rows.pop()),
        _ => paths[at].rows.push(drawn_row(random)),
    }
    paths
}

/// Of up to four lines, mostly with rising numbers, each with one row to three.
fn drawn_paths(random: &mut Random) -> Vec<Path> {
    let mut lines: Vec<u8> = (0..random.below(5))
        .map(|_| random.below(LAST_LINE + 1) as u8)
        .collect();
    if random.below(6) > 0 {
        lines.sort_unstable();
    }
    let path = |line| {
        let rows = (0..=random.below(3)).map(|_| drawn_row(random));
        let rows = rows.collect();
        Path { line, rows }
    };
    lines.into_iter().map(path).collect()
}

/// Mostly a small weight above an edge that is below it.
fn drawn_row(random: &mut Random) -> Row {
    let any = random.below(LAST_PERIOD + 1);
    let weight = random.pick(&[2, 2, 2, 2, 2, 2, 2, 2, 2, 3, 1, any]);
    let below = random.below(weight.max(1));
    let edge = random.pick(&[below, below, below, below, below, below, below, weight, any]);
    Row {
        weight: weight as u16,
        edge: edge as u16,
    }
}
