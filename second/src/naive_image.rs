//! A second way to write and to read images, over strings of the characters 0 and 1, with the legal
//! trees of document 02, Ask 9, 3 told pair by pair. Only for tests.

use crate::ask::Row;
use crate::naive_joining::Paths;

/// What becomes of the bytes of a reading (Ask 9, 4 and 7).
#[derive(Clone, Debug, PartialEq, Eq)]
pub(crate) enum Reading {
    CutOff,
    OutOfRange,
    BytesBehind,
    FillBitIs1,
    IllegalTree,
    Taken(Paths),
}

impl Reading {
    /// The refusal's number, 0 for an image that is taken.
    pub(crate) fn number(&self) -> u8 {
        match self {
            Reading::CutOff | Reading::BytesBehind => 13,
            Reading::OutOfRange | Reading::FillBitIs1 | Reading::IllegalTree => 14,
            Reading::Taken(_) => 0,
        }
    }

    pub(crate) fn way(&self) -> &'static str {
        match self {
            Reading::CutOff => "field cut off",
            Reading::OutOfRange => "out of range",
            Reading::BytesBehind => "bytes behind",
            Reading::FillBitIs1 => "fill bit 1",
            Reading::IllegalTree => "illegal tree",
            Reading::Taken(_) => "taken",
        }
    }
}

/// The image of these paths (Ask 9, 2).
pub(crate) fn image_of(paths: &Paths) -> Vec<u8> {
    let mut bits = format!("{:07b}", paths.len());
    for (line, rows) in paths {
        bits += &format!("{line:06b}{:04b}", rows.len());
        for row in rows {
            bits += &format!("{:012b}{:012b}", row.weight, row.edge);
        }
    }
    while bits.len() % 8 > 0 {
        bits.push('0');
    }
    let starts = (0..bits.len()).step_by(8);
    let byte = |start: usize| u8::from_str_radix(&bits[start..start + 8], 2);
    starts.map(|start| byte(start).unwrap()).collect()
}

pub(crate) fn reading(bytes: &[u8]) -> Reading {
    let bits: String = bytes.iter().map(|byte| format!("{byte:08b}")).collect();
    let mut rest = bits.as_str();
    let lines = match lines(&mut rest) {
        Ok(lines) => lines,
        Err(reading) => return reading,
    };
    if rest.len() >= 8 {
        Reading::BytesBehind
    } else if rest.contains('1') {
        Reading::FillBitIs1
    } else if !is_legal(&lines) {
        Reading::IllegalTree
    } else {
        Reading::Taken(lines.into_iter().collect())
    }
}

type Lines = Vec<(u8, Vec<Row>)>;

/// Every field in its sequence, up to the first that is refused (Ask 9, 7 and 8).
fn lines(rest: &mut &str) -> Result<Lines, Reading> {
    let mut lines = Vec::new();
    for _ in 0..field(rest, 7, 0, 64)? {
        let line = field(rest, 6, 0, 63)? as u8;
        let mut rows = Vec::new();
        for _ in 0..field(rest, 4, 1, 11)? {
            let weight = field(rest, 12, 1, 4_095)?;
            let edge = field(rest, 12, 0, 4_095)?;
            rows.push(Row { weight, edge });
        }
        lines.push((line, rows));
    }
    Ok(lines)
}

fn field(rest: &mut &str, width: usize, least: u16, most: u16) -> Result<u16, Reading> {
    let (bits, after) = rest.split_at_checked(width).ok_or(Reading::CutOff)?;
    *rest = after;
    let number = u16::from_str_radix(bits, 2).unwrap();
    if number < least || number > most {
        return Err(Reading::OutOfRange);
    }
    Ok(number)
}

/// (Ask 9, 3), and the line numbers rise (Ask 9, 8).
fn is_legal(lines: &Lines) -> bool {
    let numbers: Vec<u8> = lines.iter().map(|it| it.0).collect();
    let is_rising = numbers.windows(2).all(|pair| pair[0] < pair[1]);
    let agree = |at: usize| {
        let (rows, others) = (&lines[at].1, &lines[..at]);
        others.iter().all(|(_, other)| stand_together(rows, other))
    };
    is_rising && lines.iter().all(|it| is_path(&it.1)) && (0..lines.len()).all(agree)
}

fn is_path(rows: &[Row]) -> bool {
    let period: u128 = rows.iter().map(|row| u128::from(row.weight)).product();
    let is_one_weight_1 = rows.len() == 1 && rows[0].weight == 1;
    rows.iter().all(|row| row.edge < row.weight)
        && (1..=4_095).contains(&period)
        && (is_one_weight_1 || rows.iter().all(|row| row.weight >= 2))
}

/// Neither line stands on the other's way or at its place, and the nodes that both come to have
/// the same weight in both.
fn stand_together(one: &[Row], two: &[Row]) -> bool {
    let edges = |rows: &[Row]| -> Vec<u16> { rows.iter().map(|row| row.edge).collect() };
    let are_equal = |level: usize| {
        let are_apart = edges(&one[..level]) != edges(&two[..level]);
        are_apart || one[level].weight == two[level].weight
    };
    !one.starts_with(two) && !two.starts_with(one) && (0..one.len().min(two.len())).all(are_equal)
}
