//! `second orders`: how often each outcome of reading and of packing comes about.
//! The README describes the output.

use crate::orders::{pack, read, Order, ORDER_BYTES};
use crate::refusal::Refusal;
use std::io::{self, Write};

/// 256 and 2^32 + 1 would be 0 and 1 if they were cut off.
const KINDS: [u64; 8] = [0, 1, 2, 3, 4, 256, (1 << 32) + 1, u64::MAX];
/// 256, 2^16 + 1 and 2^32 would be 0, 1 and 0 if they were cut off.
const LINES: [u64; 14] = [
    0,
    1,
    2,
    31,
    32,
    62,
    63,
    64,
    65,
    255,
    256,
    (1 << 16) + 1,
    1 << 32,
    u64::MAX,
];

#[derive(Default)]
struct Refusals {
    line: u64,
    period: u64,
    order: u64,
    otherwise: u64,
}

impl Refusals {
    fn add(&mut self, refusal: Refusal) {
        *match refusal {
            Refusal::Line => &mut self.line,
            Refusal::Period => &mut self.period,
            Refusal::Order => &mut self.order,
            _ => &mut self.otherwise,
        } += 1;
    }

    fn print(&self, out: &mut impl Write) -> io::Result<()> {
        writeln!(out, "refused 1 {}", self.line)?;
        writeln!(out, "refused 2 {}", self.period)?;
        writeln!(out, "refused 6 {}", self.order)?;
        writeln!(out, "refused otherwise {}", self.otherwise)
    }
}

/// A digest of 32 bits, which depends on the sequence.
#[derive(Default)]
struct Digest(u32);

impl Digest {
    fn add(&mut self, value: u32) {
        self.0 = self.0.wrapping_mul(31).wrapping_add(value);
    }
}

fn bytes_of(word: u32) -> [u8; ORDER_BYTES] {
    let [_, first, second, third] = word.to_be_bytes();
    [first, second, third]
}

fn word_of([first, second, third]: [u8; ORDER_BYTES]) -> u32 {
    u32::from_be_bytes([0, first, second, third])
}

/// Every order of 24 bits, read and packed back.
fn print_reading(out: &mut impl Write) -> io::Result<()> {
    let (mut opens, mut closes, mut same) = (0u64, 0u64, 0u64);
    let (mut refusals, mut digest) = (Refusals::default(), Digest::default());
    for word in 0..1 << 24 {
        let bytes = bytes_of(word);
        let packed = match read(bytes) {
            Ok(Order::Open { line, period }) => {
                opens += 1;
                digest.add(line.into());
                digest.add(period.into());
                pack(0, line.into(), period.into())
            }
            Ok(Order::Close { line }) => {
                closes += 1;
                digest.add(line.into());
                pack(1, line.into(), 0)
            }
            Err(refusal) => {
                refusals.add(refusal);
                continue;
            }
        };
        same += u64::from(packed == Ok(bytes));
    }
    writeln!(out, "reading")?;
    writeln!(out, "open {opens}")?;
    writeln!(out, "close {closes}")?;
    refusals.print(out)?;
    writeln!(out, "packed to the same bytes {same}")?;
    writeln!(out, "digest {}", digest.0)
}

/// Every period of 16 bits with each of the lines, packed and read back.
fn print_packing(kind: u64, out: &mut impl Write) -> io::Result<()> {
    let (mut packed, mut same) = (0u64, 0u64);
    let (mut refusals, mut digest) = (Refusals::default(), Digest::default());
    for line in LINES {
        for period in 0..=u16::MAX {
            match pack(kind, line, period.into()) {
                Ok(bytes) => {
                    packed += 1;
                    digest.add(word_of(bytes));
                    let back = match read(bytes) {
                        Ok(Order::Open { line, period }) => Some((0, line.into(), period)),
                        Ok(Order::Close { line }) => Some((1, line.into(), 0)),
                        Err(_) => None,
                    };
                    same += u64::from(back == Some((kind, line, period)));
                }
                Err(refusal) => refusals.add(refusal),
            }
        }
    }
    writeln!(out, "packing kind {kind}")?;
    writeln!(out, "packed {packed}")?;
    refusals.print(out)?;
    writeln!(out, "read back {same}")?;
    writeln!(out, "digest {}", digest.0)
}

pub fn print(out: &mut impl Write) -> io::Result<()> {
    print_reading(out)?;
    KINDS.iter().try_for_each(|&kind| print_packing(kind, out))
}

#[cfg(test)]
mod tests {
    use super::*;

    /// The counts, worked out by hand from the rules.
    #[test]
    fn counts_are_those_of_the_rules() {
        let mut out = Vec::new();
        print(&mut out).unwrap();
        let text = String::from_utf8(out).unwrap();
        let lines: Vec<&str> = text.lines().collect();
        assert_eq!(lines.len(), 9 + 8 * 8);
        let read = format!("packed to the same bytes {}", 64 * 4096 + 64);
        assert_eq!(lines[1..3], ["open 262144", "close 64"]);
        assert_eq!(
            lines[5],
            format!("refused 6 {}", (1 << 24) - 64 * 4096 - 64)
        );
        assert_eq!(lines[7], read);
        // seven of the lines are below 64, seven are not
        let open = [
            "packing kind 0".to_string(),
            format!("packed {}", 7 * 4096),
            format!("refused 1 {}", 7 * 65536),
            format!("refused 2 {}", 7 * (65536 - 4096)),
            "refused 6 0".to_string(),
            "refused otherwise 0".to_string(),
            format!("read back {}", 7 * 4096),
        ];
        assert_eq!(lines[9..16], open);
        let close = ["packed 7".to_string(), format!("refused 1 {}", 7 * 65536)];
        assert_eq!(lines[18..20], close);
        assert_eq!(lines[21], format!("refused 6 {}", 7 * 4095));
        for kind in 2..8 {
            assert_eq!(lines[9 + 8 * kind + 1], "packed 0");
            assert_eq!(lines[9 + 8 * kind + 4], format!("refused 6 {}", 14 * 65536));
        }
    }
}
