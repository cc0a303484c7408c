//! Document 01, section Orders: packing, reading and running a list.

use crate::refusal::Refusal;
use crate::tree::{check_line, Plan, Start, LAST_PERIOD};

/// In bytes (Orders, 6).
pub const LONGEST_LIST: usize = 65_535;
/// (Orders, 1).
pub const ORDER_BYTES: usize = 3;
/// Per order (Orders, 4).
pub const ANSWER_BYTES: usize = 2;

/// How many answer bytes a list of so many bytes has.
pub(crate) fn answers_length(length: usize) -> usize {
    length / ORDER_BYTES * ANSWER_BYTES
}

/// The four bit fields of an order, before any check (Orders, 1).
#[derive(Clone, Copy, Debug, PartialEq, Eq)]
pub struct Fields {
    pub kind: u8,
    pub line: u8,
    pub period: u16,
    pub filler: u8,
}

/// An order that reading does not refuse.
#[derive(Clone, Copy, Debug, PartialEq, Eq)]
pub enum Order {
    Open { line: u8, period: u16 },
    Close { line: u8 },
}

/// The first field holds the highest bits (Orders, 1).
pub fn fields(bytes: [u8; ORDER_BYTES]) -> Fields {
    Fields {
        kind: bytes[0] >> 6,
        line: bytes[0] & 0x3f,
        period: u16::from(bytes[1]) << 4 | u16::from(bytes[2]) >> 4,
        filler: bytes[2] & 0x0f,
    }
}

/// Period 0 passes here; the open itself refuses it (Refusals, sequence).
pub fn read(bytes: [u8; ORDER_BYTES]) -> Result<Order, Refusal> {
    let Fields {
        kind,
        line,
        period,
        filler,
    } = fields(bytes);
    match (kind, period, filler) {
        (0, _, 0) => Ok(Order::Open { line, period }),
        (1, 0, 0) => Ok(Order::Close { line }),
        _ => Err(Refusal::Order),
    }
}

/// Refusal 6 is the first and the last check (Refusals, sequence).
pub fn pack(kind: u64, line: u64, period: u64) -> Result<[u8; ORDER_BYTES], Refusal> {
    if kind > 1 {
        return Err(Refusal::Order);
    }
    let line = check_line(line)?;
    if period > LAST_PERIOD {
        return Err(Refusal::Period);
    }
    if kind == 1 && period != 0 {
        return Err(Refusal::Order);
    }
    let word = kind << 22 | u64::from(line) << 16 | period << 4;
    Ok([(word >> 16) as u8, (word >> 8) as u8, word as u8])
}

/// Reading comes before the checks of the call (Refusals, sequence).
/// The answer is the start, if a line was opened.
pub fn run_order(plan: &mut Plan, bytes: [u8; ORDER_BYTES]) -> Result<Option<Start>, Refusal> {
    match read(bytes)? {
        Order::Open { line, period } => plan.open(u64::from(line), u64::from(period)).map(Some),
        Order::Close { line } => plan.close(u64::from(line)).map(|()| None),
    }
}

/// The two answer fields, packed into 16 bits (Orders, 4).
fn answer_bytes(result: Result<Option<Start>, Refusal>) -> [u8; ANSWER_BYTES] {
    let word = match result {
        Ok(Some(start)) => start.0,
        Ok(None) => 0,
        Err(refusal) => u16::from(refusal.number()) << 12,
    };
    word.to_be_bytes()
}

/// The list is checked before its first order runs (Refusals, sequence). A refused order
/// does not end it (Orders, 5); only the needed answer bytes are written (Orders, 4).
pub fn run(plan: &mut Plan, list: &[u8], answers: &mut [u8]) -> Result<(), Refusal> {
    if !list.len().is_multiple_of(ORDER_BYTES) || list.len() > LONGEST_LIST {
        return Err(Refusal::ListLength);
    }
    let needed = list.len() / ORDER_BYTES * ANSWER_BYTES;
    if answers.len() < needed {
        return Err(Refusal::AnswerBuffer);
    }
    let places = answers[..needed].chunks_exact_mut(ANSWER_BYTES);
    for (order, place) in list.chunks_exact(ORDER_BYTES).zip(places) {
        let result = run_order(plan, [order[0], order[1], order[2]]);
        place.copy_from_slice(&answer_bytes(result));
    }
    Ok(())
}

#[cfg(test)]
mod tests {
    use super::*;

    /// All 2^24 triples, against the fields of the 24-bit number.
    #[test]
    fn every_triple_reads_and_packs_back() {
        let mut read_count = 0u32;
        for word in 0..1u32 << 24 {
            let bytes = [(word >> 16) as u8, (word >> 8) as u8, word as u8];
            let (kind, line) = (word >> 22, (word >> 16 & 63) as u8);
            let period = (word >> 4 & 4095) as u16;
            let refused = word & 15 != 0 || kind > 1 || kind == 1 && period != 0;
            let expected = match kind {
                _ if refused => Err(Refusal::Order),
                0 => Ok(Order::Open { line, period }),
                _ => Ok(Order::Close { line }),
            };
            assert_eq!(read(bytes), expected);
            if !refused {
                read_count += 1;
                let packed = pack(kind.into(), line.into(), period.into());
                assert_eq!(packed, Ok(bytes));
            }
        }
        assert_eq!(read_count, 64 * 4096 + 64);
    }

    /// Every kind, line and period up to a little above the field (Refusals, sequence).
    #[test]
    fn every_field_packs_and_reads_back() {
        for (kind, line) in (0..5).flat_map(|kind| (0..66).map(move |line| (kind, line))) {
            for period in 0..4_098 {
                let expected = if kind > 1 {
                    Err(Refusal::Order)
                } else if line > 63 {
                    Err(Refusal::Line)
                } else if period > 4_095 {
                    Err(Refusal::Period)
                } else if kind == 1 && period > 0 {
                    Err(Refusal::Order)
                } else {
                    Ok((kind, line, period, 0))
                };
                let back = pack(kind, line, period).map(|bytes| {
                    assert!(read(bytes).is_ok());
                    let it = fields(bytes);
                    (it.kind.into(), it.line.into(), it.period.into(), it.filler)
                });
                assert_eq!(back, expected, "{kind} {line} {period}");
            }
        }
    }

    #[test]
    fn packing_does_not_cut_large_numbers() {
        assert_eq!(pack(1 << 32, 0, 0), Err(Refusal::Order));
        assert_eq!(pack(0, 256, 1), Err(Refusal::Line));
        assert_eq!(pack(0, u64::MAX, 1), Err(Refusal::Line));
        assert_eq!(pack(0, 0, 65_537), Err(Refusal::Period));
        assert_eq!(pack(1, 0, u64::MAX), Err(Refusal::Period));
    }

    #[test]
    fn list_is_refused_7_before_8_and_changes_nothing() {
        let mut plan = Plan::empty();
        plan.open(5, 6).unwrap();
        let found = plan.clone();
        let long = [0u8; 65_538];
        for length in [1, 2, 4, 65_534, 65_536, 65_538] {
            let mut answers = [0xaa; 1];
            let result = run(&mut plan, &long[..length], &mut answers);
            assert_eq!(result, Err(Refusal::ListLength), "{length}");
            assert_eq!((&plan, answers), (&found, [0xaa; 1]));
        }
        let mut answers = [0xaa; 3];
        let result = run(&mut plan, &[1, 0, 0x60, 2, 0, 0x60], &mut answers);
        assert_eq!(result, Err(Refusal::AnswerBuffer));
        assert_eq!((&plan, answers), (&found, [0xaa; 3]));
    }

    #[test]
    fn longest_list_runs() {
        let list = pack(0, 7, 9).unwrap().repeat(21_845);
        assert_eq!(list.len(), LONGEST_LIST);
        let mut answers = vec![0xaa; 43_690];
        assert_eq!(run(&mut Plan::empty(), &list, &mut answers), Ok(()));
        assert_eq!(answers[..4], [0, 0, 0x30, 0]);
        assert!(answers[2..].chunks(2).all(|answer| answer == [0x30, 0]));
    }

    #[test]
    fn empty_list_writes_nothing() {
        let mut plan = Plan::empty();
        plan.open(5, 6).unwrap();
        let found = plan.clone();
        let mut answers = [0xaa; 2];
        assert_eq!(run(&mut plan, &[], &mut answers), Ok(()));
        assert_eq!((&plan, answers), (&found, [0xaa; 2]));
        assert_eq!(run(&mut plan, &[], &mut []), Ok(()));
    }

    /// A start above 255 needs both answer bytes; the rest of the buffer stays (Orders, 4).
    #[test]
    fn answers_are_result_4_bits_and_start_12_bits() {
        let mut plan = Plan::empty();
        let mut list = Vec::new();
        for power in 1..=11u64 {
            list.extend(pack(0, power, 1 << power).unwrap());
        }
        list.extend([0x00, 0x00, 0x00]); // open of period 0: 2
        list.extend([0x01, 0x00, 0x20]); // line 1 is open: 3
        list.extend([0x7f, 0x00, 0x00]); // close of line 63: 4
        list.extend([0x00, 0x00, 0x10]); // period 1: 5
        list.extend([0x80, 0x00, 0x00]); // kind 2: 6
        list.extend([0x4b, 0x00, 0x00]); // close of line 11: 0
        let mut answers = [0xaa; 40];
        assert_eq!(run(&mut plan, &list, &mut answers), Ok(()));
        assert_eq!(answers[18..22], [0x01, 0xff, 0x03, 0xff]);
        let rest = [0x20, 0, 0x30, 0, 0x40, 0, 0x50, 0, 0x60, 0, 0, 0];
        assert_eq!(answers[22..34], rest);
        assert_eq!(answers[34..], [0xaa; 6]);
    }

    /// Before the refusals of the call itself (Refusals, sequence): set filler bits before
    /// period 0 and before an open line.
    #[test]
    fn order_is_refused_6_first() {
        let mut plan = Plan::empty();
        plan.open(1, 6).unwrap();
        let found = plan.clone();
        for bytes in [
            [0x01, 0x00, 0x01],
            [0x01, 0x00, 0x68],
            [0x41, 0x00, 0x60],
            [0x41, 0x00, 0x04],
            [0x81, 0x00, 0x60],
            [0xc1, 0x00, 0x00],
        ] {
            assert_eq!(run_order(&mut plan, bytes), Err(Refusal::Order));
            assert_eq!(plan, found);
        }
    }
}
