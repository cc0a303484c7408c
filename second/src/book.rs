//! The program `book` (document 01, section Orders).

use crate::orders::{fields, run, ANSWER_BYTES, ORDER_BYTES};
use crate::tree::Plan;
use std::io::{self, Write};

pub const HEADER: &str = "order kind line period result start";

/// The whole output of `book` (Orders, 7), also for a refused list (Orders, 8).
/// The buffer is long enough, so that only refusal 7 can occur.
pub fn print(list: &[u8], out: &mut impl Write) -> io::Result<()> {
    writeln!(out, "{HEADER}")?;
    let mut answers = vec![0; list.len() / ORDER_BYTES * ANSWER_BYTES];
    if let Err(refusal) = run(&mut Plan::empty(), list, &mut answers) {
        return writeln!(out, "list {}", refusal.number());
    }
    let orders = list.chunks_exact(ORDER_BYTES);
    for (at, (order, answer)) in orders.zip(answers.chunks_exact(ANSWER_BYTES)).enumerate() {
        let bits = fields([order[0], order[1], order[2]]);
        let text = result_and_start(bits.kind, [answer[0], answer[1]]);
        let (number, kind, line, period) = (at + 1, bits.kind, bits.line, bits.period);
        writeln!(out, "{number} {kind} {line} {period} {text}")?;
    }
    Ok(())
}

/// The last two words of a printed order (Orders, 7).
fn result_and_start(kind: u8, answer: [u8; ANSWER_BYTES]) -> String {
    let word = u16::from_be_bytes(answer);
    let (result, start) = (word >> 12, word & 0xfff);
    if kind == 0 && result == 0 {
        format!("{result} {start}")
    } else {
        format!("{result} -")
    }
}

#[cfg(test)]
mod tests {
    use super::*;

    fn printed(list: &[u8]) -> String {
        let mut out = Vec::new();
        print(list, &mut out).unwrap();
        String::from_utf8(out).unwrap()
    }

    #[test]
    fn empty_input_prints_the_header() {
        assert_eq!(printed(&[]), "order kind line period result start\n");
    }

    #[test]
    fn refused_list_prints_header_and_list_7() {
        for length in [1, 2, 4, 65_534, 65_536, 65_538] {
            let expected = "order kind line period result start\nlist 7\n";
            assert_eq!(printed(&vec![0; length]), expected, "{length}");
        }
    }

    #[test]
    fn longest_list_prints_every_order() {
        let text = printed(&vec![0; 65_535]);
        assert_eq!(text.lines().count(), 21_846);
        assert_eq!(text.lines().last(), Some("21845 0 0 0 2 -"));
    }

    /// The fields of a malformed order are printed unchanged (Orders, 7).
    #[test]
    fn bits_are_printed_for_result_6() {
        let list = [
            0x81, 0x00, 0x60, 0xff, 0xff, 0xff, 0x01, 0x00, 0x61, 0x42, 0x12, 0x30,
        ];
        let expected = "order kind line period result start\n\
            1 2 1 6 6 -\n2 3 63 4095 6 -\n3 0 1 6 6 -\n4 1 2 291 6 -\n";
        assert_eq!(printed(&list), expected);
    }
}
