//! The program `book`: a list of orders from standard input, run on an empty plan and printed.

use super::list::{run_list, Order};
use super::refused;
use std::io::{self, Read, Write};

const HEADER: &str = "order kind line period result start\n";

/// Room for an order's line: six words of at most 5, 1, 2, 4, 1 and 4 digits, and what stands between them.
const LINE: usize = 23;

/// Room for the longest list and a little more, so that its end is seen without more room.
const ROOM: usize = 65_536;

fn push_number(text: &mut Vec<u8>, number: u16) {
    let mut digits = [0; 5];
    let mut rest = number;
    let mut at = digits.len();
    loop {
        at -= 1;
        digits[at] = b'0' + (rest % 10) as u8;
        rest /= 10;
        if rest == 0 {
            break;
        }
    }
    text.extend_from_slice(&digits[at..]);
}

fn push_order(text: &mut Vec<u8>, number: u16, order: &Order, answer: u16) {
    let (result, start) = (answer >> 12, answer & 4095);
    let (kind, line) = (u16::from(order.kind), u16::from(order.line));
    for word in [number, kind, line, order.period, result] {
        push_number(text, word);
        text.push(b' ');
    }
    if kind == 0 && result == 0 {
        push_number(text, start);
    } else {
        text.push(b'-');
    }
    text.push(b'\n');
}

/// The whole output for a list.
fn book(list: &[u8]) -> Vec<u8> {
    let (orders, _) = list.as_chunks::<3>();
    let mut answers = vec![0; 2 * orders.len()];
    let answer = run_list(&mut [0; 1408], list, &mut answers);
    let mut text = Vec::with_capacity(HEADER.len() + LINE * orders.len());
    text.extend_from_slice(HEADER.as_bytes());
    if answer == refused(7) {
        text.extend_from_slice(b"list 7\n");
        return text;
    }
    let (answers, _) = answers.as_chunks::<2>();
    for (number, (order, answer)) in (1..).zip(orders.iter().zip(answers)) {
        push_order(
            &mut text,
            number,
            &Order::of(order),
            u16::from_be_bytes(*answer),
        );
    }
    text
}

/// Reads standard input and writes what `book` prints to standard output.
pub fn run() -> io::Result<()> {
    let mut list = Vec::with_capacity(ROOM);
    io::stdin().lock().read_to_end(&mut list)?;
    io::stdout().lock().write_all(&book(&list))
}
