//! The answers of a list, taken apart.

use crate::{Call, Refusal, Start};
use std::slice::Iter;

const ORDER_BYTES: usize = 3;
const ANSWER_BYTES: usize = 2;
const LONGEST_LIST: usize = 65_535;

/// What an order of a list did.
#[derive(Clone, Copy, Debug, PartialEq, Eq, Hash)]
pub enum Answered {
    /// It opened a line, which has this start.
    Booked(Start),
    /// It closed a line.
    Closed,
}

/// The answers of a list: what each order did or why it was refused, in the sequence of the orders.
///
/// The two bytes of a close that was done are those of an open with start 0. The orders tell which it was.
#[derive(Clone, Debug)]
pub struct Answers<'list> {
    orders: Iter<'list, [u8; ORDER_BYTES]>,
    answers: Iter<'list, [u8; ANSWER_BYTES]>,
}

/// How many answer bytes a list of so many bytes has.
pub(crate) fn answers_length(order_bytes: usize) -> usize {
    order_bytes / ORDER_BYTES * ANSWER_BYTES
}

/// What an answer to an order tells, `None` where no order is answered so.
fn answered(order: [u8; 3], answer: [u8; 2]) -> Option<Result<Answered, Refusal>> {
    let number = u16::from_be_bytes(answer);
    let (result, start) = (answer[0] >> 4, number & 0x0fff);
    match (Call::read(order), result, u64::from(start)) {
        (Ok(Call::Open(_, period)), 0, start) if start < period.0 => {
            Some(Ok(Answered::Booked(Start(start))))
        }
        (Ok(Call::Close(_)), 0, 0) => Some(Ok(Answered::Closed)),
        (Ok(Call::Open(..)), 2 | 3 | 5, 0) | (Ok(Call::Close(_)), 4, 0) | (Err(_), 6, 0) => {
            Refusal::numbered(result).map(Err)
        }
        _ => None,
    }
}

impl<'list> Answers<'list> {
    /// The answers of a list that was run before, from their bytes. Bytes after the last answer are not looked at.
    /// `None` where the orders are no list, or the bytes are too few or not such as its orders are answered with.
    pub fn of(orders: &'list [u8], answers: &'list [u8]) -> Option<Answers<'list>> {
        if orders.len() > LONGEST_LIST || !orders.len().is_multiple_of(ORDER_BYTES) {
            return None;
        }
        let written = answers.get(..answers_length(orders.len()))?;
        let list = Answers::written(orders, written);
        let mut pairs = list.orders.clone().zip(list.answers.clone());
        let all = pairs.all(|(&order, &answer)| answered(order, answer).is_some());
        all.then_some(list)
    }

    /// The answers that the library has written for these orders.
    pub(crate) fn written(orders: &'list [u8], answers: &'list [u8]) -> Answers<'list> {
        Answers {
            orders: orders.as_chunks().0.iter(),
            answers: answers.as_chunks().0.iter(),
        }
    }
}

impl Iterator for Answers<'_> {
    type Item = Result<Answered, Refusal>;

    fn next(&mut self) -> Option<Self::Item> {
        let (order, answer) = (self.orders.next()?, self.answers.next()?);
        Some(answered(*order, *answer).expect("the library answers no order otherwise"))
    }

    fn size_hint(&self) -> (usize, Option<usize>) {
        self.orders.size_hint()
    }
}

impl ExactSizeIterator for Answers<'_> {}
