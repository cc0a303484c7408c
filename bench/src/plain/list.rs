//! Running a list of orders.

use super::change::{close_line, open_line};
use super::paths::legal;
use super::{plan_in_mut, refused, Plan, EMPTY};
use crate::Record;

const MOST_BYTES: usize = 65_535;

/// The fields of an order as its bits say.
pub struct Order {
    pub kind: u8,
    pub line: u8,
    pub period: u16,
    filler: u8,
}

impl Order {
    pub fn of(&[first, second, third]: &[u8; 3]) -> Self {
        Order {
            kind: first >> 6,
            line: first & 63,
            period: u16::from(second) << 4 | u16::from(third) >> 4,
            filler: third & 15,
        }
    }
}

fn run_order(plan: &mut Plan, order: Order) -> i64 {
    let line = u64::from(order.line);
    match order {
        Order {
            kind: 0, filler: 0, ..
        } => open_line(plan, line, u64::from(order.period)),
        Order {
            kind: 1,
            period: 0,
            filler: 0,
            ..
        } => close_line(plan, line),
        _ => refused(6),
    }
}

/// The two bytes of an answer: the number of the refusal in the upper 4 bits, or the start in the others.
fn answer_bytes(number: i64) -> [u8; 2] {
    let answer = match number {
        0.. => number as u16,
        _ => (-number as u16) << 12,
    };
    answer.to_be_bytes()
}

/// The orders in turn. Answers whether any was carried out.
fn run_orders(plan: &mut Plan, orders: &[[u8; 3]], answers: &mut [[u8; 2]]) -> bool {
    let mut any = false;
    for (order, answer) in orders.iter().zip(answers) {
        let number = run_order(plan, Order::of(order));
        any |= 0 <= number;
        *answer = answer_bytes(number);
    }
    any
}

fn run_checked(plan: &mut Plan, orders: &[[u8; 3]], answers: &mut [[u8; 2]]) {
    if legal(plan) {
        run_orders(plan, orders, answers);
        return;
    }
    let mut empty = EMPTY;
    if run_orders(&mut empty, orders, answers) {
        *plan = empty;
    }
}

/// Runs a list of orders on a plan record, two bytes of answer for each.
pub fn run_list(rows: &mut Record, orders: &[u8], answers: &mut [u8]) -> i64 {
    let (orders, []) = orders.as_chunks() else {
        return refused(7);
    };
    if MOST_BYTES < 3 * orders.len() {
        return refused(7);
    }
    let (answers, _) = answers.as_chunks_mut();
    if answers.len() < orders.len() {
        return refused(8);
    }
    run_checked(plan_in_mut(rows), orders, answers);
    0
}
