//! The owner of a round, and the rest of an idle one. The walk and the times of a line are the sheet's too.

use super::paths::{is_closed, legal, same_node};
use super::{plan_in, Path, Plan, LINES, ROWS};
use crate::Record;

/// What is answered for an idle round, less its rest.
const IDLE: i64 = 64;

/// Stands for the rest while no open line is seen: a rest is at most 4,094.
const NO_LINE: u64 = 4_095;

/// The line of smallest number that takes this edge of the node at a level of a path.
fn line_under(plan: &Plan, path: &Path, level: usize, edge: u16) -> Option<usize> {
    plan.iter()
        .position(|other| other[level][1] == edge && same_node(path, other, level))
}

fn ends_below(path: &Path, level: usize) -> bool {
    path.get(level + 1).is_none_or(|row| row[0] == 0)
}

/// What the round that comes so many after another leaves, divided by a number. It may be past 2^64.
fn remainder_ahead(round: u64, ahead: u16, divisor: u64) -> u64 {
    let sum = round % divisor + u64::from(ahead);
    if sum < divisor {
        return sum;
    }
    sum % divisor
}

/// The owner of the round that comes so many after another. The walk goes down from the root, at each node to the edge
/// that the round selects by the steps of the node and of its child.
pub fn owner_of(plan: &Plan, round: u64, ahead: u16) -> Option<usize> {
    let mut line = (0..LINES).find(|&line| !is_closed(&plan[line]))?;
    let mut step = 1;
    for level in 0..ROWS {
        let child_step = step * u64::from(plan[line][level][0]);
        let edge = remainder_ahead(round, ahead, child_step) / step;
        line = line_under(plan, &plan[line], level, edge as u16)?;
        if ends_below(&plan[line], level) {
            return Some(line);
        }
        step = child_step;
    }
    None
}

/// The period and the start of a line.
#[derive(Clone, Copy)]
pub struct Times {
    pub period: u64,
    pub start: u64,
}

pub fn times_of(path: &Path) -> Times {
    let mut product: u16 = 1;
    let mut sum: u16 = 0;
    for &[weight, edge] in path {
        if weight == 0 {
            break;
        }
        sum += edge * product;
        product *= weight;
    }
    Times {
        period: product.into(),
        start: sum.into(),
    }
}

/// How many rounds lie from a round to the next one of a line with these times.
pub fn until_turn(Times { period, start }: Times, round: u64) -> u64 {
    let passed = round % period;
    if passed <= start {
        return start - passed;
    }
    start + period - passed
}

/// How many rounds lie from an idle round to the next owned one, 0 in the empty plan only.
fn rest_of(plan: &Plan, round: u64) -> u64 {
    let mut least = NO_LINE;
    for path in plan {
        if !is_closed(path) {
            least = least.min(until_turn(times_of(path), round));
        }
    }
    match least {
        NO_LINE => 0,
        _ => least,
    }
}

/// The line that owns a round, or 64 plus the rest. A record that is no tree counts as the empty plan.
pub fn owner(rows: &Record, round: u64) -> i64 {
    let plan = plan_in(rows);
    if !legal(plan) {
        return IDLE;
    }
    match owner_of(plan, round, 0) {
        Some(line) => line as i64,
        None => IDLE + rest_of(plan, round) as i64,
    }
}
