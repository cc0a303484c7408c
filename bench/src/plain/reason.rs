//! What stands in the way of a period at a class of a node: the node's step, or a line.

use super::paths::{legal, length, same_node};
use super::search::{gcd, Node};
use super::{plan_in, refused, Plan, EMPTY};
use crate::Record;

/// What is answered where the node's step does not divide the period.
const STEP_DOES_NOT_DIVIDE: i64 = 64;

/// The node at a level of a line's path.
pub fn node_of(plan: &Plan, line: usize, level: usize) -> Node {
    let mut step = 1;
    let mut offset = 0;
    for [weight, edge] in &plan[line][..level] {
        offset += edge * step;
        step *= weight;
    }
    Node {
        line,
        level,
        step,
        offset,
    }
}

/// The node at a level and an offset, on the path of the line of smallest number that goes through it.
fn node_at(plan: &Plan, level: u64, offset: u64) -> Option<Node> {
    for (line, path) in plan.iter().enumerate() {
        if length(path) as u64 <= level {
            continue;
        }
        let node = node_of(plan, line, level as usize);
        if u64::from(node.offset) == offset {
            return Some(node);
        }
    }
    None
}

/// The line of smallest number that takes an edge of this class modulo d at a node.
fn line_of_class(plan: &Plan, node: Node, d: u16, class: u64) -> Option<usize> {
    let path = &plan[node.line];
    plan.iter().position(|other| {
        same_node(path, other, node.level) && u64::from(other[node.level][1] % d) == class
    })
}

fn reason_at(plan: &Plan, node: Node, period: u16, class: u64) -> i64 {
    if !period.is_multiple_of(node.step) {
        return STEP_DOES_NOT_DIVIDE;
    }
    let [weight, _] = plan[node.line][node.level];
    let d = gcd(weight, period / node.step);
    if u64::from(d) <= class {
        return refused(11);
    }
    match line_of_class(plan, node, d, class) {
        Some(line) => line as i64,
        None => refused(12),
    }
}

/// In a plan that is a tree.
fn reason_of(plan: &Plan, period: u64, level: u64, offset: u64, class: u64) -> i64 {
    if period == 0 || 4095 < period {
        return refused(2);
    }
    match node_at(plan, level, offset) {
        Some(node) => reason_at(plan, node, period as u16, class),
        None => refused(10),
    }
}

/// What stands in the way in a plan record: the line, or 64 where the node's step does not divide the period. A record
/// that is no tree counts as the empty plan.
pub fn reason(rows: &Record, period: u64, level: u64, offset: u64, class: u64) -> i64 {
    let plan = plan_in(rows);
    if legal(plan) {
        return reason_of(plan, period, level, offset, class);
    }
    reason_of(&EMPTY, period, level, offset, class)
}
