//! Opening and closing a line.

use super::joining::join_up;
use super::paths::{is_closed, legal, length, same_node};
use super::search::{best_candidate, open_lines, Spot};
use super::{plan_in_mut, refused, Path, Plan, CLOSED, EMPTY, ROWS};
use crate::Record;

fn split_path(path: &mut Path, level: usize, d: u16) {
    let [weight, edge] = path[level];
    path.copy_within(level + 1..ROWS - 1, level + 2);
    path[level + 1] = [weight / d, edge / d];
    path[level] = [d, edge % d];
}

fn split_node(plan: &mut Plan, line: usize, level: usize, d: u16) {
    let node = plan[line];
    for path in plan {
        if same_node(&node, path, level) {
            split_path(path, level, d);
        }
    }
}

fn place_line(plan: &mut Plan, line: usize, spot: Spot, quotient: u16) {
    let level = spot.node.level;
    let mut path = CLOSED;
    path[..level].copy_from_slice(&plan[spot.node.line][..level]);
    path[level] = [spot.divisor, spot.class];
    if quotient != 1 {
        path[level + 1] = [quotient, 0];
    }
    plan[line] = path;
}

fn book_first(plan: &mut Plan, line: usize, period: u16) -> i64 {
    plan[line] = CLOSED;
    plan[line][0] = [period, 0];
    0
}

fn book_at(plan: &mut Plan, line: usize, period: u16, spot: Spot) -> i64 {
    let Spot { node, divisor, .. } = spot;
    let quotient = period / (node.step * divisor);
    if divisor < plan[node.line][node.level][0] {
        split_node(plan, node.line, node.level, divisor);
    }
    place_line(plan, line, spot, quotient);
    spot.start().into()
}

/// Opens a line in a plan that is a tree.
pub fn open_line(plan: &mut Plan, line: u64, period: u64) -> i64 {
    if 63 < line {
        return refused(1);
    }
    if period == 0 || 4095 < period {
        return refused(2);
    }
    let (line, period) = (line as usize, period as u16);
    if !is_closed(&plan[line]) {
        return refused(3);
    }
    let lines = open_lines(plan);
    if lines.is_empty() {
        return book_first(plan, line, period);
    }
    match best_candidate(lines, period) {
        Some(spot) => book_at(plan, line, period, spot),
        None => refused(5),
    }
}

/// Closes a line in a plan that is a tree. The nodes that remain above it are joined, where they can be.
pub fn close_line(plan: &mut Plan, line: u64) -> i64 {
    if 63 < line {
        return refused(1);
    }
    let line = line as usize;
    let path = plan[line];
    let count = length(&path);
    if count == 0 {
        return refused(4);
    }
    plan[line] = CLOSED;
    join_up(plan, &path[..count]);
    0
}

/// Opens a line in a plan record. A record that is no tree counts as the empty plan.
pub fn open(rows: &mut Record, line: u64, period: u64) -> i64 {
    let plan = plan_in_mut(rows);
    if legal(plan) {
        return open_line(plan, line, period);
    }
    let mut empty = EMPTY;
    let answer = open_line(&mut empty, line, period);
    if 0 <= answer {
        *plan = empty;
    }
    answer
}

/// Closes a line in a plan record.
pub fn close(rows: &mut Record, line: u64) -> i64 {
    let plan = plan_in_mut(rows);
    if legal(plan) {
        return close_line(plan, line);
    }
    match line {
        0..64 => refused(4),
        _ => refused(1),
    }
}
