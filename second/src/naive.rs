//! A second reading of the candidate rule and of the earliest start, over a flat list of the
//! nodes, of the form of the tree, of owner and sheet, by periods and starts, and of the reason, by
//! shown paths and starts. Only for tests.

use crate::ask::{show, Owner};
use crate::reason::{Asked, Reason};
use crate::refusal::Refusal;
use crate::sheet::{Sheet, LINES};
use crate::tree::{gcd, Node, Plan, Position, Under};
use std::collections::BTreeMap;

/// One node with its position.
pub(crate) struct Placed<'a> {
    pub(crate) node: &'a Node,
    pub(crate) position: Position,
}

/// All nodes of the plan.
pub(crate) fn nodes(plan: &Plan) -> Vec<Placed<'_>> {
    let mut open: Vec<Placed> = Vec::new();
    open.extend(plan.root.iter().map(|node| Placed {
        node,
        position: Position::root(),
    }));
    let mut at = 0;
    while at < open.len() {
        let (node, position) = (open[at].node, open[at].position.clone());
        for (&edge, under) in &node.edges {
            if let Under::Node(below) = under {
                open.push(Placed {
                    node: below,
                    position: position.under(node.weight, edge),
                });
            }
        }
        at += 1;
    }
    open
}

/// The weight of each node, by level and offset, which no two nodes share.
pub(crate) fn weights(plan: &Plan) -> BTreeMap<(usize, u16), u16> {
    let placed = nodes(plan).into_iter();
    placed
        .map(|it| ((it.position.level(), it.position.offset), it.node.weight))
        .collect()
}

/// All free classes, found by a pass over all w edge numbers (Opening a line, 2).
fn free_classes(node: &Node, d: u16) -> Vec<u16> {
    let mut free = vec![true; usize::from(d)];
    for edge in (0..node.weight).filter(|edge| node.edges.contains_key(edge)) {
        free[usize::from(edge % d)] = false;
    }
    (0..d).filter(|&class| free[usize::from(class)]).collect()
}

/// The starts that the candidates offer, each that of its smallest free class (Opening a line,
/// 2, 5 and 8), in no sequence.
pub(crate) fn offered_starts(plan: &Plan, period: u16) -> Vec<u16> {
    let mut starts = Vec::new();
    for Placed { node, position } in nodes(plan) {
        let (step, offset) = (position.step, position.offset);
        if !period.is_multiple_of(step) {
            continue;
        }
        let classes = free_classes(node, gcd(node.weight, period / step));
        starts.extend(classes.first().map(|class| offset + class * step));
    }
    starts
}

/// The start that an open on a plan with a root must answer (Ask 6, 2); None for refusal 5.
pub(crate) fn expected_start(plan: &Plan, period: u16) -> Option<u16> {
    offered_starts(plan, period).into_iter().min()
}

/// An open line with its period and start.
#[derive(Clone, Copy, Debug)]
pub(crate) struct Time {
    pub(crate) line: u8,
    pub(crate) period: u16,
    pub(crate) start: u16,
}

/// Those that show answers.
pub(crate) fn times(plan: &Plan) -> Vec<Time> {
    let time = |line: u8| {
        let shown = show(plan, line.into()).ok()?;
        Some(Time {
            line,
            period: shown.period.0,
            start: shown.start.0,
        })
    };
    (0..64).filter_map(time).collect()
}

impl Time {
    /// How many rounds lie from this one to the first that fits the line (The lists of demand 3,
    /// 18), be that past 2^64 or not.
    fn rounds_to_turn(&self, round: u64) -> u64 {
        let (period, start) = (u64::from(self.period), u64::from(self.start));
        (start + period - round % period) % period
    }
}

/// The open line that the round fits (The lists of demand 3, 18), or else how many rounds lie
/// from it to the first that fits one (Ask 4, 2).
pub(crate) fn expected_owner(times: &[Time], round: u64) -> Owner {
    let turns = times.iter().map(|it| (it.rounds_to_turn(round), it.line));
    match turns.min() {
        None => Owner::Idle { rest: 0 },
        Some((0, line)) => Owner::Line(line),
        Some((rest, _)) => Owner::Idle { rest },
    }
}

/// The sheet (Ask 5, 1), from a list of the rounds: each line is entered at its first turn and
/// then one period after the other; what has no line at the end is idle. No round may get two.
pub(crate) fn expected_sheet(times: &[Time], first: u64, rounds: u16) -> Sheet {
    let mut owners = vec![None; usize::from(rounds)];
    for it in times {
        let before = it.rounds_to_turn(first) as usize;
        for owner in owners.iter_mut().skip(before).step_by(it.period.into()) {
            assert_eq!(owner.replace(it.line), None, "{first} {rounds}");
        }
    }
    let (mut turns, mut idle) = ([0; LINES], 0);
    for owner in owners {
        match owner {
            Some(line) => turns[usize::from(line)] += 1,
            None => idle += 1,
        }
    }
    Sheet { turns, idle }
}

/// Step and weight of each node that an open line's path shows, by level and offset: a plan has no
/// other nodes.
fn shown_nodes(plan: &Plan) -> BTreeMap<(u64, u64), (u64, u64)> {
    let mut nodes = BTreeMap::new();
    for shown in (0..64).filter_map(|line| show(plan, line).ok()) {
        let (mut step, mut offset) = (1, 0);
        let rows = shown.path.iter().take_while(|row| row.weight > 0);
        for (level, row) in (0..).zip(rows) {
            let (weight, edge) = (u64::from(row.weight), u64::from(row.edge));
            nodes.insert((level, offset), (step, weight));
            offset += edge * step;
            step *= weight;
        }
    }
    nodes
}

/// What the reason must be (Ask 7, 2 and 4). The edges of class i lead to the rounds that leave
/// r + i·m when divided by m·d (The tree, 12), and a line's start is a round that leads to it.
pub(crate) fn expected_reason(plan: &Plan, asked: Asked) -> Result<Reason, Refusal> {
    let Asked { period, class, .. } = asked;
    if period == 0 || period > 4_095 {
        return Err(Refusal::Period);
    }
    let node = (asked.level, asked.offset);
    let (step, weight) = *shown_nodes(plan).get(&node).ok_or(Refusal::NoNode)?;
    if !period.is_multiple_of(step) {
        return Ok(Reason::Step);
    }
    let divides_both = |d: &u64| weight.is_multiple_of(*d) && (period / step).is_multiple_of(*d);
    let d = (1..=weight).rev().find(divides_both).unwrap_or(1);
    if class >= d {
        return Err(Refusal::NoClass);
    }
    let leads_to_it = |it: &Time| u64::from(it.start) % (step * d) == asked.offset + class * step;
    let first = times(plan).into_iter().find(leads_to_it);
    first.map(|it| Reason::Line(it.line)).ok_or(Refusal::NoLine)
}

/// The form that every plan must have (The tree, 15 and 16).
pub(crate) fn is_tree(plan: &Plan) -> bool {
    let placed = nodes(plan);
    let lines: Vec<u8> = placed.iter().flat_map(|it| lines_of(it.node)).collect();
    let mut once = lines.clone();
    once.sort_unstable();
    once.dedup();
    once.len() == lines.len()
        && once.iter().all(|&line| line <= 63)
        && placed.iter().all(|it| is_node(it, placed.len()))
}

fn lines_of(node: &Node) -> Vec<u8> {
    let lines = node.edges.values().filter_map(|under| match under {
        Under::Line(line) => Some(*line),
        Under::Node(_) => None,
    });
    lines.collect()
}

fn is_node(placed: &Placed, nodes: usize) -> bool {
    let Placed { node, position } = placed;
    let span = u32::from(position.step) * u32::from(node.weight);
    let weight_1 = node.weight == 1 && nodes == 1 && lines_of(node).len() == 1;
    (node.weight >= 2 || weight_1)
        && span <= 4_095
        && position.level() < 11
        && !node.edges.is_empty()
        && node.edges.keys().all(|&edge| edge < node.weight)
}

#[cfg(test)]
mod tests {
    use super::*;

    fn plan(weight: u16, edges: Vec<(u16, Under)>) -> Plan {
        let edges = BTreeMap::from_iter(edges);
        Plan {
            root: Some(Node { weight, edges }),
        }
    }

    #[test]
    fn what_is_no_tree_is_told() {
        let line = Under::Line;
        assert!(is_tree(&Plan::empty()));
        assert!(is_tree(&plan(1, vec![(0, line(3))])));
        assert!(is_tree(&plan(4_095, vec![(0, line(3)), (4_094, line(4))])));
        assert!(!is_tree(&plan(0, vec![(0, line(3))])));
        assert!(!is_tree(&plan(4_096, vec![(0, line(3))])));
        assert!(!is_tree(&plan(2, vec![])));
        assert!(!is_tree(&plan(2, vec![(2, line(3))])));
        assert!(!is_tree(&plan(2, vec![(0, line(64))])));
        assert!(!is_tree(&plan(2, vec![(0, line(3)), (1, line(3))])));
    }
}
