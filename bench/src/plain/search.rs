//! The search for the chosen candidate: of all levels, the one of smallest start.

use super::paths::{is_closed, length, same_node};
use super::{Path, Plan};

/// The node at a level of a line's path, with its step and its offset.
#[derive(Clone, Copy, Debug, PartialEq, Eq)]
pub struct Node {
    pub line: usize,
    pub level: usize,
    pub step: u16,
    pub offset: u16,
}

/// A candidate: its node, its divisor, and the class that is taken.
#[derive(Clone, Copy, Debug, PartialEq, Eq)]
pub struct Spot {
    pub node: Node,
    pub divisor: u16,
    pub class: u16,
}

impl Spot {
    /// The start that the candidate offers.
    pub fn start(self) -> u16 {
        self.node.offset + self.class * self.node.step
    }
}

/// For each offset 1 + the level of a node there that was looked at, and 0 where none was. A node's offset is below its
/// step, and its step is at most 2,047.
type Seen = [u8; 2_047];

pub fn gcd(a: u16, b: u16) -> u16 {
    let (mut larger, mut smaller) = (a, b);
    while smaller != 0 {
        (larger, smaller) = (smaller, larger % smaller);
    }
    larger
}

/// The edges of a node that lines take, as bits: edge e is bit e % 64 of word e / 64.
fn present_edges(lines: &[Path], node: Node) -> [u64; 64] {
    let path = &lines[node.line];
    let mut marks = [0; 64];
    for other in &lines[node.line..] {
        if same_node(path, other, node.level) {
            let taken = usize::from(other[node.level][1]);
            marks[taken / 64] |= 1 << (taken % 64);
        }
    }
    marks
}

/// The smallest class modulo d none of whose edges is present.
fn free_class(lines: &[Path], node: Node, d: u16) -> Option<u16> {
    let present = present_edges(lines, node);
    let weight = usize::from(lines[node.line][node.level][0]);
    'classes: for class in 0..d {
        let mut edge = usize::from(class);
        while edge < weight {
            if (present[edge / 64] >> (edge % 64)) % 2 == 1 {
                continue 'classes;
            }
            edge += usize::from(d);
        }
        return Some(class);
    }
    None
}

/// What a node has to offer, where its step divides the period.
pub fn spot_at(lines: &[Path], node: Node, period: u16) -> Option<Spot> {
    let divisor = gcd(lines[node.line][node.level][0], period / node.step);
    let class = free_class(lines, node, divisor)?;
    Some(Spot {
        node,
        divisor,
        class,
    })
}

/// The best start so far is not above a round.
pub fn starts_by(best: Option<Spot>, round: u16) -> bool {
    best.is_some_and(|spot| spot.start() <= round)
}

/// The better of the best so far and what a node has to offer. Where the line takes edge 0 there, class 0 is taken
/// whatever d is, so that nothing starts before offset + step.
fn better(lines: &[Path], node: Node, period: u16, best: Option<Spot>) -> Option<Spot> {
    let [_, edge] = lines[node.line][node.level];
    if edge == 0 && starts_by(best, node.offset + node.step) {
        return best;
    }
    match spot_at(lines, node, period) {
        Some(spot) if !starts_by(best, spot.start()) => Some(spot),
        _ => best,
    }
}

/// A node is looked at once. A path through it goes through all nodes of this offset and a smaller level.
fn look_at(
    lines: &[Path],
    node: Node,
    period: u16,
    seen: &mut Seen,
    best: Option<Spot>,
) -> Option<Spot> {
    let seen = &mut seen[usize::from(node.offset)];
    if node.level < usize::from(*seen) {
        return best;
    }
    *seen = node.level as u8 + 1;
    better(lines, node, period, best)
}

/// The path is left where its offset is not below the best start so far, and where its step does not divide the period.
fn best_on_path(
    lines: &[Path],
    line: usize,
    period: u16,
    seen: &mut Seen,
    earlier: Option<Spot>,
) -> Option<Spot> {
    let path = &lines[line];
    let mut best = earlier;
    let mut node = Node {
        line,
        level: 0,
        step: 1,
        offset: 0,
    };
    for (level, [weight, edge]) in path[..length(path)].iter().enumerate() {
        if starts_by(best, node.offset) || !period.is_multiple_of(node.step) {
            return best;
        }
        node.level = level;
        best = look_at(lines, node, period, seen, best);
        node.offset += edge * node.step;
        node.step *= weight;
    }
    best
}

/// The lines up to the last open one: those that are left out are closed.
pub fn open_lines(plan: &Plan) -> &[Path] {
    let last = plan.iter().rposition(|path| !is_closed(path));
    &plan[..last.map_or(0, |last| last + 1)]
}

/// The chosen candidate, by the lines up to the last open one.
pub fn best_candidate(lines: &[Path], period: u16) -> Option<Spot> {
    let mut seen = [0; 2_047];
    let mut best = None;
    for (line, path) in lines.iter().enumerate() {
        if !is_closed(path) {
            best = best_on_path(lines, line, period, &mut seen, best);
        }
    }
    best
}
