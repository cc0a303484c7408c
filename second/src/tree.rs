//! Document 01, sections The tree, Opening a line and Closing a line; document 02, Ask 6: which
//! candidate an open takes. What a close joins (document 02, Ask 8) is in `joining.rs`.

use crate::refusal::Refusal;
use std::collections::BTreeMap;

/// Largest line number (The tree, 2).
pub const LAST_LINE: u64 = 63;
/// Largest period (The tree, 2).
pub const LAST_PERIOD: u64 = 4_095;

/// A type of its own, so that it cannot be confused with a start (The tree, 3).
#[derive(Clone, Copy, Debug, PartialEq, Eq)]
pub struct Period(pub u16);

/// See `Period`.
#[derive(Clone, Copy, Debug, PartialEq, Eq, PartialOrd, Ord)]
pub struct Start(pub u16);

/// What an edge leads to (The tree, 5).
#[derive(Clone, Debug, PartialEq, Eq)]
pub enum Under {
    Node(Node),
    Line(u8),
}

/// Only the present edges are kept (The tree, 4).
#[derive(Clone, Debug, PartialEq, Eq)]
pub struct Node {
    pub(crate) weight: u16,
    pub(crate) edges: BTreeMap<u16, Under>,
}

/// The plan of rounds; without a root it is the empty plan.
#[derive(Clone, Debug, Default, PartialEq, Eq)]
pub struct Plan {
    pub(crate) root: Option<Node>,
}

/// Where a node stands: the edges from the root to it, one for each proper ancestor,
/// its step m (The tree, 6) and its offset r (The tree, 11).
#[derive(Clone, Debug)]
pub(crate) struct Position {
    pub(crate) edges_above: Vec<u16>,
    pub(crate) step: u16,
    pub(crate) offset: u16,
}

/// A candidate with its weight w, its d and its smallest free class i (Opening a line, 2 and 5).
pub(crate) struct Candidate {
    position: Position,
    weight: u16,
    d: u16,
    class: u16,
}

impl Candidate {
    /// The start that it offers, r + i·m (Opening a line, 8).
    pub(crate) fn start(&self) -> Start {
        Start(self.position.offset + self.class * self.position.step)
    }

    /// Whether the open splits this node (Opening a line, 6).
    pub(crate) fn is_split(&self) -> bool {
        self.d < self.weight
    }
}

pub(crate) fn gcd(a: u16, b: u16) -> u16 {
    if b == 0 {
        a
    } else {
        gcd(b, a % b)
    }
}

/// (Refusals, 1).
pub(crate) fn check_line(line: u64) -> Result<u8, Refusal> {
    match u8::try_from(line) {
        Ok(number) if line <= LAST_LINE => Ok(number),
        _ => Err(Refusal::Line),
    }
}

/// As an open checks it, not packing (Refusals, 2).
pub(crate) fn check_period(period: u64) -> Result<u16, Refusal> {
    match u16::try_from(period) {
        Ok(rounds) if (1..=LAST_PERIOD).contains(&period) => Ok(rounds),
        _ => Err(Refusal::Period),
    }
}

impl Position {
    /// The root: step 1, offset 0, no proper ancestor.
    pub(crate) fn root() -> Position {
        Position {
            edges_above: Vec::new(),
            step: 1,
            offset: 0,
        }
    }

    /// (The tree, 8).
    pub(crate) fn level(&self) -> usize {
        self.edges_above.len()
    }

    /// The node under `edge` of the node of this position and of `weight`.
    pub(crate) fn under(&self, weight: u16, edge: u16) -> Position {
        let mut edges_above = self.edges_above.clone();
        edges_above.push(edge);
        Position {
            edges_above,
            step: self.step * weight,
            offset: self.offset + edge * self.step,
        }
    }
}

impl Node {
    /// A new node that holds only this line (Opening a line, 1 and 7).
    fn with_line(weight: u16, line: u8) -> Node {
        Node {
            weight,
            edges: BTreeMap::from([(0, Under::Line(line))]),
        }
    }

    fn holds(&self, line: u8) -> bool {
        self.edges.values().any(|under| match under {
            Under::Line(other) => *other == line,
            Under::Node(node) => node.holds(line),
        })
    }

    /// The smallest residue modulo d that no edge has (Opening a line, 2 and 5).
    fn free_class(&self, d: u16) -> Option<u16> {
        (0..d).find(|&class| self.edges.keys().all(|edge| edge % d != class))
    }

    /// Tests this one node (Opening a line, 2 and 3).
    fn candidate(&self, position: &Position, period: u16) -> Option<Candidate> {
        if !period.is_multiple_of(position.step) {
            return None;
        }
        let d = gcd(self.weight, period / position.step);
        let class = self.free_class(d)?;
        Some(Candidate {
            position: position.clone(),
            weight: self.weight,
            d,
            class,
        })
    }

    /// This node and every node below it, where they are candidates.
    fn add_candidates(&self, position: &Position, period: u16, found: &mut Vec<Candidate>) {
        found.extend(self.candidate(position, period));
        for (&edge, under) in &self.edges {
            if let Under::Node(node) = under {
                node.add_candidates(&position.under(self.weight, edge), period, found);
            }
        }
    }

    /// All candidates, called on the root.
    pub(crate) fn candidates(&self, period: u16) -> Vec<Candidate> {
        let mut found = Vec::new();
        self.add_candidates(&Position::root(), period, &mut found);
        found
    }

    /// Which candidate an open takes (Ask 6, 2); no other offers the same start (Ask 6, 3).
    pub(crate) fn earliest_candidate(&self, period: u16) -> Option<Candidate> {
        let candidates = self.candidates(period).into_iter();
        candidates.min_by_key(Candidate::start)
    }

    /// The node that stands under these edges, from this node on.
    fn below(&mut self, edges: &[u16]) -> &mut Node {
        let Some((first, rest)) = edges.split_first() else {
            return self;
        };
        match self.edges.get_mut(first) {
            Some(Under::Node(node)) => node.below(rest),
            _ => unreachable!("the edges were found in this tree"),
        }
    }

    /// Groups the edges by residue modulo d, so that old starts stay (Opening a line, 6).
    pub(crate) fn split(&mut self, d: u16) {
        let new_weight = self.weight / d;
        let mut new_nodes: BTreeMap<u16, Node> = BTreeMap::new();
        for (edge, under) in std::mem::take(&mut self.edges) {
            let new_node = new_nodes.entry(edge % d).or_insert_with(|| Node {
                weight: new_weight,
                edges: BTreeMap::new(),
            });
            new_node.edges.insert(edge / d, under);
        }
        self.weight = d;
        self.edges = new_nodes
            .into_iter()
            .map(|(k, node)| (k, Under::Node(node)))
            .collect();
    }

    /// Called on the root once a candidate is known (Opening a line, 6 to 8).
    fn carry_out(&mut self, candidate: &Candidate, line: u8, period: u16) -> Start {
        let Candidate {
            position, d, class, ..
        } = candidate;
        let node = self.below(&position.edges_above);
        if candidate.is_split() {
            node.split(*d);
        }
        let q = period / (position.step * d);
        let under = if q == 1 {
            Under::Line(line)
        } else {
            Under::Node(Node::with_line(q, line))
        };
        node.edges.insert(*class, under);
        candidate.start()
    }

    /// Leaves this node itself in place, even without edges (Closing a line, 1).
    fn remove(&mut self, line: u8) {
        self.edges.retain(|_, under| match under {
            Under::Line(other) => *other != line,
            Under::Node(node) => {
                node.remove(line);
                !node.edges.is_empty()
            }
        });
    }
}

impl Plan {
    /// The empty plan.
    pub fn empty() -> Plan {
        Plan::default()
    }

    fn holds(&self, line: u8) -> bool {
        self.root.as_ref().is_some_and(|root| root.holds(line))
    }

    /// The two checks shared by close, show and turns (Refusals, sequence).
    pub(crate) fn check_open_line(&self, line: u64) -> Result<u8, Refusal> {
        let line = check_line(line)?;
        if self.holds(line) {
            Ok(line)
        } else {
            Err(Refusal::LineNotOpen)
        }
    }

    /// Checks as for an open (Refusals, sequence); the start is the answer.
    pub fn open(&mut self, line: u64, period: u64) -> Result<Start, Refusal> {
        let line = check_line(line)?;
        let period = check_period(period)?;
        if self.holds(line) {
            return Err(Refusal::LineOpen);
        }
        // No candidate is needed here (Opening a line, 1).
        let Some(root) = &mut self.root else {
            self.root = Some(Node::with_line(period, line));
            return Ok(Start(0));
        };
        let candidate = root
            .earliest_candidate(period)
            .ok_or(Refusal::NoCandidate)?;
        Ok(root.carry_out(&candidate, line, period))
    }

    /// A root without edges is dropped too (Closing a line, 2). What remains of the nodes above
    /// the line is joined, where it can be, whether or not a node was dropped (Ask 8, 2).
    pub fn close(&mut self, line: u64) -> Result<(), Refusal> {
        let line = self.check_open_line(line)?;
        if let Some(root) = &mut self.root {
            let edges_to_line = root.edges_to(line).unwrap_or_default();
            root.remove(line);
            root.join_upwards(&edges_to_line);
        }
        if self.root.as_ref().is_some_and(|root| root.edges.is_empty()) {
            self.root = None;
        }
        Ok(())
    }
}
