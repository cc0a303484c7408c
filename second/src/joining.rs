//! Document 02, Ask 8: the nodes that a close joins.

use crate::tree::{Node, Under};
use std::collections::BTreeMap;

impl Node {
    /// The edges from this node to the line, one for each node above it.
    pub(crate) fn edges_to(&self, line: u8) -> Option<Vec<u16>> {
        self.edges.iter().find_map(|(&edge, under)| {
            let below = match under {
                Under::Line(other) => (*other == line).then(Vec::new),
                Under::Node(node) => node.edges_to(line),
            }?;
            Some([vec![edge], below].concat())
        })
    }

    /// Called on the root after a line and the empty nodes above it have gone, with the edges that
    /// led to the line: of the nodes above it those that remain are joined, from the deepest to the
    /// root (Ask 8, 2). One that cannot be joined does not end the way up.
    pub(crate) fn join_upwards(&mut self, edges_to_line: &[u16]) {
        for level in (0..edges_to_line.len()).rev() {
            if let Some(node) = self.remaining(&edges_to_line[..level]) {
                node.join();
            }
        }
    }

    /// The node that stands under these edges, from this node on, if it remains. What was joined at
    /// a larger level is below it.
    fn remaining(&mut self, edges: &[u16]) -> Option<&mut Node> {
        let Some((first, rest)) = edges.split_first() else {
            return Some(self);
        };
        match self.edges.get_mut(first)? {
            Under::Node(node) => node.remaining(rest),
            Under::Line(_) => None,
        }
    }

    /// Joins as long as it can be done (Ask 8, 3).
    fn join(&mut self) {
        while let Some(v) = self.equal_weight_below() {
            self.join_once(v);
        }
    }

    /// The weight v, where all edges lead to nodes of one equal weight (Ask 8, 3).
    pub(crate) fn equal_weight_below(&self) -> Option<u16> {
        let weight = |under: &Under| match under {
            Under::Node(node) => Some(node.weight),
            Under::Line(_) => None,
        };
        let v = weight(self.edges.values().next()?)?;
        let is_equal = |under: &Under| weight(under) == Some(v);
        self.edges.values().all(is_equal).then_some(v)
    }

    /// Puts what stands under the nodes below, each of weight v, under this node (Ask 8, 3).
    fn join_once(&mut self, v: u16) {
        let mut edges = BTreeMap::new();
        for (k, under) in std::mem::take(&mut self.edges) {
            let Under::Node(below) = under else {
                unreachable!("all edges lead to nodes");
            };
            let moved = below.edges.into_iter();
            edges.extend(moved.map(|(f, under)| (k + self.weight * f, under)));
        }
        self.weight *= v;
        self.edges = edges;
    }
}

#[cfg(test)]
mod tests {
    use super::*;
    use crate::random::Random;

    /// What stands under an edge, from a line to a node with edges of its own.
    fn drawn_under(line: u8, random: &mut Random) -> Under {
        if random.below(2) == 0 {
            return Under::Line(line);
        }
        let weight = 2 + random.below(3) as u16;
        Under::Node(Node {
            weight,
            edges: BTreeMap::from([(weight - 1, Under::Line(line))]),
        })
    }

    /// Each edge is present or not, as drawn, but at least one.
    fn drawn_node(weight: u16, random: &mut Random) -> Node {
        let sure = random.below(weight.into()) as u16;
        let share = random.below(4);
        let mut edges = BTreeMap::new();
        for edge in 0..weight {
            if edge == sure || random.below(4) < share {
                edges.insert(edge, drawn_under(edge as u8, random));
            }
        }
        Node { weight, edges }
    }

    /// The weights that a split by d leaves are equal, and to join once gives back the node: every
    /// weight up to 64 and every d below it that divides it. A split by 1 has no class free, since
    /// the node has an edge.
    #[test]
    fn joining_once_gives_back_a_node_that_was_split() {
        let mut random = Random::new(72);
        let (mut splits, mut several) = (0, 0);
        for weight in 2..=64 {
            for d in (2..weight).filter(|d| weight % d == 0) {
                for _ in 0..40 {
                    let node = drawn_node(weight, &mut random);
                    let mut split = node.clone();
                    split.split(d);
                    assert_eq!(split.weight, d);
                    assert_eq!(split.equal_weight_below(), Some(weight / d));
                    several += usize::from(split.edges.len() > 1);
                    split.join_once(weight / d);
                    assert_eq!(split, node, "{d}");
                    splits += 1;
                }
            }
        }
        // of the weights up to 64 the divisors between 1 and the weight are 153
        assert_eq!(splits, 153 * 40);
        assert!(2 * several > splits, "{several}");
    }
}
