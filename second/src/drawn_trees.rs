//! Legal trees drawn at random, for images (document 02, Ask 9): also such as no list of opens and
//! closes leaves. Any weights stand above each other, any edges are present, and nodes that could
//! be joined are not.

use crate::random::Random;
use crate::tree::{Node, Plan, Under, LAST_LINE, LAST_PERIOD};
use std::collections::BTreeMap;

/// What most weights of one tree are drawn from.
const WEIGHTS: [&[u64]; 4] = [&[2], &[2, 2, 3], &[2, 3, 4, 6, 12], &[9, 64, 300, 4_095]];

/// A plan with at least one line.
pub fn drawn_tree(random: &mut Random) -> Plan {
    let mut lines: Vec<u8> = (0..=LAST_LINE as u8).collect();
    random.shuffle(&mut lines);
    let any = 1 + random.below(LAST_LINE + 1) as usize;
    lines.truncate(random.pick(&[1, 1, 2, 3, 5, 8, 64, any]));
    let root = if lines.len() == 1 && random.below(4) == 0 {
        Node {
            weight: 1,
            edges: BTreeMap::from([(0, Under::Line(lines[0]))]),
        }
    } else {
        drawn_node(&lines, LAST_PERIOD, random.pick(&WEIGHTS), random)
    };
    Plan { root: Some(root) }
}

/// A node above these lines, as far as there is room: from it on the weights on a path have a
/// product of at most `room`.
fn drawn_node(lines: &[u8], room: u64, weights: &[u64], random: &mut Random) -> Node {
    let (likely, any) = (random.pick(weights).min(room), 2 + random.below(room - 1));
    let weight = random.pick(&[likely, likely, likely, likely, likely, likely, any]);
    let below = room / weight;
    let mut edges = BTreeMap::new();
    let mut rest = lines;
    while !rest.is_empty() && edges.len() < weight as usize {
        let any = 1 + random.below(rest.len() as u64) as usize;
        let is_last = edges.len() + 1 == weight as usize;
        let count = if is_last { rest.len() } else { any };
        let (own, others) = rest.split_at(if below < 2 { 1 } else { count });
        let edge = free_edge(weight, &edges, random);
        edges.insert(edge, drawn_under(own, below, weights, random));
        rest = others;
    }
    Node {
        weight: weight as u16,
        edges,
    }
}

/// Any edge that is not present, or the next one after it.
fn free_edge(weight: u64, edges: &BTreeMap<u16, Under>, random: &mut Random) -> u16 {
    let any = random.below(weight);
    let in_turn = (0..weight).map(|at| ((any + at) % weight) as u16);
    let mut free = in_turn.filter(|edge| !edges.contains_key(edge));
    free.next().expect("an edge is not present")
}

/// A node, or the first line and none of the others: where there is room for no node, and for a
/// line alone two times in three.
fn drawn_under(lines: &[u8], room: u64, weights: &[u64], random: &mut Random) -> Under {
    if room < 2 || lines.len() == 1 && random.below(3) > 0 {
        return Under::Line(lines[0]);
    }
    Under::Node(drawn_node(lines, room, weights, random))
}

#[cfg(test)]
mod tests {
    use super::*;
    use crate::ask::paths;
    use crate::naive::{is_tree, nodes};
    use crate::record::Record;

    /// From one line to 64, a root of weight 1, up to eleven levels, weights of all sizes, and
    /// nodes that could be joined (document 02, Ask 8).
    #[test]
    fn drawn_trees_are_of_every_kind() {
        let mut random = Random::new(81);
        let [mut single, mut full, mut weight_1, mut deep, mut heavy, mut joinable] = [0; 6];
        for _ in 0..2_000 {
            let plan = drawn_tree(&mut random);
            assert!(is_tree(&plan));
            assert_eq!(Record::of(&plan).tree(), Some(plan.clone()));
            let placed = nodes(&plan);
            let lines = paths(&plan).len();
            single += usize::from(lines == 1);
            full += usize::from(lines > 50);
            weight_1 += usize::from(placed[0].node.weight == 1);
            deep += usize::from(placed.iter().any(|it| it.position.level() == 10));
            heavy += usize::from(placed.iter().any(|it| it.node.weight > 1_000));
            let can_join = placed
                .iter()
                .any(|it| it.node.equal_weight_below().is_some());
            joinable += usize::from(can_join);
        }
        let counts = [single, full, weight_1, deep, heavy, joinable];
        assert!(counts.iter().all(|&count| count > 20), "{counts:?}");
    }
}
