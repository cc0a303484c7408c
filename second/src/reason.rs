//! Document 02, Ask 7: what stands in the way of a period, at a class of a node.

use crate::refusal::Refusal;
use crate::tree::{check_period, gcd, Node, Plan, Position, Under};

/// A period, and a class of the node with this level and offset (Ask 7, 2). Numbers that no
/// plan has are asked for too.
#[derive(Clone, Copy, Debug, PartialEq, Eq)]
pub struct Asked {
    pub period: u64,
    pub level: u64,
    pub offset: u64,
    pub class: u64,
}

/// What is said (Ask 7, 2).
#[derive(Clone, Copy, Debug, PartialEq, Eq)]
pub enum Reason {
    /// The node's step does not divide the period.
    Step,
    /// The open line of lowest number that stands under an edge of the class.
    Line(u8),
}

/// The checks in their sequence; a class is one where the step divides (Ask 7, 2 and 4).
pub fn reason(plan: &Plan, asked: Asked) -> Result<Reason, Refusal> {
    let period = check_period(asked.period)?;
    let (position, node) = node_at(plan, asked.level, asked.offset).ok_or(Refusal::NoNode)?;
    if !period.is_multiple_of(position.step) {
        return Ok(Reason::Step);
    }
    let d = gcd(node.weight, period / position.step);
    let class = class_below(d, asked.class).ok_or(Refusal::NoClass)?;
    let line = lowest_line(node, d, class).ok_or(Refusal::NoLine)?;
    Ok(Reason::Line(line))
}

/// At most one node has them. A line that stands there is none (The tree, 5).
fn node_at(plan: &Plan, level: u64, offset: u64) -> Option<(Position, &Node)> {
    let is_asked = |position: &Position| {
        position.level() as u64 == level && u64::from(position.offset) == offset
    };
    let mut nodes = nodes(plan).into_iter();
    nodes.find(|(position, _)| is_asked(position))
}

/// All nodes of the plan, each before those below it.
pub(crate) fn nodes(plan: &Plan) -> Vec<(Position, &Node)> {
    let mut found = Vec::new();
    if let Some(root) = &plan.root {
        add_nodes(root, Position::root(), &mut found);
    }
    found
}

/// This node and every node below it.
fn add_nodes<'a>(node: &'a Node, position: Position, found: &mut Vec<(Position, &'a Node)>) {
    found.push((position.clone(), node));
    for (&edge, under) in &node.edges {
        if let Under::Node(below) = under {
            add_nodes(below, position.under(node.weight, edge), found);
        }
    }
}

/// The classes are 0 to d − 1 (Opening a line, 2).
fn class_below(d: u16, asked: u64) -> Option<u16> {
    u16::try_from(asked).ok().filter(|&class| class < d)
}

/// Under the edges that leave the class when divided by d, at any depth.
fn lowest_line(node: &Node, d: u16, class: u16) -> Option<u8> {
    let edges = node.edges.iter().filter(|(edge, _)| *edge % d == class);
    edges.flat_map(|(_, under)| lines_under(under)).min()
}

fn lines_under(under: &Under) -> Vec<u8> {
    match under {
        Under::Line(line) => vec![*line],
        Under::Node(node) => node.edges.values().flat_map(lines_under).collect(),
    }
}

#[cfg(test)]
mod tests {
    use super::*;
    use crate::lists::generate;
    use crate::naive::expected_reason;
    use crate::offers::plans_of;
    use crate::random::Random;
    use crate::shapes::Shape;
    use std::collections::BTreeMap;

    /// Opens lines with periods.
    fn opened(lines: &[(u64, u64)]) -> Plan {
        let mut plan = Plan::empty();
        for &(line, period) in lines {
            plan.open(line, period).unwrap();
        }
        plan
    }

    type Numbers = [u64; 4];

    fn asked([period, level, offset, class]: Numbers) -> Asked {
        Asked {
            period,
            level,
            offset,
            class,
        }
    }

    /// Period, level, offset and class, with the line, or None for a step that does not divide.
    fn assert_said(plan: &Plan, expected: &[(Numbers, Option<u8>)]) {
        for &(numbers, line) in expected {
            let said = line.map_or(Reason::Step, Reason::Line);
            assert_eq!(reason(plan, asked(numbers)), Ok(said), "{numbers:?}");
        }
    }

    fn assert_refused(plan: &Plan, expected: &[(Numbers, u8)]) {
        for &(numbers, number) in expected {
            let said = reason(plan, asked(numbers)).map_err(Refusal::number);
            assert_eq!(said, Err(number), "{numbers:?}");
        }
    }

    const STEP: Option<u8> = None;

    /// The root of weight 2 has a node of weight 2 with line 1 and, one level deeper, line 3, and
    /// one of weight 3 with line 2 and, one level deeper, line 5. Of 2, refused with 5, every node
    /// and class; of 12, which has room, too.
    #[test]
    fn every_node_and_class_of_case_a() {
        let plan = opened(&[(1, 4), (2, 6), (3, 8), (5, 12)]);
        let for_2 = [
            ([2, 0, 0, 0], Some(1)),
            ([2, 0, 0, 1], Some(2)),
            ([2, 1, 0, 0], Some(1)),
            ([2, 1, 1, 0], Some(2)),
            ([2, 2, 2, 0], STEP),
            ([2, 2, 3, 0], STEP),
        ];
        assert_said(&plan, &for_2);
        let for_12 = [
            ([12, 0, 0, 0], Some(1)),
            ([12, 0, 0, 1], Some(2)),
            ([12, 1, 0, 0], Some(1)),
            ([12, 1, 0, 1], Some(3)),
            ([12, 1, 1, 0], Some(2)),
            ([12, 1, 1, 1], Some(5)),
            ([12, 2, 2, 0], Some(3)),
            ([12, 2, 3, 0], Some(5)),
        ];
        assert_said(&plan, &for_12);
        assert_refused(&plan, &[([12, 1, 1, 2], 12), ([12, 2, 3, 1], 12)]);
        assert_refused(&plan, &[([2, 0, 0, 2], 11), ([2, 1, 1, 1], 11)]);
        assert_refused(&plan, &[([12, 1, 1, 3], 11), ([12, 2, 2, 1], 11)]);
    }

    /// Lines stand at level 2, offsets 0 and 1, and at level 3, offsets 2 and 3.
    #[test]
    fn a_place_without_a_node_is_refused_10() {
        let plan = opened(&[(1, 4), (2, 6), (3, 8), (5, 12)]);
        let lines = [[2, 0], [2, 1], [3, 2], [3, 3]];
        let nothing = [[0, 1], [1, 2], [2, 4], [2, 5], [3, 0], [4, 2]];
        let far = [[1 << 32, 0], [256, 0], [1, 1 << 32 | 1], [1, 65_537]];
        for [level, offset] in [lines.as_slice(), &nothing, &far].concat() {
            for class in [0, u64::MAX] {
                assert_refused(&plan, &[([12, level, offset, class], 10)]);
            }
        }
        assert_refused(&Plan::empty(), &[([12, 0, 0, 0], 10), ([1, 0, 0, 0], 10)]);
    }

    /// 2 before 10, 10 before the step, the step before 11, and 11 before 12.
    #[test]
    fn checks_in_sequence() {
        let plan = opened(&[(1, 4), (2, 6), (3, 8), (5, 12)]);
        for period in [0, 4_096, 65_537, 1 << 32 | 12, u64::MAX] {
            assert_refused(&plan, &[([period, 0, 0, 0], 2), ([period, 9, 9, 9], 2)]);
            assert_refused(&Plan::empty(), &[([period, 0, 0, 0], 2)]);
        }
        assert_refused(&plan, &[([5, 2, 0, 9], 10), ([12, 2, 5, 9], 10)]);
        assert_said(&plan, &[([5, 1, 0, 9], STEP), ([6, 2, 2, u64::MAX], STEP)]);
        assert_refused(&plan, &[([12, 1, 1, 9], 11), ([12, 1, 1, 1 << 32], 11)]);
        assert_refused(&plan, &[([12, 1, 1, 65_538], 11), ([12, 1, 1, 2], 12)]);
    }

    /// Modulo 3 the edges 0 and 3, 1 and 4, 2 and 5 of the root are of one class, modulo 2 the even
    /// and the odd ones. The lines 50 and 10 stand a level deeper than the others.
    #[test]
    fn the_lowest_line_of_all_edges_of_a_class() {
        let mut plan = opened(&[(40, 6), (30, 6), (50, 12), (20, 6), (10, 24)]);
        let for_3 = [
            ([3, 0, 0, 0], Some(20)),
            ([3, 0, 0, 1], Some(10)),
            ([3, 0, 0, 2], Some(50)),
        ];
        assert_said(&plan, &for_3);
        assert_said(&plan, &[([2, 0, 0, 0], Some(10)), ([2, 0, 0, 1], Some(20))]);
        assert_said(&plan, &[([1, 0, 0, 0], Some(10)), ([6, 0, 0, 0], Some(40))]);
        assert_refused(&plan, &[([6, 0, 0, 5], 12), ([6, 0, 0, 6], 11)]);
        plan.close(10).unwrap();
        assert_said(&plan, &[([3, 0, 0, 1], Some(30)), ([2, 0, 0, 0], Some(40))]);
        assert_refused(&plan, &[([6, 0, 0, 4], 12), ([6, 1, 4, 0], 10)]);
    }

    /// Case F with falling line numbers: the line of period 2,048 stands ten levels below the root.
    #[test]
    fn a_line_many_levels_deeper() {
        let lines: Vec<(u64, u64)> = (1..=11).map(|power| (64 - power, 1 << power)).collect();
        let plan = opened(&lines);
        assert_said(&plan, &[([2, 0, 0, 0], Some(63)), ([2, 0, 0, 1], Some(53))]);
        assert_said(
            &plan,
            &[([1, 0, 0, 0], Some(53)), ([32, 5, 31, 0], Some(53))],
        );
        let last = [10, 1_023];
        let said = [(2_048, Some(53)), (1_024, Some(53)), (512, STEP)];
        for (period, line) in said {
            assert_said(&plan, &[([period, last[0], last[1], 0], line)]);
        }
        assert_refused(&plan, &[([2_048, 10, 1_023, 1], 12)]);
        assert_refused(
            &plan,
            &[([2_048, 10, 1_023, 2], 11), ([2_048, 11, 1_023, 0], 10)],
        );
    }

    /// d is 1 for every period.
    #[test]
    fn a_root_of_weight_1_has_one_class() {
        let plan = opened(&[(7, 1)]);
        for period in [1, 2, 4_095] {
            assert_said(&plan, &[([period, 0, 0, 0], Some(7))]);
            assert_refused(&plan, &[([period, 0, 0, 1], 11), ([period, 1, 0, 0], 10)]);
        }
    }

    /// At each node and beside it, for periods that its step divides and others.
    fn numbers_near(plan: &Plan, random: &mut Random) -> Vec<Numbers> {
        let mut all = Vec::new();
        for (position, node) in nodes(plan) {
            let (level, offset) = (position.level() as u64, u64::from(position.offset));
            let (step, weight) = (u64::from(position.step), u64::from(node.weight));
            let multiples = [1, weight, 2 * weight, 1 + random.below(9)].map(|it| it * step);
            for period in multiples.into_iter().chain([1 + random.below(4_097)]) {
                let class = random.below(weight + 2);
                let classes = (0..6).chain([class]);
                all.extend(classes.map(|class| [period, level, offset, class]));
                all.push([period, level + 1, offset, class]);
                all.push([period, level, offset + step, class]);
            }
        }
        all
    }

    /// By shown paths and starts, on plans that lists leave.
    #[test]
    fn reasons_are_those_of_paths_and_starts() {
        let mut random = Random::new(62);
        let mut counts = BTreeMap::new();
        for shape in Shape::ALL.repeat(12) {
            let plans = plans_of(&generate(shape, &mut random));
            let plan = plans.last().cloned().unwrap_or_default();
            for numbers in numbers_near(&plan, &mut random) {
                let said = reason(&plan, asked(numbers));
                let expected = expected_reason(&plan, asked(numbers));
                assert_eq!(said, expected, "{numbers:?} {plan:?}");
                let outcome = said.map(|it| it == Reason::Step);
                *counts.entry(outcome.map_err(Refusal::number)).or_insert(0) += 1;
            }
        }
        let outcomes = [Ok(false), Ok(true), Err(2), Err(10), Err(11), Err(12)];
        for outcome in outcomes {
            assert!(counts.get(&outcome) > Some(&1_000), "{counts:?}");
        }
    }
}
