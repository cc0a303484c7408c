//! Document 02, Ask 3: what an open would do, found on a copy of the plan.

use crate::refusal::Refusal;
use crate::tree::{check_period, Node, Plan, Start, Under};

/// The figures of a trial that is not refused (Ask 3, 2).
#[derive(Clone, Copy, Debug, PartialEq, Eq)]
pub struct Trial {
    pub start: Start,
    /// Nodes after the open less nodes before it: an open takes none away.
    pub added: u16,
    pub split: bool,
}

/// The open is made on a copy, so that the figures are its own and the plan stays
/// (Ask 3, 3 and 4).
pub fn trial(plan: &Plan, line: u64, period: u64) -> Result<Trial, Refusal> {
    let mut opened = plan.clone();
    let start = opened.open(line, period)?;
    Ok(Trial {
        start,
        added: nodes_of(&opened) - nodes_of(plan),
        split: splits(plan, check_period(period)?),
    })
}

/// A node is split where d < w in the one that the open chooses (Opening a line, 6); the
/// empty plan has none.
fn splits(plan: &Plan, period: u16) -> bool {
    let root = plan.root.as_ref();
    let chosen = root.and_then(|root| root.earliest_candidate(period));
    chosen.is_some_and(|candidate| candidate.is_split())
}

fn nodes_of(plan: &Plan) -> u16 {
    plan.root.as_ref().map_or(0, nodes_from)
}

/// This node and all below it.
fn nodes_from(node: &Node) -> u16 {
    let below = node.edges.values().map(|under| match under {
        Under::Node(node) => nodes_from(node),
        Under::Line(_) => 0,
    });
    1 + below.sum::<u16>()
}

#[cfg(test)]
mod tests {
    use super::*;
    use crate::lists::generate;
    use crate::naive::{expected_start, nodes, weights};
    use crate::orders::{read, run_order, Order, ORDER_BYTES};
    use crate::random::Random;
    use crate::shapes::Shape;
    use crate::tree::LAST_PERIOD;

    /// Opens the periods as lines 1, 2, 3 .. and then closes some of them.
    fn plan_of(periods: &[u64], closed: &[u64]) -> Plan {
        let mut plan = Plan::empty();
        for (line, &period) in (1..).zip(periods) {
            plan.open(line, period).unwrap();
        }
        for &line in closed {
            plan.close(line).unwrap();
        }
        plan
    }

    type Figures = (u16, u16, bool);

    /// Puts trials of a line that is not open: each period with its start, nodes added and
    /// split, or with its refusal's number.
    fn tried(plan: &Plan, expected: &[(u64, Result<Figures, u8>)]) {
        for &(period, figures) in expected {
            let told = trial(plan, 0, period);
            let told = told.map(|it| (it.start.0, it.added, it.split));
            assert_eq!(told.map_err(Refusal::number), figures, "{period}");
        }
    }

    const WHOLE: bool = false;
    const SPLIT: bool = true;

    #[test]
    fn the_first_line_takes_one_node() {
        let plan = Plan::empty();
        for period in [1, 2, 6, 4_095] {
            tried(&plan, &[(period, Ok((0, 1, WHOLE)))]);
        }
        tried(&plan, &[(0, Err(2)), (4_096, Err(2)), (65_537, Err(2))]);
    }

    /// The 6 splits the root: its old edge gets a node, and the 6 one of weight 3.
    #[test]
    fn case_a() {
        tried(&Plan::empty(), &[(4, Ok((0, 1, WHOLE)))]);
        tried(&plan_of(&[4], &[]), &[(6, Ok((1, 2, SPLIT)))]);
        tried(&plan_of(&[4, 6], &[]), &[(8, Ok((2, 1, WHOLE)))]);
        let plan = plan_of(&[4, 6, 8], &[]);
        tried(&plan, &[(2, Err(5)), (12, Ok((3, 1, WHOLE)))]);
        let plan = plan_of(&[4, 6, 8, 12], &[]);
        tried(&plan, &[(6, Ok((5, 0, WHOLE))), (12, Ok((5, 1, WHOLE)))]);
    }

    #[test]
    fn cases_b_and_c() {
        tried(&plan_of(&[4], &[]), &[(2, Ok((1, 1, SPLIT)))]);
        let plan = plan_of(&[4, 4], &[]);
        tried(&plan, &[(2, Err(5)), (6, Err(5))]);
        tried(&plan, &[(4, Ok((2, 0, WHOLE))), (8, Ok((2, 1, WHOLE)))]);
        tried(&plan_of(&[6], &[]), &[(12, Ok((1, 1, WHOLE)))]);
        tried(&plan_of(&[6, 12], &[]), &[(12, Ok((2, 1, WHOLE)))]);
    }

    #[test]
    fn cases_d_and_e() {
        tried(&plan_of(&[1], &[]), &[(1, Err(5)), (4_095, Err(5))]);
        let plan = plan_of(&[2], &[]);
        tried(&plan, &[(3, Err(5))]);
        tried(&plan, &[(2, Ok((1, 0, WHOLE))), (4, Ok((1, 1, WHOLE)))]);
    }

    /// Each power adds its node; another line then takes the free edge of the last one.
    #[test]
    fn case_f() {
        let powers: Vec<u64> = (1..=11).map(|power| 1 << power).collect();
        for (at, &period) in powers.iter().enumerate() {
            let start = (1 << at) - 1;
            tried(
                &plan_of(&powers[..at], &[]),
                &[(period, Ok((start, 1, WHOLE)))],
            );
        }
        let plan = plan_of(&powers, &[]);
        tried(&plan, &[(2_048, Ok((2_047, 0, WHOLE))), (4_095, Err(5))]);
    }

    /// Without a node for the line (3, with q = 1) and with one (6, with q = 2).
    #[test]
    fn case_g() {
        let plan = plan_of(&[4_095], &[]);
        tried(&plan, &[(4_096, Err(2)), (0, Err(2)), (2, Err(5))]);
        tried(&plan, &[(4_094, Err(5)), (4_095, Ok((1, 0, WHOLE)))]);
        tried(&plan, &[(3, Ok((1, 1, SPLIT))), (6, Ok((1, 2, SPLIT)))]);
    }

    /// (Marked cases, H), and each check before the later ones (Ask 3, 4).
    #[test]
    fn checks_are_those_of_an_open() {
        let mut plan = Plan::empty();
        assert!(trial(&plan, 63, 5).is_ok());
        plan.open(63, 1).unwrap();
        for (line, period, number) in [
            (64, 5, 1),
            (64, 0, 1),
            (1 << 32, 4_096, 1),
            (63, 0, 2),
            (63, 1 << 32 | 1, 2),
            (63, 5, 3),
            (62, 5, 5),
        ] {
            let told = trial(&plan, line, period).map_err(Refusal::number);
            assert_eq!(told, Err(number), "{line} {period}");
        }
    }

    /// What was split is joined when the 2 closes, so that the 2 and the 3 split it again (Ask 8).
    #[test]
    fn case_i() {
        let of_6 = [(2, Ok((1, 1, SPLIT))), (3, Ok((1, 1, SPLIT)))];
        tried(&plan_of(&[6], &[]), &of_6);
        tried(&plan_of(&[6, 2], &[]), &[(3, Err(5))]);
        tried(&plan_of(&[6, 2], &[2]), &of_6);
    }

    /// One new node for each class with edges, however many edges it has.
    #[test]
    fn a_split_adds_a_node_for_each_class() {
        let one_class = plan_of(&[6, 6, 6, 6], &[2, 3]);
        tried(&one_class, &[(3, Ok((1, 1, SPLIT))), (2, Err(5))]);
        let two_classes = plan_of(&[12, 12, 12], &[2]);
        tried(&two_classes, &[(4, Ok((1, 2, SPLIT)))]);
        tried(&two_classes, &[(8, Ok((1, 3, SPLIT)))]);
        let most = plan_of(&[130; 63], &[]);
        tried(&most, &[(65, Ok((63, 63, SPLIT)))]);
        tried(&most, &[(195, Ok((63, 64, SPLIT)))]);
        tried(&most, &[(130, Ok((63, 0, WHOLE)))]);
    }

    #[test]
    fn a_node_below_the_root_is_split() {
        let plan = plan_of(&[2, 12], &[]);
        tried(&plan, &[(4, Ok((3, 1, SPLIT))), (8, Ok((3, 2, SPLIT)))]);
    }

    /// The earliest candidate says whether a node is split (Ask 6, 2). First the root, with a line
    /// under edge 0, offers 1, and its node of weight 6 would be split for 5. In the other plan the
    /// root is full, its node of weight 4 is split for 1, and its node of weight 3, which has room,
    /// offers 2.
    #[test]
    fn the_earliest_candidate_is_whole_or_split() {
        let plan = plan_of(&[3, 3, 18], &[2]);
        tried(&plan, &[(6, Ok((1, 1, WHOLE))), (12, Ok((1, 1, WHOLE)))]);
        let plan = plan_of(&[6, 8, 8], &[2]);
        tried(&plan, &[(12, Ok((1, 2, SPLIT))), (36, Ok((1, 2, SPLIT)))]);
    }

    /// The open is made, and its plan compared with the one before, by level and offset. Start and
    /// refusal cannot differ here, since the trial opens too.
    fn assert_brought_about(plan: &Plan, line: u64, period: u64) {
        let told = trial(plan, line, period);
        let mut after = plan.clone();
        let start = after.open(line, period);
        assert_eq!(told.map(|it| it.start), start, "{line} {period}");
        let Ok(told) = told else {
            assert_eq!(after, *plan);
            return;
        };
        let counts = [&after, plan].map(|plan| nodes(plan).len());
        assert_eq!(usize::from(told.added), counts[0] - counts[1]);
        let (before, after) = (weights(plan), weights(&after));
        let split = before.iter().any(|(at, weight)| after[at] != *weight);
        assert_eq!(told.split, split, "{line} {period}");
    }

    #[test]
    fn the_opens_of_lists_bring_it_about() {
        let mut random = Random::new(31);
        for shape in Shape::ALL.repeat(60) {
            let mut plan = Plan::empty();
            for order in generate(shape, &mut random).chunks_exact(ORDER_BYTES) {
                let order = [order[0], order[1], order[2]];
                if let Ok(Order::Open { line, period }) = read(order) {
                    assert_brought_about(&plan, line.into(), period.into());
                }
                let _ = run_order(&mut plan, order);
            }
        }
    }

    /// The plan that a list leaves, with line 0 closed.
    fn left_by(list: &[u8]) -> Plan {
        let mut plan = Plan::empty();
        for order in list.chunks_exact(ORDER_BYTES) {
            let _ = run_order(&mut plan, [order[0], order[1], order[2]]);
        }
        let _ = plan.close(0);
        plan
    }

    /// Every period, and the start by the second reading of the candidate rule.
    #[test]
    fn opens_of_every_period_bring_it_about() {
        let mut random = Random::new(32);
        for shape in Shape::ALL.repeat(4) {
            let plan = left_by(&generate(shape, &mut random));
            for period in 1..=LAST_PERIOD {
                assert_brought_about(&plan, 0, period);
                let start = trial(&plan, 0, period).map(|it| it.start.0).ok();
                let expected = match plan.root {
                    Some(_) => expected_start(&plan, period as u16),
                    None => Some(0),
                };
                assert_eq!(start, expected, "{period}");
            }
        }
    }
}
