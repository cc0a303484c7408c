//! Document 02, Ask 10: two plans woven into one, which has the rounds of the first as its even
//! ones and those of the second as its odd ones.

use crate::ask::show;
use crate::refusal::Refusal;
use crate::tree::{Node, Plan, Under, LAST_LINE, LAST_PERIOD};
use std::collections::BTreeMap;

/// The weight of a woven plan's root (Ask 10, 2).
const SIDES: u16 = 2;

/// Checks in sequence (Ask 10, 6).
pub fn weave(a: &Plan, b: &Plan) -> Result<Plan, Refusal> {
    let is_in_both = |line| show(a, line).is_ok() && show(b, line).is_ok();
    if (0..=LAST_LINE).any(is_in_both) {
        return Err(Refusal::OpenInBoth);
    }
    if has_too_long_a_line(a) || has_too_long_a_line(b) {
        return Err(Refusal::DoubledPeriod);
    }
    Ok(woven(a, b))
}

/// Some doubled period is out of range (Ask 10, 6).
fn has_too_long_a_line(side: &Plan) -> bool {
    (0..=LAST_LINE).any(|line| is_too_long(side, line))
}

/// False where the line is not open.
pub(crate) fn is_too_long(side: &Plan, line: u64) -> bool {
    show(side, line).is_ok_and(|shown| u64::from(SIDES * shown.period.0) > LAST_PERIOD)
}

/// The edge of a side without lines is absent; where both are, so is the root (Ask 10, 2 and 3).
fn woven(a: &Plan, b: &Plan) -> Plan {
    let sides = (0..SIDES).zip([a, b]);
    let edges = sides.filter_map(|(edge, side)| Some((edge, under(side)?)));
    let edges = BTreeMap::from_iter(edges);
    let root = (!edges.is_empty()).then_some(Node {
        weight: SIDES,
        edges,
    });
    Plan { root }
}

/// What stands under the edge of a side: its root, or that root's line where the weight is 1
/// (Ask 10, 3).
fn under(side: &Plan) -> Option<Under> {
    let root = side.root.as_ref()?;
    if root.weight == 1 {
        return root.edges.get(&0).cloned();
    }
    Some(Under::Node(root.clone()))
}

#[cfg(test)]
mod tests {
    use super::*;
    use crate::ask::{owner, Owner};
    use crate::image_cases::paths_of;
    use crate::record::tree_of;
    use crate::refusal::Refusal::{DoubledPeriod, OpenInBoth};

    /// Opens the periods as lines from this one on.
    fn side(first: u64, periods: &[u64]) -> Plan {
        let mut plan = Plan::empty();
        for (line, &period) in (first..).zip(periods) {
            plan.open(line, period).unwrap();
        }
        plan
    }

    /// `LINE: WEIGHT/EDGE ..` (`image_cases.rs`).
    fn plan(lines: &str) -> Plan {
        tree_of(&paths_of(lines)).unwrap()
    }

    fn period_and_start(plan: &Plan, line: u64) -> (u16, u16) {
        let shown = show(plan, line).unwrap();
        (shown.period.0, shown.start.0)
    }

    /// 4@0, 6@1 and 8@2 under a root of weight 2, with 3@0 and 9@1 under one of weight 3.
    #[test]
    fn a_plan_by_hand() {
        let (a, b) = (side(1, &[4, 6, 8]), side(11, &[3, 9]));
        assert_eq!(a, plan("1: 2/0 2/0, 2: 2/1 3/0, 3: 2/0 2/1 2/0"));
        assert_eq!(b, plan("11: 3/0, 12: 3/1 3/0"));
        let a_first = "1: 2/0 2/0 2/0, 2: 2/0 2/1 3/0, 3: 2/0 2/0 2/1 2/0, \
                       11: 2/1 3/0, 12: 2/1 3/1 3/0";
        let woven = weave(&a, &b).unwrap();
        assert_eq!(woven, plan(a_first));
        let times = [1, 2, 3, 11, 12].map(|line| period_and_start(&woven, line));
        assert_eq!(times, [(8, 0), (12, 2), (16, 4), (6, 1), (18, 3)]);
        let b_first = "1: 2/1 2/0 2/0, 2: 2/1 2/1 3/0, 3: 2/1 2/0 2/1 2/0, \
                       11: 2/0 3/0, 12: 2/0 3/1 3/0";
        let woven = weave(&b, &a).unwrap();
        assert_eq!(woven, plan(b_first));
        let times = [1, 2, 3, 11, 12].map(|line| period_and_start(&woven, line));
        assert_eq!(times, [(8, 1), (12, 3), (16, 5), (6, 0), (18, 2)]);
    }

    /// A tree, a root of weight 1, and no tree, on each side (Ask 10, 3).
    #[test]
    fn sides_of_every_kind() {
        let (one, other) = ("1: 3/2", "7: 1/0");
        for (a, b, expected) in [
            (one, "7: 3/2", "1: 2/0 3/2, 7: 2/1 3/2"),
            (one, other, "1: 2/0 3/2, 7: 2/1"),
            (other, one, "7: 2/0, 1: 2/1 3/2"),
            (other, "1: 1/0", "7: 2/0, 1: 2/1"),
        ] {
            let woven = weave(&plan(a), &plan(b));
            assert_eq!(woven, Ok(plan(expected)), "{a} {b}");
        }
        let empty = Plan::empty();
        for (side, as_a, as_b) in [
            (one, "1: 2/0 3/2", "1: 2/1 3/2"),
            (other, "7: 2/0", "7: 2/1"),
        ] {
            assert_eq!(weave(&plan(side), &empty), Ok(plan(as_a)));
            assert_eq!(weave(&empty, &plan(side)), Ok(plan(as_b)));
        }
        assert_eq!(weave(&empty, &empty), Ok(empty));
    }

    /// (Ask 10, 6).
    #[test]
    fn periods_up_to_2_047_are_doubled() {
        for period in [2_046, 2_047, 2_048, 4_095] {
            let long = side(5, &[period]);
            for other in [Plan::empty(), side(6, &[2, 4])] {
                for (woven, edge) in [(weave(&long, &other), 0), (weave(&other, &long), 1)] {
                    match woven {
                        Ok(woven) => {
                            assert!(period <= 2_047, "{period}");
                            let doubled = 2 * period as u16;
                            assert_eq!(period_and_start(&woven, 5), (doubled, edge));
                        }
                        Err(refusal) => {
                            assert!(period >= 2_048, "{period}");
                            assert_eq!(refusal, DoubledPeriod);
                        }
                    }
                }
            }
        }
    }

    /// (Ask 10, 6), the one before the other.
    #[test]
    fn refusals_are_in_sequence() {
        let one = side(5, &[2, 2_048]);
        assert_eq!(weave(&one, &one), Err(OpenInBoth));
        assert_eq!(weave(&one, &side(6, &[3])), Err(OpenInBoth));
        assert_eq!(weave(&side(5, &[3]), &one), Err(OpenInBoth));
        assert_eq!(weave(&one, &side(7, &[3])), Err(DoubledPeriod));
        assert_eq!(weave(&side(7, &[4_095]), &one), Err(DoubledPeriod));
        for line in [0, 31, 63] {
            let (a, b) = (side(line, &[3]), side(line, &[5]));
            assert_eq!(weave(&a, &b), Err(OpenInBoth));
            assert_eq!(weave(&a, &a), Err(OpenInBoth));
        }
    }

    /// 6@0, 6@2 and 6@1; without the second the root's two nodes of weight 3 are joined to it
    /// (document 02, Ask 8), and the next open stands beside them.
    #[test]
    fn bookings_go_on() {
        let mut woven = weave(&side(1, &[3, 3]), &side(9, &[3])).unwrap();
        assert_eq!(woven.close(2), Ok(()));
        assert_eq!(woven, plan("1: 6/0, 9: 6/1"));
        assert_eq!(woven.open(30, 12).map(|start| start.0), Ok(2));
        assert_eq!(woven, plan("1: 6/0, 9: 6/1, 30: 6/2 2/0"));
        assert_eq!(woven.open(31, 2), Err(Refusal::NoCandidate));
        assert_eq!(woven.open(9, 6), Err(Refusal::LineOpen));
    }

    /// A line of every round has every second one, then every fourth, up to every 2,048th.
    #[test]
    fn a_line_is_woven_11_times() {
        let mut plan = side(5, &[1]);
        for times in 1..=11 {
            plan = weave(&Plan::empty(), &plan).unwrap();
            let span = 1 << times;
            assert_eq!(period_and_start(&plan, 5), (span, span - 1));
            assert_eq!(owner(&plan, u64::MAX), Owner::Line(5));
        }
        assert_eq!(weave(&Plan::empty(), &plan), Err(DoubledPeriod));
        assert_eq!(weave(&plan, &Plan::empty()), Err(DoubledPeriod));
    }
}
