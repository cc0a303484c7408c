//! Turns at the borders, for the script of calls (`script.rs`): of each open line, from rounds
//! near 0, 2^32 and 2^64 on, over no round, one, about a period and the most (document 02,
//! Ask 1); and of lines that are refused.

use crate::ask::{show, Shown};
use crate::record::RECORD_NUMBERS;
use crate::script::{change, opened_in_turn, Step};
use crate::tree::{Plan, LAST_LINE};
use std::collections::BTreeSet;

/// Lines that no plan here has open, and numbers that are no line; in fewer bits two of
/// these would be line 1, which every plan has open.
const NOT_OPEN: [u64; 7] = [0, 4, LAST_LINE, 64, 257, 1 << 32 | 1, u64::MAX];

/// Case A, a line that has every round, and the longest period, each with a number that is
/// written over and leaves another tree, and then one that leaves none.
pub fn border_turns() -> Vec<Step> {
    let last = RECORD_NUMBERS as u64 - 1;
    let plans: [(&[u64], Step, Step); 3] = [
        // line 3 has another start; line 2 stands where a node does
        (&[4, 6, 8, 2, 12], Step::Write(71, 1), Step::Write(47, 1)),
        // the line has another period; a weight is out of range
        (&[1], Step::Write(22, 7), Step::Write(0, 4_096)),
        // line 3 has another start; an edge is out of range
        (
            &[4_095, 15, 4_095],
            Step::Write(69, 272),
            Step::Write(last, 65_535),
        ),
    ];
    plans
        .into_iter()
        .flat_map(|(periods, other_tree, no_tree)| asked_thrice(periods, other_tree, no_tree))
        .collect()
}

/// The turns of the plan as opened, then those of the other tree, then these once more of the
/// record that is no tree.
fn asked_thrice(periods: &[u64], other_tree: Step, no_tree: Step) -> Vec<Step> {
    let (mut steps, mut held) = opened_in_turn(periods);
    steps.extend(turns_in(&held.plan));
    change(&mut held, other_tree);
    let in_other_tree = turns_in(&held.plan);
    steps.push(other_tree);
    steps.extend(&in_other_tree);
    steps.push(no_tree);
    steps.extend(in_other_tree);
    steps
}

/// Turns of every open line, then of those that are refused, over no round too.
fn turns_in(plan: &Plan) -> Vec<Step> {
    let open = (0..=LAST_LINE).filter_map(|line| Some((line, show(plan, line).ok()?)));
    let mut steps: Vec<Step> = open
        .flat_map(|(line, shown)| turns_of_open(line, &shown))
        .collect();
    for line in NOT_OPEN {
        for (first, rounds) in [(0, 0), (0, 1), (u64::MAX, u32::MAX)] {
            steps.push(Step::Turns {
                line,
                first,
                rounds,
            });
        }
    }
    steps
}

fn turns_of_open(line: u64, shown: &Shown) -> Vec<Step> {
    let period = u32::from(shown.period.0);
    let counts = BTreeSet::from([0, 1, period - 1, period, period + 1, u32::MAX]);
    let mut steps = Vec::new();
    for first in border_rounds(shown) {
        steps.extend(counts.iter().map(|&rounds| Step::Turns {
            line,
            first,
            rounds,
        }));
    }
    steps
}

/// Each border, a round there that the line owns, and the rounds beside both.
pub(crate) fn border_rounds(shown: &Shown) -> BTreeSet<u64> {
    let (period, start) = (u64::from(shown.period.0), u64::from(shown.start.0));
    let last_owned = |border: u64| border - (border % period + period - start) % period;
    let (past_32_bits, most) = (1 << 32, u64::MAX);
    let middles = [
        0,
        start,
        past_32_bits,
        last_owned(past_32_bits),
        most,
        last_owned(most),
    ];
    middles
        .into_iter()
        .flat_map(|round| [round.checked_sub(1), Some(round), round.checked_add(1)])
        .flatten()
        .collect()
}

#[cfg(test)]
mod tests {
    use super::*;
    use crate::ask::{owner, Owner};
    use crate::record::Held;
    use crate::script::opens_in_turn;
    use crate::script::tests::{answers, trees_left_by_writes};

    /// Each write does what its plan says.
    #[test]
    fn writes_leave_another_tree_and_then_none() {
        let left = trees_left_by_writes(&border_turns());
        assert_eq!(left, [Some(true), None].repeat(3));
    }

    #[test]
    fn border_rounds_are_borders_and_owned_rounds() {
        let mut held = Held::empty();
        for step in opens_in_turn(&[4, 6, 8, 2, 12]) {
            change(&mut held, step);
        }
        let shown = show(&held.plan, 5).unwrap();
        let rounds = border_rounds(&shown);
        let owned = |&&round: &&u64| owner(&held.plan, round) == Owner::Line(5);
        assert_eq!(rounds.iter().filter(owned).count(), 3);
        for border in [
            0,
            1,
            (1 << 32) - 1,
            1 << 32,
            (1 << 32) + 1,
            u64::MAX - 1,
            u64::MAX,
        ] {
            assert!(rounds.contains(&border), "{border}");
        }
    }

    /// Counted by hand; 2^64 leaves 4 when divided by 6 or 12, 16 by 4,095 and 2 by 7.
    #[test]
    fn border_turns_print_their_answers() {
        let text = answers(&border_turns());
        for turns in [
            // 6@1 of case A
            "2 0 1 0 0",
            "2 1 1 0 1",
            "2 1 7 0 2",
            "2 2 5 0 0",
            "2 2 6 0 1",
            "2 18446744073709551613 7 0 2",
            "2 18446744073709551614 5 0 0",
            "2 18446744073709551614 6 0 1",
            "2 18446744073709551613 4294967295 0 715827883",
            "2 18446744073709551614 4294967295 0 715827882",
            // every round
            "1 18446744073709551615 4294967295 0 4294967295",
            // 7@0, after the write
            "1 18446744073709551614 4294967295 0 613566757",
            // 4,095@0
            "1 18446744073709551600 4096 0 2",
            "1 18446744073709551601 4094 0 0",
            // a closed line and no line
            "4 0 0 4 -",
            "257 0 0 1 -",
            "18446744073709551615 18446744073709551615 4294967295 1 -",
            // a record that is no tree
            "2 1 1 4 -",
        ] {
            let line = format!("turns {turns}");
            assert!(text.lines().any(|printed| printed == line), "{line}");
        }
    }
}
