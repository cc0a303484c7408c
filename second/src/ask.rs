//! Document 01, section Asking the plan: owner and show. Document 02, Ask 1: turns; Ask 4: how
//! long the recorder rests.

use crate::refusal::Refusal;
use crate::tree::{Node, Period, Plan, Start, Under, LAST_LINE, LAST_PERIOD};
use std::ops::Range;

/// Length of a path (Asking the plan, 3).
pub const ROWS: usize = 11;

/// One row of a path; the default is the unused row (Asking the plan, 3).
#[derive(Clone, Copy, Debug, Default, PartialEq, Eq)]
pub struct Row {
    pub weight: u16,
    pub edge: u16,
}

/// A line and the rows in use of its path, from the root on.
#[derive(Clone, Debug, PartialEq, Eq)]
pub(crate) struct Path {
    pub(crate) line: u8,
    pub(crate) rows: Vec<Row>,
}

/// The answer of show (Asking the plan, 3).
#[derive(Clone, Copy, Debug, PartialEq, Eq)]
pub struct Shown {
    pub period: Period,
    pub start: Start,
    pub path: [Row; ROWS],
}

/// The answer of owner (Asking the plan, 1).
#[derive(Clone, Copy, Debug, PartialEq, Eq)]
pub enum Owner {
    /// The line that owns the round.
    Line(u8),
    /// No line owns it. The rest is how many rounds lie from it to the next owned one, that
    /// number less this (Ask 4, 2); it is 0 in the empty plan only (Ask 4, 3).
    Idle { rest: u64 },
}

impl Owner {
    /// None is idle.
    pub fn line(self) -> Option<u8> {
        match self {
            Owner::Line(line) => Some(line),
            Owner::Idle { .. } => None,
        }
    }
}

/// There is no refusal (Asking the plan, 1 and 2).
pub fn owner(plan: &Plan, round: u64) -> Owner {
    match owner_at(plan, round.into()) {
        Some(line) => Owner::Line(line),
        None => Owner::Idle {
            rest: rest(plan, round),
        },
    }
}

/// The smallest number of rounds after which the walk finds a line (Ask 4, 2): one round after
/// the other is walked. As many rounds in succession as a line's period have one that it owns
/// (The tree, 7 and 12), so that the search ends.
fn rest(plan: &Plan, round: u64) -> u64 {
    if plan.root.is_none() {
        return 0;
    }
    let is_owned = |&after: &u64| {
        let later = u128::from(round) + u128::from(after);
        owner_at(plan, later).is_some()
    };
    (0..LAST_PERIOD)
        .find(is_owned)
        .expect("a line owns one of as many rounds as its period")
}

/// The line, None where the round is idle. The round is any whole number, since turns, the rest
/// and the sheet go past 2^64 (document 02, Ask 1, Ask 4 and Ask 5).
pub(crate) fn owner_at(plan: &Plan, round: u128) -> Option<u8> {
    let root = plan.root.as_ref()?;
    walk(root, 1, 0, round)
}

/// Selects the edge by the remainder of the round (The tree, 12).
fn walk(node: &Node, step: u128, offset: u128, round: u128) -> Option<u8> {
    let span = step * u128::from(node.weight);
    let edge = (round % span - offset) / step;
    match node.edges.get(&u16::try_from(edge).ok()?)? {
        Under::Line(line) => Some(*line),
        Under::Node(below) => walk(below, span, offset + edge * step, round),
    }
}

/// (Asking the plan, 3).
pub fn show(plan: &Plan, line: u64) -> Result<Shown, Refusal> {
    let line = plan.check_open_line(line)?;
    let rows = plan.root.as_ref().and_then(|root| rows_to(root, line));
    let rows = rows.ok_or(Refusal::LineNotOpen)?;
    let mut path = [Row::default(); ROWS];
    path[..rows.len()].copy_from_slice(&rows);
    Ok(Shown {
        period: period_of(&rows),
        start: start_of(&rows),
        path,
    })
}

/// The paths of the open lines, that of the lowest number first.
pub(crate) fn paths(plan: &Plan) -> Vec<Path> {
    let path = |line: u8| {
        let rows = rows_to(plan.root.as_ref()?, line)?;
        Some(Path { line, rows })
    };
    (0..=LAST_LINE as u8).filter_map(path).collect()
}

/// How many rounds the line owns among so many that begin with the first, as whole numbers
/// (document 02, Ask 1). As many rounds in succession as its period have one that it owns
/// (The tree, 7 and 12), so that only those after the last whole period are walked.
pub fn turns(plan: &Plan, line: u64, first: u64, rounds: u32) -> Result<u64, Refusal> {
    let period = u32::from(show(plan, line)?.period.0);
    let end = u128::from(first) + u128::from(rounds);
    let left = u128::from(rounds % period);
    Ok(u64::from(rounds / period) + count_owned(plan, line, end - left..end))
}

/// Walks every one of the rounds.
fn count_owned(plan: &Plan, line: u64, rounds: Range<u128>) -> u64 {
    let owner = |round| owner_at(plan, round).map(u64::from);
    rounds
        .map(|round| u64::from(owner(round) == Some(line)))
        .sum()
}

/// Weight and edge of each node above the line, from this node on.
fn rows_to(node: &Node, line: u8) -> Option<Vec<Row>> {
    node.edges.iter().find_map(|(&edge, under)| {
        let below = match under {
            Under::Line(other) => (*other == line).then(Vec::new),
            Under::Node(node) => rows_to(node, line),
        }?;
        let row = Row {
            weight: node.weight,
            edge,
        };
        Some([vec![row], below].concat())
    })
}

/// (The tree, 7).
fn period_of(rows: &[Row]) -> Period {
    Period(rows.iter().map(|row| row.weight).product())
}

/// Equation 6, its factors taken from the weights (The tree, 9 and 10).
fn start_of(rows: &[Row]) -> Start {
    let terms = (0..rows.len()).map(|at| rows[at].edge * period_of(&rows[..at]).0);
    Start(terms.sum())
}

#[cfg(test)]
mod tests {
    use super::*;

    /// Near 0, 2^32 and 2^64; from the last ones on the rounds pass 2^64.
    fn border_rounds() -> impl Iterator<Item = u64> {
        let near_32_bits = (1 << 32) - 9..(1 << 32) + 9;
        (0..18).chain(near_32_bits).chain(u64::MAX - 17..=u64::MAX)
    }

    fn assert_turns_are_all_rounds_walked(plan: &Plan, line: u64, counts: &[u32]) {
        for first in border_rounds() {
            for &rounds in counts {
                let end = u128::from(first) + u128::from(rounds);
                let walked = count_owned(plan, line, first.into()..end);
                assert_eq!(
                    turns(plan, line, first, rounds),
                    Ok(walked),
                    "{line} {first} {rounds}"
                );
            }
        }
    }

    fn opened(periods: &[u64]) -> Plan {
        let mut plan = Plan::empty();
        for (line, &period) in (0..).zip(periods) {
            plan.open(line, period).unwrap();
        }
        plan
    }

    /// Several periods and a part of one, in plans without and with idle rounds.
    #[test]
    fn turns_are_all_rounds_walked() {
        let every: Vec<u32> = (0..40).collect();
        for periods in [&[1][..], &[2, 4, 4], &[3, 9], &[4, 6, 8, 12], &[5, 35, 10]] {
            let plan = opened(periods);
            for line in 0..periods.len() as u64 {
                assert_turns_are_all_rounds_walked(&plan, line, &every);
            }
        }
    }

    #[test]
    fn turns_of_long_periods_are_all_rounds_walked() {
        for (periods, line, period) in [(&[4_095, 15, 4_095][..], 2, 4_095), (&[2_047], 0, 2_047)] {
            let counts = [0, 1, period - 1, period, period + 1, 2 * period + 16];
            assert_turns_are_all_rounds_walked(&opened(periods), line, &counts);
        }
    }

    /// Case A with its idle rounds and their rests, found by hand; all four periods divide 24.
    #[test]
    fn rests_in_case_a() {
        let mut plan = Plan::empty();
        for (line, period) in [(1, 4), (2, 6), (3, 8), (4, 12)] {
            plan.open(line, period).unwrap();
        }
        let rests: [(u64, u64); 9] = [
            (5, 2),
            (6, 1),
            (9, 1),
            (11, 1),
            (14, 1),
            (17, 1),
            (21, 3),
            (22, 2),
            (23, 1),
        ];
        let idle = |round: &u64| owner(&plan, *round).line().is_none();
        assert!((0..24).filter(idle).eq(rests.map(|(round, _)| round)));
        for (round, rest) in rests {
            assert_eq!(owner(&plan, round), Owner::Idle { rest }, "{round}");
            let far = round + (u64::MAX / 24 - 1) * 24;
            assert_eq!(owner(&plan, far), Owner::Idle { rest }, "{far}");
        }
    }

    /// 2^64 − 1 leaves 15 when divided by 4,095.
    #[test]
    fn rests_of_the_longest_period() {
        let plan = opened(&[4_095]);
        for (round, rest) in [
            (1, 4_094),
            (2, 4_093),
            (4_094, 1),
            (u64::MAX - 16, 1),
            (u64::MAX - 14, 4_094),
            (u64::MAX, 4_080),
        ] {
            assert_eq!(owner(&plan, round), Owner::Idle { rest }, "{round}");
        }
        for round in [0, 4_095, u64::MAX - 15] {
            assert_eq!(owner(&plan, round), Owner::Line(0), "{round}");
        }
    }

    /// No round up to the next owned one is passed over, also where that is past 2^64: as a
    /// round of 64 bits 2^64 would be 0, which the first line of each plan owns.
    #[test]
    fn rests_end_at_the_first_round_that_fits() {
        for periods in [&[7][..], &[3, 9], &[5, 35, 10], &[4_095, 585, 455]] {
            let plan = opened(periods);
            let lines = 0..periods.len() as u64;
            let shown: Vec<Shown> = lines.map(|line| show(&plan, line).unwrap()).collect();
            let is_fitting = |round: u128| {
                let fits = |it: &Shown| round % u128::from(it.period.0) == it.start.0.into();
                shown.iter().any(fits)
            };
            for first in border_rounds() {
                let Owner::Idle { rest } = owner(&plan, first) else {
                    assert!(is_fitting(first.into()), "{first}");
                    continue;
                };
                let next = u128::from(first) + u128::from(rest);
                assert!(is_fitting(next), "{first}");
                assert!(!(u128::from(first)..next).any(is_fitting), "{first}");
            }
        }
    }

    #[test]
    fn rests_are_0_in_the_empty_plan() {
        let mut emptied = opened(&[4, 6]);
        emptied.close(0).unwrap();
        emptied.close(1).unwrap();
        for round in border_rounds() {
            assert_eq!(owner(&Plan::empty(), round), Owner::Idle { rest: 0 });
            assert_eq!(owner(&emptied, round), Owner::Idle { rest: 0 });
        }
    }

    /// 2^64 leaves 4 when divided by 6 and 16 when divided by 4,095: as a round of 64 bits
    /// it would be 0, which leaves 0.
    #[test]
    fn rounds_past_64_bits_are_no_smaller_ones() {
        let plan = opened(&[4, 6]);
        let past = 1 << 64;
        let owners = (past..past + 6).map(|round| owner_at(&plan, round));
        let expected = [Some(0), None, None, Some(1), Some(0), None];
        assert!(owners.eq(expected));
        let plan = opened(&[4_095]);
        assert_eq!(owner_at(&plan, past), None);
        assert_eq!(owner_at(&plan, past - 16), Some(0));
        assert_eq!(owner_at(&plan, past - 16 + 4_095), Some(0));
    }
}
