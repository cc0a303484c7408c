//! Document 02, Ask 5: the sheet of a plan.

use crate::ask::{owner_at, turns};
use crate::tree::{Plan, LAST_LINE};
use std::array;

/// Lines of a plan (The tree, 2).
pub const LINES: usize = LAST_LINE as usize + 1;

/// The columns of a sheet (Ask 5, 1).
#[derive(Clone, Copy, Debug, PartialEq, Eq)]
pub struct Sheet {
    /// Of the lines 0 to 63; 0 for a closed one.
    pub turns: [u64; LINES],
    pub idle: u64,
}

/// The sheet of so many rounds that begin with the first, as whole numbers (Ask 5, 1). The
/// turns of an open line are those of Ask 1; each number is a line, so that only a closed one
/// is refused there. A sheet itself has no refusal.
pub fn sheet(plan: &Plan, first: u64, rounds: u16) -> Sheet {
    let turns_of = |line: usize| turns(plan, line as u64, first, rounds.into()).unwrap_or(0);
    Sheet {
        turns: array::from_fn(turns_of),
        idle: idle_rounds(plan, first, rounds),
    }
}

/// Walks every one of the rounds, past 2^64 too (Ask 5, 1).
fn idle_rounds(plan: &Plan, first: u64, rounds: u16) -> u64 {
    let first = u128::from(first);
    let all = first..first + u128::from(rounds);
    all.map(|round| u64::from(owner_at(plan, round).is_none()))
        .sum()
}

#[cfg(test)]
pub(crate) mod tests {
    use super::*;
    use crate::lists::generate;
    use crate::naive::{expected_sheet, times};
    use crate::orders::run;
    use crate::random::Random;
    use crate::shapes::Shape;

    /// These turns, 0 for every other line.
    fn sheet_of(turns: &[(usize, u64)], idle: u64) -> Sheet {
        let mut columns = [0; LINES];
        for &(line, count) in turns {
            columns[line] = count;
        }
        Sheet {
            turns: columns,
            idle,
        }
    }

    /// Opens the periods as lines 1, 2, 3 ..
    fn opened(periods: &[u64]) -> Plan {
        let mut plan = Plan::empty();
        for (line, &period) in (1..).zip(periods) {
            plan.open(line, period).unwrap();
        }
        plan
    }

    /// First round, rounds, turns that are not 0, idle rounds.
    pub(crate) type Columns<'a> = (u64, u16, &'a [(usize, u64)], u64);

    fn assert_sheets(plan: &Plan, expected: &[Columns]) {
        for &(first, rounds, turns, idle) in expected {
            let expected = sheet_of(turns, idle);
            assert_eq!(sheet(plan, first, rounds), expected, "{first} {rounds}");
        }
    }

    /// Of the rounds 0 to 23 line 1 has 0, 4, 8, 12, 16 and 20, line 2 has 1, 7, 13 and 19,
    /// line 3 has 2, 10 and 18, line 4 has 3 and 15; all four periods divide 24, and 65,535 is
    /// 2,730 times 24 and 15.
    #[test]
    fn case_a_from_0() {
        let plan = opened(&[4, 6, 8, 12]);
        assert_sheets(
            &plan,
            &[
                (0, 1, &[(1, 1)], 0),
                (0, 4, &[(1, 1), (2, 1), (3, 1), (4, 1)], 0),
                (0, 6, &[(1, 2), (2, 1), (3, 1), (4, 1)], 1),
                (0, 10, &[(1, 3), (2, 2), (3, 1), (4, 1)], 3),
                (5, 6, &[(1, 1), (2, 1), (3, 1)], 3),
                (21, 3, &[], 3),
                (0, 24, &[(1, 6), (2, 4), (3, 3), (4, 2)], 9),
                (
                    0,
                    65_535,
                    &[(1, 16_384), (2, 10_923), (3, 8_192), (4, 5_461)],
                    24_575,
                ),
            ],
        );
    }

    /// 2^64 leaves 1 when divided by 3, 2 by 7 and 16 by 4,095. If the round after 2^64 − 1 were
    /// 0, the first sheet of each plan here would have one turn more.
    #[test]
    fn rounds_past_64_bits() {
        let most = u64::MAX;
        assert_sheets(
            &opened(&[3]),
            &[
                (most, 2, &[(1, 1)], 1),
                (most, 1, &[(1, 1)], 0),
                (most, 4, &[(1, 2)], 2),
                (most - 1, 2, &[(1, 1)], 1),
                (most - 1, 4, &[(1, 1)], 3),
            ],
        );
        assert_sheets(
            &opened(&[7]),
            &[
                (most - 1, 10, &[(1, 2)], 8),
                (most, 6, &[], 6),
                (most, 7, &[(1, 1)], 6),
            ],
        );
        assert_sheets(
            &opened(&[4_095]),
            &[
                (most, 4_080, &[], 4_080),
                (most, 4_081, &[(1, 1)], 4_080),
                (most, 65_535, &[(1, 16)], 65_519),
            ],
        );
    }

    const FIRSTS: [u64; 7] = [
        0,
        1,
        (1 << 32) - 1,
        1 << 32,
        (1 << 63) - 1,
        u64::MAX - 1,
        u64::MAX,
    ];

    #[test]
    fn no_round_lists_nothing() {
        for periods in [&[][..], &[1], &[7], &[4, 6, 8, 12], &[4_095]] {
            let plan = opened(periods);
            for first in FIRSTS {
                assert_eq!(sheet(&plan, first, 0), sheet_of(&[], 0), "{first}");
            }
        }
    }

    /// Emptied too.
    #[test]
    fn every_round_of_the_empty_plan_is_idle() {
        let mut emptied = opened(&[4, 6]);
        emptied.close(1).unwrap();
        emptied.close(2).unwrap();
        for plan in [Plan::empty(), emptied] {
            for first in FIRSTS {
                for rounds in [0, 1, 2, 300, u16::MAX] {
                    let expected = sheet_of(&[], rounds.into());
                    assert_eq!(sheet(&plan, first, rounds), expected, "{first} {rounds}");
                }
            }
        }
    }

    /// One line that has every round, and 1/3, twice 1/6 and three times 1/9 of them: 3@0, 6@1,
    /// 9@2, 6@4, 9@5 and 9@8.
    #[test]
    fn a_plan_may_have_no_idle_round() {
        for first in FIRSTS {
            let every = sheet(&opened(&[1]), first, 65_535);
            assert_eq!(every, sheet_of(&[(1, 65_535)], 0), "{first}");
            let (three, six, nine) = (21_834, 10_917, 7_278);
            let turns = [
                (1, three),
                (2, six),
                (3, nine),
                (4, six),
                (5, nine),
                (6, nine),
            ];
            let shared = sheet(&opened(&[3, 6, 9, 6, 9, 9]), first, 65_502);
            assert_eq!(shared, sheet_of(&turns, 0), "{first}");
        }
    }

    /// Of the rounds 0 to 11 line 1 has 0, 4 and 8, and line 2 has 1 and 7, which line 63 gets
    /// after it.
    #[test]
    fn a_closed_line_has_no_turns() {
        let mut plan = opened(&[4, 6]);
        assert_sheets(&plan, &[(0, 12, &[(1, 3), (2, 2)], 7)]);
        plan.close(2).unwrap();
        assert_sheets(&plan, &[(0, 12, &[(1, 3)], 9)]);
        plan.open(63, 6).unwrap();
        assert_sheets(&plan, &[(0, 12, &[(1, 3), (63, 2)], 7)]);
    }

    /// Plans that lists leave, many of each shape.
    fn plans(seed: u64) -> Vec<Plan> {
        let mut random = Random::new(seed);
        let shapes = Shape::ALL.repeat(40).into_iter();
        shapes
            .map(|shape| {
                let list = generate(shape, &mut random);
                let mut plan = Plan::empty();
                run(&mut plan, &list, &mut vec![0; list.len()]).unwrap();
                plan
            })
            .collect()
    }

    /// Turns over all lines plus the idle rounds make N (Ask 5, 3), and each column is the one
    /// that periods and starts give.
    #[test]
    fn columns_make_all_rounds() {
        let mut random = Random::new(41);
        let (mut with_turns, mut past) = (0, 0);
        for plan in plans(42) {
            for border in [399, 1 << 32, 1 << 63, u64::MAX] {
                let first = border - random.below(400);
                for rounds in [random.below(3) as u16, random.below(800) as u16] {
                    let made = sheet(&plan, first, rounds);
                    let turns: u64 = made.turns.iter().sum();
                    assert_eq!(turns + made.idle, rounds.into(), "{first} {rounds}");
                    let expected = expected_sheet(&times(&plan), first, rounds);
                    assert_eq!(made, expected, "{first} {rounds}");
                    with_turns += u64::from(turns > 0);
                    past += u64::from(u128::from(first) + u128::from(rounds) > 1 << 64);
                }
            }
        }
        assert!(with_turns > 500, "{with_turns}");
        assert!(past > 80, "{past}");
    }
}
