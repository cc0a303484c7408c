//! Rests at the borders, for the script of calls (`script.rs`): owners and walks at rounds near
//! 0, 2^32 and 2^64, right before and right after turns, some with their next owned round past
//! 2^64 − 1 (document 02, Ask 4); in plans of one line and of several, in the empty plan and on
//! damaged records.

use crate::border_owners::rounds_in;
use crate::script::{change, opened_in_turn, Step};
use crate::tree::{Plan, LAST_PERIOD};
use crate::walker::Place;
use std::collections::BTreeSet;

const BORDERS: [u64; 7] = [
    0,
    1,
    (1 << 32) - 1,
    1 << 32,
    (1 << 32) + 1,
    u64::MAX - 1,
    u64::MAX,
];

pub fn border_rests() -> Vec<Step> {
    let plans = plans().into_iter();
    let asked = plans.flat_map(|(periods, changes)| asked_after_each(&periods, &changes));
    after_the_last_turn().into_iter().chain(asked).collect()
}

/// The last turn of the longest period, and every round after it: 2^64 leaves 16 when divided by
/// 4,095.
fn after_the_last_turn() -> Vec<Step> {
    let (opens, _) = opened_in_turn(&[LAST_PERIOD]);
    let asked = (u64::MAX - 15..=u64::MAX).flat_map(asked_twice);
    opens.into_iter().chain(asked).collect()
}

/// The periods that each plan opens, and the steps that change it, the last of them to a record
/// that is no tree.
fn plans() -> Vec<(Vec<u64>, Vec<Step>)> {
    vec![
        // line 2 with period 7; an edge that is not below its weight
        (vec![], vec![Step::Write(44, 7), Step::Write(45, 7)]),
        // the line has its last start; a weight is out of range
        (
            vec![4_095],
            vec![Step::Write(23, 4_094), Step::Write(22, 4_096)],
        ),
        // line 2 has its last start; line 2 stands where a node does
        (
            vec![4_094, 2_047],
            vec![Step::Write(45, 2_046), Step::Write(45, 0)],
        ),
        // no line has start 0; line 3 has another start; a root of another weight than line 2's
        (
            vec![4_095, 585, 455],
            vec![Step::Close(1), Step::Write(69, 6), Step::Write(66, 64)],
        ),
    ]
}

/// Asks the plan as opened, and again after each of the changes.
fn asked_after_each(periods: &[u64], changes: &[Step]) -> Vec<Step> {
    let (mut steps, mut held) = opened_in_turn(periods);
    steps.extend(asked(&held.plan));
    for &step in changes {
        change(&mut held, step);
        steps.push(step);
        steps.extend(asked(&held.plan));
    }
    steps
}

/// At the borders, and at those of every open line.
fn asked(plan: &Plan) -> Vec<Step> {
    let rounds: BTreeSet<u64> = rounds_in(plan).into_iter().chain(BORDERS).collect();
    rounds.into_iter().flat_map(asked_twice).collect()
}

/// As a round, and as the next round of a place; the walker refuses the largest one only, since
/// the count is smaller.
fn asked_twice(round: u64) -> [Step; 2] {
    let place = Place {
        next: round,
        owned: round / 2,
    };
    [Step::Owner(round), Step::Walk(place)]
}

#[cfg(test)]
mod tests {
    use super::*;
    use crate::ask::{owner, Owner};
    use crate::naive::{expected_owner, times, Time};
    use crate::record::Held;
    use crate::refusal::Refusal;
    use crate::script::tests::{answers, trees_left_by_writes};
    use crate::walker::{walk, walk_lent, Answer};

    /// An owner or a walk that was answered idle.
    struct Rested {
        times: Vec<Time>,
        round: u64,
        rest: u64,
        walks: bool,
    }

    impl Rested {
        /// The next owned round is past 2^64 − 1.
        fn is_past(&self) -> bool {
            u128::from(self.round) + u128::from(self.rest) > u64::MAX.into()
        }

        /// The line of the next owned round, and its start.
        fn next(&self) -> Option<(u8, u16)> {
            let later = u128::from(self.round) + u128::from(self.rest);
            let fits = |it: &&Time| later % u128::from(it.period) == it.start.into();
            self.times.iter().find(fits).map(|it| (it.line, it.start))
        }
    }

    /// The round that a step asks for, and its answer; of a walk, that of both forms.
    fn answer(plan: &Plan, step: Step) -> Option<(u64, Answer)> {
        match step {
            Step::Owner(round) => Some((round, Ok(owner(plan, round)))),
            Step::Walk(place) => {
                let (answer, after) = walk(plan, place);
                let mut lent = place;
                assert_eq!(walk_lent(plan, &mut lent), answer);
                assert_eq!(lent, after);
                Some((place.next, answer))
            }
            _ => None,
        }
    }

    /// Every answer is the one that periods and starts give, or the walker's refusal.
    fn rested() -> Vec<Rested> {
        let mut held = Held::empty();
        let mut all = Vec::new();
        for step in border_rests() {
            change(&mut held, step);
            let Some((round, answer)) = answer(&held.plan, step) else {
                continue;
            };
            let walks = matches!(step, Step::Walk(_));
            let times = times(&held.plan);
            if walks && round == u64::MAX {
                assert_eq!(answer, Err(Refusal::Place));
                continue;
            }
            assert_eq!(answer, Ok(expected_owner(&times, round)), "{round}");
            if let Ok(Owner::Idle { rest }) = answer {
                all.push(Rested {
                    times,
                    round,
                    rest,
                    walks,
                });
            }
        }
        all
    }

    /// Each write does what its plan says.
    #[test]
    fn writes_leave_another_tree_and_then_none() {
        let left = trees_left_by_writes(&border_rests());
        assert_eq!(left, [Some(true), None].repeat(4));
    }

    #[test]
    fn rests_are_0_in_the_empty_plan_only() {
        let rested = rested();
        for it in &rested {
            assert_eq!(it.rest == 0, it.times.is_empty(), "{}", it.round);
        }
        let rests: BTreeSet<u64> = rested.iter().map(|it| it.rest).collect();
        for rest in [0, 1, 2, 4_093, 4_094] {
            assert!(rests.contains(&rest), "{rest}");
        }
        assert_eq!(rests.last(), Some(&4_094));
        // the seven borders, in the empty plan and on four records that are no tree
        let empty = rested.iter().filter(|it| it.rest == 0);
        assert_eq!(empty.count(), 5 * (7 + 6));
    }

    /// Counted by hand: 15 rounds after the last turn of the longest period; 2^64 − 1 where line
    /// 2 has period 7; and of each of the seven other trees 2^64 − 1, 2^64 − 2 and the round after
    /// its last turn. A walk at 2^64 − 1 is refused.
    #[test]
    fn rests_pass_64_bits() {
        let rested = rested();
        let past = |walks: bool| {
            let all = rested.iter();
            all.filter(|it| it.is_past() && it.walks == walks).count()
        };
        assert_eq!(past(false), 15 + 1 + 7 * 3);
        assert_eq!(past(true), 14 + 7 * 2);
    }

    /// Line and start of the next owned round, where it is past 2^64 − 1 and where it is not.
    #[test]
    fn next_rounds_are_of_several_lines_and_starts() {
        let rested = rested();
        let next = |past: bool| -> BTreeSet<(u8, u16)> {
            let all = rested.iter().filter(|it| it.is_past() == past);
            all.filter_map(Rested::next).collect()
        };
        let lines_past = [
            (1, 0),
            (1, 4_094),
            (2, 0),
            (2, 1),
            (2, 2_046),
            (3, 2),
            (3, 392),
        ];
        assert_eq!(next(true), BTreeSet::from(lines_past));
        for line in [(1, 0), (2, 1), (3, 2)] {
            assert!(next(false).contains(&line), "{line:?}");
        }
    }

    /// Found by hand; 2^64 leaves 16 when divided by 4,095, 585 or 455, 2 by 7 and 512 by 4,094
    /// or 2,047, and 2^32 leaves 256 when divided by 4,095.
    #[test]
    fn border_rests_print_their_answers() {
        let text = answers(&border_rests());
        for printed in [
            // 4,095@0
            "owner 1 idle 4094",
            "owner 4294967041 idle 4094",
            "owner 4294967296 idle 3839",
            "owner 18446744073709551601 idle 4094",
            "owner 18446744073709551615 idle 4080",
            "walk 1 0 idle 4094 2 0",
            "lent 18446744073709551614 9223372036854775807 idle 4081 18446744073709551615 9223372036854775807",
            // 4,095@4,094
            "owner 0 idle 4094",
            "owner 18446744073709551600 idle 4094",
            "owner 18446744073709551615 idle 4079",
            // 7@0
            "owner 18446744073709551615 idle 6",
            // 4,094@0 and 2,047@1, then 2,047@2,046
            "owner 18446744073709551106 idle 2046",
            "owner 18446744073709551615 idle 1537",
            "owner 18446744073709551615 idle 1535",
            // 4,095@0, 585@1 and 455@2, then 455@392
            "owner 18446744073709551603 idle 454",
            "owner 18446744073709551615 idle 442",
            "owner 18446744073709551615 idle 377",
            // the empty plan
            "owner 18446744073709551615 idle 0",
            "walk 4294967296 2147483648 idle 0 4294967297 2147483648",
        ] {
            assert!(text.lines().any(|line| line == printed), "{printed}");
        }
    }
}
