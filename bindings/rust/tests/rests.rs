//! How long the recorder rests. What is expected is worked out from periods and starts, or counted round by round with
//! the owner call itself. Rests past 2^64 of generated plans are compared with the second program's in `second.rs`.

mod plans;

use gaplinte::{Line, Owner, Plan, Round, Walker};
use plans::{case_f, opened, CASE_A, CASE_C};
use second::lists;
use second::random::Random;
use second::shapes::Shape;

const LISTS_OF_A_SHAPE: usize = 25;
const LONGEST_PERIOD: usize = 4095;
/// More than the longest period, so that all rests of the first ones are counted.
const ROUNDS: u64 = 5000;

/// The rest of an idle round.
fn rest(owner: Owner) -> Option<u64> {
    match owner {
        Owner::Line(_) => None,
        Owner::Idle { rest } => Some(rest),
    }
}

/// The owners of so many rounds from a first one on. A walker hands on the same, and counts the owned ones.
fn walked(plan: &Plan, first: u64, rounds: u64) -> Vec<Owner> {
    let mut walker = Walker {
        next: Round(first),
        owned: 70,
    };
    let owners: Vec<_> = (first..first + rounds)
        .map(|round| {
            let owner = plan.owner(Round(round));
            assert_eq!(walker.walk(plan), Ok(owner), "round {round}");
            owner
        })
        .collect();
    let owned = owners.iter().filter(|owner| rest(**owner).is_none());
    assert_eq!(walker.owned, 70 + owned.count() as u64);
    assert_eq!(walker.next, Round(first + rounds));
    owners
}

/// Compares the rests of some idle rounds.
fn expect(plan: &Plan, expected: &[(u64, u64)]) {
    for &(round, rest) in expected {
        let owner = plan.owner(Round(round));
        assert_eq!(owner, Owner::Idle { rest }, "round {round}");
    }
}

/// 0 stands for an owned round. The next owned ones after the idle ones of 24 rounds are 7, 10, 12, 15, 18 and 24.
#[test]
fn in_case_a() {
    let plan = opened(&CASE_A);
    expect(&plan, &[(9, 1)]);
    let of_24 = [
        0, 0, 0, 0, 0, 2, 1, 0, 0, 1, 0, 1, 0, 0, 1, 0, 0, 1, 0, 0, 0, 3, 2, 1,
    ];
    let of_24 = of_24.map(|rest| (rest > 0).then_some(rest));
    // 2^64 divided by 24 leaves 16, and 2^64 - 1 leaves 15.
    for (first, left) in [(0, 0), (u64::MAX - 48, 15)] {
        let rests = walked(&plan, first, 48).into_iter().map(rest);
        assert!(rests.eq(of_24.into_iter().cycle().skip(left).take(48)));
    }
}

#[test]
fn in_the_empty_plan() {
    let mut emptied = opened(&[(4, 0)]);
    assert_eq!(emptied.close(Line(1)), Ok(()));
    for plan in [Plan::new(), emptied] {
        expect(&plan, &[(0, 0), (1, 0), (1 << 32, 0), (u64::MAX, 0)]);
        let owners = walked(&plan, u64::MAX - 5, 5);
        assert_eq!(owners, [Owner::Idle { rest: 0 }; 5]);
    }
}

/// 2^12 divided by 4,095 leaves 1, so 2^64 leaves 16: the line owns 2^64 - 16, and then 2^64 + 4079.
#[test]
fn longest() {
    let plan = opened(&[(4095, 0)]);
    expect(&plan, &[(1, 4094), (2, 4093), (4094, 1), (4096, 4094)]);
    let last = u64::MAX;
    expect(&plan, &[(last - 16, 1), (last - 14, 4094), (last, 4080)]);
    for owned in [0, 4095, last - 15] {
        assert_eq!(plan.owner(Round(owned)), Owner::Line(Line(1)));
    }
    let owners = walked(&plan, last - 2, 2).into_iter().map(rest);
    assert!(owners.eq([Some(4082), Some(4081)]));
}

/// The next owned round is past 2^64 - 1 and belongs to one line or to another.
#[test]
fn past_64_bits() {
    // 2^64 is owned, as every even round is.
    expect(&opened(&[(2, 0)]), &[(u64::MAX, 1)]);
    // Of 2,048 rounds the last one alone is idle, and 2^64 divided by 2,048 leaves 0.
    expect(&opened(&case_f()), &[(2047, 1), (u64::MAX, 1)]);
    // 2^64 divided by 12 leaves 4: 2^64 - 1 leaves 3, and 2^64 + 2 leaves 6 and is the next one that is owned.
    let plan = opened(&CASE_C);
    expect(&plan, &[(3, 3), (5, 1), (7, 5), (11, 1)]);
    expect(&plan, &[(u64::MAX - 4, 1), (u64::MAX, 3)]);
}

/// Round 10 is line 3's: when it is closed 12 is the next owned round, and without line 1 it is 13.
#[test]
fn longer_after_a_close() {
    let mut plan = opened(&CASE_A);
    for (line, rests) in [(3, [3, 2, 1]), (1, [4, 3, 2])] {
        assert_eq!(plan.close(Line(line)), Ok(()));
        let rests: Vec<_> = (9..).zip(rests).collect();
        expect(&plan, &rests);
    }
}

/// The rounds before an owned one have the rests .. 3, 2, 1. After the last owned one there is nothing to compare with.
fn expect_counted(owners: &[Owner]) {
    for stretch in owners.split_inclusive(|owner| rest(*owner).is_none()) {
        match stretch.split_last() {
            Some((Owner::Line(_), idle)) => {
                let counted = (1..=idle.len() as u64).rev();
                let counted = counted.map(|rest| Owner::Idle { rest });
                assert!(idle.iter().copied().eq(counted), "{idle:?}");
            }
            _ => assert!(stretch.len() < LONGEST_PERIOD),
        }
    }
}

/// Rests of every length are seen often, and those of the empty plan.
#[test]
fn round_by_round() {
    let mut random = Random::new(18);
    let mut seen = [0; 5];
    for shape in Shape::ALL.repeat(LISTS_OF_A_SHAPE) {
        let mut plan = Plan::new();
        let list = lists::generate(shape, &mut random);
        plan.run_list(&list).unwrap();
        let end = u64::MAX - ROUNDS;
        for first in [0, random.below(end), end] {
            let owners = walked(&plan, first, ROUNDS);
            match plan.lines().next() {
                Some(_) => expect_counted(&owners),
                None => assert!(owners.iter().all(|&owner| rest(owner) == Some(0))),
            }
            for rest in owners.into_iter().filter_map(rest) {
                let digits = rest.checked_ilog10().map_or(0, |power| power + 1);
                seen[digits as usize] += 1;
            }
        }
    }
    assert!(seen.iter().all(|&count| count > 1000), "{seen:?}");
}

#[test]
fn owners_are_displayed() {
    let plan = opened(&CASE_A);
    let shown = |plan: &Plan, round| plan.owner(Round(round)).to_string();
    assert_eq!(shown(&plan, 7), "line 2");
    assert_eq!(shown(&plan, 9), "idle, the next owned round is 1 later");
    assert_eq!(shown(&plan, 21), "idle, the next owned round is 3 later");
    assert_eq!(shown(&Plan::new(), 21), "idle, no line is open");
    assert_eq!(plan.owner(Round(7)).line(), Some(Line(2)));
    assert_eq!(plan.owner(Round(9)).line(), None);
}
