//! Turns of a line: exactly the rounds that it owns among so many from a first one on. What is expected is worked out
//! from its period and its start.

mod plans;

use gaplinte::{Line, Plan, Round};
use plans::{case_f, opened, CASE_A, CASE_C};

/// Compares the turns of a line from a first round on, for some numbers of rounds.
fn expect(plan: &Plan, line: u64, first: u64, expected: &[(u32, u64)]) {
    for &(rounds, turns) in expected {
        let answer = plan.turns(Line(line), Round(first), rounds);
        assert_eq!(answer, Ok(turns), "{rounds} rounds from {first}");
    }
}

/// Line 4 owns rounds 3, 15, 27, 39, 51, 63, 75, 87 and 99.
#[test]
fn from_a_first_round_on() {
    let plan = opened(&CASE_A);
    expect(&plan, 4, 0, &[(0, 0), (3, 0), (4, 1), (15, 1), (16, 2)]);
    expect(&plan, 4, 0, &[(99, 8), (100, 9)]);
    expect(&plan, 4, 3, &[(0, 0), (1, 1), (12, 1), (13, 2)]);
    expect(&plan, 4, 4, &[(0, 0), (11, 0), (12, 1), (23, 1), (24, 2)]);
    expect(&plan, 4, 15, &[(0, 0), (1, 1), (84, 7), (85, 8)]);
}

/// 2^64 leaves 0, 4, 0 and 4 when it is divided by the periods.
#[test]
fn past_64_bits() {
    let plan = opened(&CASE_A);
    let first = u64::MAX;
    // owns 2^64, 2^64 + 4, ..
    expect(&plan, 1, first, &[(1, 0), (2, 1), (5, 1), (6, 2)]);
    // owns 2^64 + 3, 2^64 + 9, ..
    expect(&plan, 2, first, &[(4, 0), (5, 1), (10, 1), (11, 2)]);
    // owns 2^64 + 2, 2^64 + 10, ..
    expect(&plan, 3, first, &[(3, 0), (4, 1), (11, 1), (12, 2)]);
    // owns 2^64 - 1, 2^64 + 11, ..
    expect(&plan, 4, first, &[(0, 0), (1, 1), (12, 1), (13, 2)]);
    expect(&plan, 4, first - 11, &[(11, 0), (12, 1), (23, 1), (24, 2)]);
}

#[test]
fn shortest_and_longest_periods() {
    let most = u32::MAX;
    let every = opened(&[(1, 0)]);
    for first in [0, 1, 1 << 32, u64::MAX] {
        expect(&every, 1, first, &[(0, 0), (1, 1), (most, most.into())]);
    }
    // Of the rounds from 2^64 - 1 on, the second, the fourth .. and the last but one.
    let second = opened(&[(2, 0)]);
    let half = (1 << 31) - 1;
    expect(&second, 1, u64::MAX, &[(1, 0), (2, 1), (most, half)]);
    // 2^32 is 4095 * 1048832 + 256: of the most rounds from 0 on, 0, 4095 .. 4095 * 1048832 are turns. 2^12 divided by
    // 4,095 leaves 1, so 2^64 leaves 16: from 2^64 - 1 on the first turn is 2^64 + 4079, and of the most rounds, up to
    // 2^64 + 2^32 - 3, the last is 4095 * 1048831 later.
    let longest = opened(&[(4095, 0)]);
    let turns = 1_048_832;
    expect(&longest, 1, 0, &[(1, 1), (4095, 1), (most, turns + 1)]);
    let first = u64::MAX;
    expect(&longest, 1, first, &[(4080, 0), (4081, 1), (8175, 1)]);
    expect(&longest, 1, first, &[(8176, 2), (most, turns)]);
}

/// Counted round by round over whole numbers, for each number of rounds below 5,000, so past the longest period.
#[test]
fn round_by_round() {
    for lines in [&CASE_A[..], &CASE_C, &case_f(), &[(4095, 0)], &[(1, 0)]] {
        let plan = opened(lines);
        for (line, &(period, start)) in (1..).zip(lines) {
            for first in [0, start + 1, (1 << 32) - 1, u64::MAX - 2000, u64::MAX] {
                let mut owned = 0;
                for (rounds, round) in (0..5000).zip(u128::from(first)..) {
                    expect(&plan, line, first, &[(rounds, owned)]);
                    owned += u64::from(round % u128::from(period) == u128::from(start));
                }
            }
        }
    }
}
