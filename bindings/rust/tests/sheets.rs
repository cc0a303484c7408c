//! The sheet that adds up. What is expected is worked out by hand or from periods and starts, counted round by round with
//! the owner call, or given by the turns call.

mod drawn;
mod overwritten;
mod plans;

use drawn::{first_round, sheet_rounds};
use gaplinte::{Line, OpenLine, Owner, Period, Plan, Refusal, Round, Sheet, Start};
use overwritten::each_overwritten;
use plans::{case_f, opened, CASE_A, CASE_C};
use second::lists;
use second::random::Random;
use second::shapes::Shape;
use std::array;

const LISTS_OF_A_SHAPE: usize = 30;
const DAMAGED_OF_A_SHAPE: usize = 60;
const ROUNDS: u16 = 1000;
const MOST: u16 = u16::MAX;

/// A sheet, whose total is the number of rounds. The plan stays as found.
fn sheet_of(plan: &Plan, first: u64, rounds: u16) -> Sheet {
    let found = plan.clone();
    let sheet = plan.sheet(Round(first), rounds);
    assert_eq!(*plan, found, "a sheet only reads");
    assert_eq!(sheet.total(), rounds.into(), "{rounds} rounds from {first}");
    sheet
}

/// The turns of lines 1, 2, 3 .. and the idle rounds. The other lines have no turns.
fn figures(turns: &[u16], idle: u16) -> Sheet {
    let mut all = [0; 64];
    all[1..=turns.len()].copy_from_slice(turns);
    Sheet { turns: all, idle }
}

fn expect(plan: &Plan, first: u64, rounds: u16, expected: Sheet) {
    let sheet = sheet_of(plan, first, rounds);
    assert_eq!(sheet, expected, "{rounds} rounds from {first}");
}

/// No line is open.
fn expect_all_idle(plan: &Plan) {
    for first in [0, 1, 1 << 32, u64::MAX] {
        for rounds in [0, 1, 7, MOST] {
            expect(plan, first, rounds, figures(&[], rounds));
        }
    }
}

/// Of 24 rounds line 1 owns 0, 4 .. 20, line 2 owns 1, 7, 13 and 19, line 3 owns 2, 10 and 18, line 4 owns 3 and 15.
#[test]
fn in_case_a() {
    let plan = opened(&CASE_A);
    expect(&plan, 0, 0, figures(&[], 0));
    expect(&plan, 0, 1, figures(&[1], 0));
    expect(&plan, 3, 0, figures(&[], 0));
    expect(&plan, 3, 1, figures(&[0, 0, 0, 1], 0));
    for first in [0, 1, 17, 24] {
        expect(&plan, first, 24, figures(&[6, 4, 3, 2], 9));
    }
    // Lines 2, 1 and 3 own 7, 8 and 10.
    expect(&plan, 5, 7, figures(&[1, 1, 1], 4));
    // 4 times 24 rounds, and 1096 to 1099, which leave 16 to 19 when they are divided by 24.
    expect(&plan, 1000, 100, figures(&[25, 17, 13, 8], 37));
}

/// 2^64 leaves 16 when it is divided by 24: 2^64 - 3 is line 2's, 2^64 - 1 is line 4's, and 2^64, 2^64 + 2, 2^64 + 3,
/// 2^64 + 4 and 2^64 + 8 are those of lines 1, 3, 2, 1 and 1.
#[test]
fn past_64_bits() {
    let plan = opened(&CASE_A);
    let last = u64::MAX;
    expect(&plan, last, 0, figures(&[], 0));
    expect(&plan, last, 1, figures(&[0, 0, 0, 1], 0));
    expect(&plan, last, 2, figures(&[1, 0, 0, 1], 0));
    expect(&plan, last, 10, figures(&[3, 1, 1, 1], 4));
    expect(&plan, last - 2, 12, figures(&[3, 2, 1, 1], 5));
    // 2730 times 24 rounds, and 15 that leave 15 to 23 and 0 to 5.
    let of_most = figures(&[16_384, 10_922, 8192, 5462], 24_575);
    expect(&plan, last, MOST, of_most);
    // 2^64 leaves 4 when it is divided by 12: 2^64 + 2, 2^64 + 8 and 2^64 + 9 leave 6, 0 and 1.
    expect(&opened(&CASE_C), last, 11, figures(&[2, 1], 8));
}

/// Line 3 owned 3 of 24 rounds, and 8192 of the most rounds past 2^64.
#[test]
fn after_closes() {
    let mut plan = opened(&CASE_A);
    assert_eq!(plan.close(Line(3)), Ok(()));
    expect(&plan, 0, 24, figures(&[6, 4, 0, 2], 12));
    let of_most = figures(&[16_384, 10_922, 0, 5462], 24_575 + 8192);
    expect(&plan, u64::MAX, MOST, of_most);
    for line in [1, 2, 4] {
        assert_eq!(plan.close(Line(line)), Ok(()));
    }
    expect_all_idle(&plan);
}

#[test]
fn in_the_empty_plan() {
    expect_all_idle(&Plan::new());
}

#[test]
fn shortest_and_longest_periods() {
    let every = opened(&[(1, 0)]);
    for first in [0, 1, 1 << 32, u64::MAX] {
        for rounds in [0, 1, 7, MOST] {
            expect(&every, first, rounds, figures(&[rounds], 0));
        }
    }
    // 2^12 divided by 4,095 leaves 1, so 2^64 leaves 16: the line owns 2^64 - 16, and then 2^64 + 4079. 65,535 is
    // 4095 * 16 + 15.
    let longest = opened(&[(4095, 0)]);
    let owned = u64::MAX - 15;
    for first in [0, owned] {
        expect(&longest, first, 4095, figures(&[1], 4094));
        expect(&longest, first, 4096, figures(&[2], 4094));
        expect(&longest, first, MOST, figures(&[17], MOST - 17));
        expect(&longest, first + 1, 4094, figures(&[], 4094));
        expect(&longest, first + 1, 4095, figures(&[1], 4094));
        expect(&longest, first + 1, MOST, figures(&[16], MOST - 16));
    }
}

/// 64 lines of period 64 own every round. 65,535 is 64 * 1023 + 63, and 2^64 leaves 0 when it is divided by 64: of the
/// most rounds from 0 on the missing one is line 63's, and from 2^64 - 1 on it is line 62's.
#[test]
fn in_a_full_plan() {
    let mut plan = Plan::new();
    for line in 0..64 {
        assert_eq!(plan.open(Line(line), Period(64)), Ok(Start(line)));
    }
    for (first, missing) in [(0, 63), (u64::MAX, 62)] {
        let mut turns = [1024; 64];
        turns[missing] = 1023;
        expect(&plan, first, MOST, Sheet { turns, idle: 0 });
    }
}

/// Counted over whole numbers by the periods and the starts of the open lines.
fn fitting(plan: &Plan, first: u64, rounds: u16) -> Sheet {
    let open: Vec<_> = plan.lines().collect();
    let mut sheet = figures(&[], 0);
    for round in (u128::from(first)..).take(rounds.into()) {
        let fits = |it: &&OpenLine| round % u128::from(it.period.0) == it.start.0.into();
        match open.iter().find(fits) {
            Some(it) => sheet.turns[it.line.0 as usize] += 1,
            None => sheet.idle += 1,
        }
    }
    sheet
}

/// Counted with the owner call, below 2^64.
fn walked(plan: &Plan, first: u64, rounds: u16) -> Sheet {
    let mut sheet = figures(&[], 0);
    for round in first..first + u64::from(rounds) {
        match plan.owner(Round(round)) {
            Owner::Line(line) => sheet.turns[line.0 as usize] += 1,
            Owner::Idle { .. } => sheet.idle += 1,
        }
    }
    sheet
}

/// The turns of each line as the turns call gives them, 0 for a closed one.
fn turns(plan: &Plan, first: u64, rounds: u16) -> [u16; 64] {
    let turns_of = |line| plan.turns(Line(line), Round(first), rounds.into());
    array::from_fn(|line| match turns_of(line as u64) {
        Err(Refusal::LineNotOpen) => 0,
        answer => answer.unwrap().try_into().unwrap(),
    })
}

/// Each number of rounds below 100, and the most.
#[test]
fn round_by_round() {
    for lines in [&CASE_A[..], &CASE_C, &case_f(), &[(4095, 0)], &[(1, 0)]] {
        let plan = opened(lines);
        for rounds in 0..100 {
            for first in [0, (1 << 32) - 50, u64::MAX - 50, u64::MAX] {
                expect(&plan, first, rounds, fitting(&plan, first, rounds));
            }
        }
        expect(&plan, 0, MOST, walked(&plan, 0, MOST));
        expect(&plan, u64::MAX, MOST, fitting(&plan, u64::MAX, MOST));
    }
}

/// The total, the turns of each open line and the 0 of each closed one, after each order of a list.
#[test]
fn after_each_step() {
    let mut random = Random::new(19);
    let mut past = 0;
    for shape in Shape::ALL.repeat(LISTS_OF_A_SHAPE) {
        let mut plan = Plan::new();
        for order in lists::generate(shape, &mut random).as_chunks::<3>().0 {
            plan.run_list(order).unwrap();
            let (first, rounds) = (first_round(&mut random), sheet_rounds(&mut random));
            let sheet = sheet_of(&plan, first, rounds);
            assert_eq!(sheet.turns, turns(&plan, first, rounds));
            past += usize::from(first.checked_add(rounds.into()).is_none());
        }
    }
    assert!(past > 1000, "{past}");
}

/// The idle rounds are those that owner says are idle, and past 2^64 those that fit no open line.
#[test]
fn walked_after_lists() {
    let mut random = Random::new(20);
    let end = u64::MAX - u64::from(ROUNDS);
    for shape in Shape::ALL.repeat(LISTS_OF_A_SHAPE) {
        let mut plan = Plan::new();
        let list = lists::generate(shape, &mut random);
        plan.run_list(&list).unwrap();
        for first in [0, random.below(end), end] {
            expect(&plan, first, ROUNDS, walked(&plan, first, ROUNDS));
        }
        for first in [u64::MAX - random.below(ROUNDS.into()), u64::MAX] {
            expect(&plan, first, ROUNDS, fitting(&plan, first, ROUNDS));
        }
    }
}

/// Records with numbers written over. One that is no tree is the empty plan to a sheet.
#[test]
fn damaged_records() {
    let mut seen = [0; 2];
    each_overwritten(21, DAMAGED_OF_A_SHAPE, |plan, random| {
        seen[usize::from(plan.is_tree())] += 1;
        let (first, rounds) = (first_round(random), sheet_rounds(random));
        if plan.is_tree() {
            let sheet = sheet_of(plan, first, rounds);
            assert_eq!(sheet.turns, turns(plan, first, rounds));
        } else {
            expect(plan, first, rounds, figures(&[], rounds));
        }
    });
    assert!(seen.iter().all(|&count| count > 100), "{seen:?}");
}

#[test]
fn sheets_are_displayed() {
    let sheet = opened(&CASE_A).sheet(Round(1000), 100);
    let shown = "line 1: 25\nline 2: 17\nline 3: 13\nline 4: 8\nidle: 37\ntotal: 100";
    assert_eq!(sheet.to_string(), shown);
    assert_eq!(figures(&[], 7).to_string(), "idle: 7\ntotal: 7");
}

/// Cut to 32 bits one of the lines above 63 would be line 1.
#[test]
fn figures_of_a_sheet() {
    let sheet = figures(&[25, 17], 37);
    for (line, turns) in [(0, 0), (1, 25), (2, 17), (63, 0)] {
        assert_eq!(sheet.turns_of(Line(line)), Some(turns));
    }
    for line in [64, (1 << 32) + 1, u64::MAX] {
        assert_eq!(sheet.turns_of(Line(line)), None);
    }
    assert_eq!(sheet.total(), 79);
    // No plan has such a sheet, and its total is not cut.
    let turns = [MOST; 64];
    assert_eq!(Sheet { turns, idle: MOST }.total(), 65 * 65_535);
}
