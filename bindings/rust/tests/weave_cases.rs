//! Two plans woven into one. What is expected is worked out by hand from document 02, Ask 10.

mod fields;
mod plans;
mod weaving;

use fields::{image, Path};
use gaplinte::{Line, OpenLine, Owner, Period, Plan, Refusal, Round, Start};
use plans::{case_f, opened, opened_from, CASE_A, CASE_C};
use weaving::{expect_owners, weave};

/// A line's number, its period, its start, and the weight and the edge of each row of its path.
type Lines<'rows> = [(u16, u64, u64, &'rows [(u16, u16)])];

/// The plan has these lines, and no others.
fn expect(plan: &Plan, lines: &Lines) {
    let open = lines.iter().map(|&(line, period, start, _)| OpenLine {
        line: Line(line.into()),
        period: Period(period),
        start: Start(start),
    });
    assert!(plan.lines().eq(open), "{plan:?}");
    let paths: Vec<Path> = lines.iter().map(|&(line, .., rows)| (line, rows)).collect();
    assert_eq!(plan.to_image(), image(&paths));
    assert!(plan.is_tree());
}

/// What two plans are woven to, which has the owners of both.
fn expect_woven(a: &Plan, b: &Plan, lines: &Lines) -> Plan {
    let woven = weave(a, b).unwrap();
    expect(&woven, lines);
    expect_owners(&woven, (a, b), 200);
    woven
}

fn refused(a: &Plan, b: &Plan, refusal: Refusal) {
    assert_eq!(weave(a, b), Err(refusal), "{a:?} {b:?}");
}

/// Opens and closes as many lines as there are periods, so that the plan is empty again.
fn emptied(periods: &[(u64, u64)]) -> Plan {
    let mut plan = opened(periods);
    for line in (1..).take(periods.len()) {
        assert_eq!(plan.close(Line(line)), Ok(()));
    }
    plan
}

/// Case A, and case C with lines 5, 6 and 7.
#[test]
fn two_hutches() {
    let a: &Lines = &[
        (1, 8, 0, &[(2, 0), (2, 0), (2, 0)]),
        (2, 12, 2, &[(2, 0), (2, 1), (3, 0)]),
        (3, 16, 4, &[(2, 0), (2, 0), (2, 1), (2, 0)]),
        (4, 24, 6, &[(2, 0), (2, 1), (3, 1), (2, 0)]),
    ];
    let b: &Lines = &[
        (5, 12, 1, &[(2, 1), (6, 0)]),
        (6, 24, 3, &[(2, 1), (6, 1), (2, 0)]),
        (7, 24, 5, &[(2, 1), (6, 2), (2, 0)]),
    ];
    let both = [a, b].concat();
    expect_woven(&opened(&CASE_A), &opened_from(5, &CASE_C), &both);
}

/// With the sides exchanged the starts of case A are the odd ones.
#[test]
fn sides_exchanged() {
    let lines: &Lines = &[
        (1, 8, 1, &[(2, 1), (2, 0), (2, 0)]),
        (2, 12, 3, &[(2, 1), (2, 1), (3, 0)]),
        (3, 16, 5, &[(2, 1), (2, 0), (2, 1), (2, 0)]),
        (4, 24, 7, &[(2, 1), (2, 1), (3, 1), (2, 0)]),
        (5, 12, 0, &[(2, 0), (6, 0)]),
        (6, 24, 2, &[(2, 0), (6, 1), (2, 0)]),
        (7, 24, 4, &[(2, 0), (6, 2), (2, 0)]),
    ];
    expect_woven(&opened_from(5, &CASE_C), &opened(&CASE_A), lines);
}

/// Line 1 has the rounds 0, 8, 16 .. and line 2 has 1, 7, 13, 19 .., which begin anew after 24. 2^64 divided by 24
/// leaves 16.
#[test]
fn owners_and_rests() {
    let woven = weave(&opened(&[(4, 0)]), &opened_from(2, &[(3, 0)])).unwrap();
    let idle = |rest| Owner::Idle { rest };
    let [one, two] = [1, 2].map(|line| Owner::Line(Line(line)));
    let expected = [
        [one, two, idle(5), idle(4), idle(3), idle(2), idle(1), two],
        [
            one,
            idle(4),
            idle(3),
            idle(2),
            idle(1),
            two,
            idle(2),
            idle(1),
        ],
        [
            one,
            idle(2),
            idle(1),
            two,
            idle(4),
            idle(3),
            idle(2),
            idle(1),
        ],
    ];
    for round in 0..24 {
        let expected = expected.as_flattened()[round as usize];
        assert_eq!(woven.owner(Round(round)), expected);
        let last = u64::MAX - 15 - 24 + round;
        assert_eq!(woven.owner(Round(last)), expected);
    }
    assert_eq!(woven.owner(Round(u64::MAX)), idle(1));
    assert_eq!(woven.owner(Round(u64::MAX - 2)), two);
}

/// The root has one edge, or there is none.
#[test]
fn empty_sides() {
    let plan = opened(&[(4, 0), (6, 1)]);
    for empty in [Plan::new(), emptied(&CASE_A), emptied(&[(1, 0)])] {
        let even: &Lines = &[
            (1, 8, 0, &[(2, 0), (2, 0), (2, 0)]),
            (2, 12, 2, &[(2, 0), (2, 1), (3, 0)]),
        ];
        expect_woven(&plan, &empty, even);
        let odd: &Lines = &[
            (1, 8, 1, &[(2, 1), (2, 0), (2, 0)]),
            (2, 12, 3, &[(2, 1), (2, 1), (3, 0)]),
        ];
        expect_woven(&empty, &plan, odd);
        assert_eq!(expect_woven(&empty, &empty, &[]), Plan::new());
    }
}

/// The line stands under the root alone, of weight 2.
#[test]
fn roots_of_weight_1() {
    let (every, other) = (opened_from(63, &[(1, 0)]), opened_from(0, &[(1, 0)]));
    let empty = Plan::new();
    expect_woven(&every, &empty, &[(63, 2, 0, &[(2, 0)])]);
    expect_woven(&empty, &every, &[(63, 2, 1, &[(2, 1)])]);
    let full: &Lines = &[(0, 2, 1, &[(2, 1)]), (63, 2, 0, &[(2, 0)])];
    let mut woven = expect_woven(&every, &other, full);
    for period in [1, 2, 4, 4095].map(Period) {
        assert_eq!(woven.open(Line(5), period), Err(Refusal::NoCandidate));
    }
    let one = opened_from(7, &[(5, 0), (5, 1)]);
    let odd: &Lines = &[
        (7, 10, 1, &[(2, 1), (5, 0)]),
        (8, 10, 3, &[(2, 1), (5, 1)]),
        (63, 2, 0, &[(2, 0)]),
    ];
    expect_woven(&every, &one, odd);
}

/// Whichever it is, and whatever its periods are. The plan itself may be the other one.
#[test]
fn a_line_open_in_both() {
    for line in 0..64 {
        let plan = opened_from(line, &[(4, 0)]);
        let others = [
            opened_from(line, &[(7, 0)]),
            opened_from(line, &[(1, 0)]),
            opened_from(line, &[(2048, 0)]),
            opened_from(line.saturating_sub(2), &[(5, 0), (5, 1), (5, 2)]),
        ];
        for other in &others {
            refused(&plan, other, Refusal::OpenInBoth);
            refused(other, &plan, Refusal::OpenInBoth);
        }
        refused(&plan, &plan, Refusal::OpenInBoth);
    }
    let empty = Plan::new();
    assert_eq!(weave(&empty, &empty), Ok(Plan::new()));
}

/// After a line that is open in both, on whichever side. In case F the 2,048 stands under eleven nodes.
#[test]
fn a_doubled_period_above_4095() {
    let few = opened_from(60, &[(6, 0), (6, 1)]);
    let empty = Plan::new();
    for period in [2048, 2049, 4094, 4095] {
        for line in [0, 3, 63] {
            let long = opened_from(line, &[(period, 0)]);
            for other in [&empty, &opened_from(4, &[(1, 0)])] {
                refused(&long, other, Refusal::DoubledPeriodOutOfRange);
                refused(other, &long, Refusal::DoubledPeriodOutOfRange);
            }
            refused(&long, &long, Refusal::OpenInBoth);
        }
    }
    let deep = opened(&case_f());
    refused(&deep, &few, Refusal::DoubledPeriodOutOfRange);
    refused(&few, &deep, Refusal::DoubledPeriodOutOfRange);
    refused(&deep, &opened(&CASE_A), Refusal::OpenInBoth);
    let both_long = (opened(&[(2048, 0)]), opened_from(2, &[(4095, 0)]));
    refused(&both_long.0, &both_long.1, Refusal::DoubledPeriodOutOfRange);
}

#[test]
fn the_longest_period_that_is_doubled() {
    let (empty, long) = (Plan::new(), opened_from(9, &[(2047, 0), (2047, 1)]));
    let even: &Lines = &[
        (9, 4094, 0, &[(2, 0), (2047, 0)]),
        (10, 4094, 2, &[(2, 0), (2047, 1)]),
    ];
    expect_woven(&long, &empty, even);
    let odd: &Lines = &[
        (9, 4094, 1, &[(2, 1), (2047, 0)]),
        (10, 4094, 3, &[(2, 1), (2047, 1)]),
    ];
    expect_woven(&empty, &long, odd);
}

/// Case F without its last line, under eleven nodes then. A line of every round has every second one, then every
/// fourth, up to every 2,048th.
#[test]
fn eleven_nodes() {
    let ten = case_f()[..10].to_vec();
    let rows: Vec<Vec<_>> = (1..=10)
        .map(|k| [vec![(2, 1)], vec![(2, 1); k - 1], vec![(2, 0)]].concat())
        .collect();
    let lines: Vec<_> = (1..)
        .zip(ten.iter().zip(&rows))
        .map(|(line, (&(period, start), rows))| (line, 2 * period, 2 * start + 1, rows.as_slice()))
        .collect();
    expect_woven(&Plan::new(), &opened(&ten), &lines);

    let mut plan = opened_from(5, &[(1, 0)]);
    for times in 1..=11 {
        let period = 1 << times;
        let rows = vec![(2, 1); times];
        plan = expect_woven(&Plan::new(), &plan, &[(5, period, period - 1, &rows)]);
    }
    refused(&plan, &Plan::new(), Refusal::DoubledPeriodOutOfRange);
    refused(&Plan::new(), &plan, Refusal::DoubledPeriodOutOfRange);
}

/// Lines 0 to 31 have the even rounds of 64 and the others the odd ones.
#[test]
fn all_64_lines() {
    let thirty_two: Vec<_> = (0..32).map(|start| (32, start)).collect();
    let sides = [0, 32].map(|first| opened_from(first, &thirty_two));
    let rows: Vec<_> = (0..64)
        .map(|line| [(2, line / 32), (32, line % 32)])
        .collect();
    let lines: Vec<_> = (0..64)
        .zip(&rows)
        .map(|(line, rows)| {
            let start = 2 * u64::from(line % 32) + u64::from(line / 32);
            (line, 64, start, rows.as_slice())
        })
        .collect();
    expect_woven(&sides[0], &sides[1], &lines);
}

/// The node above line 3, of step 2 and offset 1, has its edge 2 free, and the one above line 2, of step 4 and offset
/// 2, its edges 1 and 2. When all of the first plan's lines are closed the root is joined with what is left.
#[test]
fn bookings_go_on() {
    let (a, b) = (opened(&[(4, 0), (6, 1)]), opened_from(3, &[(3, 0), (3, 1)]));
    let mut plan = weave(&a, &b).unwrap();
    let woven = plan.clone();
    assert_eq!(plan.open(Line(2), Period(12)), Err(Refusal::LineOpen));
    assert_eq!(plan.open(Line(5), Period(2)), Err(Refusal::NoCandidate));
    assert_eq!(plan.open(Line(5), Period(12)), Ok(Start(5)));
    assert_eq!(plan.open(Line(6), Period(12)), Ok(Start(6)));
    let booked: &Lines = &[
        (1, 8, 0, &[(2, 0), (2, 0), (2, 0)]),
        (2, 12, 2, &[(2, 0), (2, 1), (3, 0)]),
        (3, 6, 1, &[(2, 1), (3, 0)]),
        (4, 6, 3, &[(2, 1), (3, 1)]),
        (5, 12, 5, &[(2, 1), (3, 2), (2, 0)]),
        (6, 12, 6, &[(2, 0), (2, 1), (3, 1)]),
    ];
    expect(&plan, booked);
    for line in [5, 6] {
        assert_eq!(plan.close(Line(line)), Ok(()));
    }
    assert_eq!(plan, woven);
    for line in [2, 1] {
        assert_eq!(plan.close(Line(line)), Ok(()));
    }
    expect(&plan, &[(3, 6, 1, &[(6, 1)]), (4, 6, 3, &[(6, 3)])]);
}

/// Weaving joins nothing: the root has two nodes of weight 4, and is joined with them by a close.
#[test]
fn joined_by_a_close() {
    let (a, b) = (opened(&[(4, 0)]), opened_from(2, &[(4, 0), (4, 1)]));
    let apart: &Lines = &[
        (1, 8, 0, &[(2, 0), (4, 0)]),
        (2, 8, 1, &[(2, 1), (4, 0)]),
        (3, 8, 3, &[(2, 1), (4, 1)]),
    ];
    let mut plan = expect_woven(&a, &b, apart);
    assert_eq!(plan.close(Line(3)), Ok(()));
    expect(&plan, &[(1, 8, 0, &[(8, 0)]), (2, 8, 1, &[(8, 1)])]);
}

/// A woven plan and a third one, on either side, and two woven plans.
#[test]
fn woven_again() {
    let every = |line| opened_from(line, &[(1, 0)]);
    let woven = weave(&every(1), &every(2)).unwrap();
    let before: &Lines = &[
        (1, 4, 0, &[(2, 0), (2, 0)]),
        (2, 4, 2, &[(2, 0), (2, 1)]),
        (3, 2, 1, &[(2, 1)]),
    ];
    expect_woven(&woven, &every(3), before);
    let after: &Lines = &[
        (1, 4, 1, &[(2, 1), (2, 0)]),
        (2, 4, 3, &[(2, 1), (2, 1)]),
        (3, 2, 0, &[(2, 0)]),
    ];
    expect_woven(&every(3), &woven, after);
    refused(&woven, &every(1), Refusal::OpenInBoth);
    let other = weave(&every(3), &every(4)).unwrap();
    let four: &Lines = &[
        (1, 4, 0, &[(2, 0), (2, 0)]),
        (2, 4, 2, &[(2, 0), (2, 1)]),
        (3, 4, 1, &[(2, 1), (2, 0)]),
        (4, 4, 3, &[(2, 1), (2, 1)]),
    ];
    expect_woven(&woven, &other, four);
}
