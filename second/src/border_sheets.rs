//! Sheets at the borders, for the script of calls (`script.rs`): over no round, one, two, a few
//! hundred and the most, from rounds near 0, 2^32, 2^63 and 2^64 on, some with most of their
//! rounds past 2^64 − 1 (document 02, Ask 5); in the empty plan, in plans with and without idle
//! rounds, after closes, and on damaged records.

use crate::script::{opens_in_turn, Step};
use crate::tree::{LAST_LINE, LAST_PERIOD};

/// First round and rounds, asked of each plan.
const SHEETS: [(u64, u16); 22] = [
    (0, 0),
    (0, 1),
    (0, 2),
    (0, 300),
    (0, 65_535),
    (1, 2),
    (1, 65_534),
    ((1 << 32) - 1, 2),
    ((1 << 32) - 150, 300),
    ((1 << 63) - 1, 2),
    ((1 << 63) - 150, 65_535),
    // up to 2^64 − 1
    (u64::MAX, 0),
    (u64::MAX, 1),
    (u64::MAX - 1, 2),
    (u64::MAX - 65_534, 65_535),
    // past it
    (u64::MAX - 65_533, 65_535),
    (u64::MAX - 150, 300),
    (u64::MAX - 150, 65_534),
    (u64::MAX - 1, 4),
    (u64::MAX, 2),
    (u64::MAX, 300),
    (u64::MAX, 65_535),
];

/// Asked after each change of a plan.
const FEWER_SHEETS: [(u64, u16); 6] = [
    (0, 1),
    (0, 400),
    ((1 << 32) - 1, 65_534),
    (u64::MAX - 3, 9),
    (u64::MAX - 200, 500),
    (u64::MAX, 65_535),
];

pub fn border_sheets() -> Vec<Step> {
    let plans = plans().into_iter();
    let asked = plans.flat_map(|(calls, changes)| asked_after_each(&calls, &changes));
    asked.collect()
}

/// Asks the plan as the calls make it, and again after each of the changes.
fn asked_after_each(calls: &[Step], changes: &[Step]) -> Vec<Step> {
    let mut steps = [&[Step::Begin], calls, &asked(&SHEETS)].concat();
    for &step in changes {
        steps.push(step);
        steps.extend(asked(&FEWER_SHEETS));
    }
    steps
}

fn asked(sheets: &[(u64, u16)]) -> Vec<Step> {
    let steps = sheets.iter();
    steps
        .map(|&(first, rounds)| Step::Sheet { first, rounds })
        .collect()
}

/// The calls that make each plan, and the steps that change it.
fn plans() -> Vec<(Vec<Step>, Vec<Step>)> {
    use Step::{Close, Open, Write};
    let powers: Vec<u64> = (1..=11).map(|power| 1 << power).collect();
    vec![
        // the empty plan; a line opens, and closes; a weight is out of range; the line opens on
        // that record
        (
            vec![],
            vec![Open(5, 12), Close(5), Write(0, 4_096), Open(5, 7)],
        ),
        // every round is owned; the line has period 7; an edge is not below its weight
        (vec![Open(0, 1)], vec![Write(0, 7), Write(1, 7)]),
        // the longest period; it has its last start; a weight is out of range
        (
            vec![Open(LAST_LINE, LAST_PERIOD)],
            vec![Write(1_387, 4_094), Write(1_386, 4_096)],
        ),
        // period 5, then 3; a number in a row that is not used
        (vec![Open(62, 5)], vec![Write(1_364, 3), Write(1_367, 1)]),
        // case A; line 2 closes, and opens with another period; it has another start; line 1
        // stands where a node does
        (
            opens_in_turn(&[4, 6, 8, 2, 12]),
            vec![Close(2), Open(2, 24), Write(49, 1), Write(25, 1)],
        ),
        // no idle round; then one of the 6 closes
        (opens_in_turn(&[3, 6, 9, 6, 9, 9]), vec![Close(4)]),
        // case F; then line 0 takes the last idle rounds
        (opens_in_turn(&powers), vec![Open(0, 2_048)]),
        // the first line, the last, and one between them; then the first and the last close
        (
            vec![Open(0, 10), Open(63, 15), Open(31, LAST_PERIOD)],
            vec![Close(0), Close(63)],
        ),
        // all lines are open; then one closes
        (every_line(), vec![Close(0)]),
    ]
}

/// 40 lines of period 63 and 24 of period 126; of 126 rounds 22 are idle.
fn every_line() -> Vec<Step> {
    let periods = [vec![63; 40], vec![126; 24]].concat();
    let lines = (0..=LAST_LINE).zip(periods);
    lines
        .map(|(line, period)| Step::Open(line, period))
        .collect()
}

#[cfg(test)]
mod tests {
    use super::*;
    use crate::record::Held;
    use crate::script::change;
    use crate::script::tests::{answers, trees_left_by_writes};
    use crate::sheet::tests::Columns;
    use crate::sheet::{sheet, Sheet, LINES};
    use crate::tree::Plan;

    /// Each write does what its plan says.
    #[test]
    fn writes_leave_another_tree_and_then_none() {
        let left = trees_left_by_writes(&border_sheets());
        let one_empty = vec![None];
        let four_others = [Some(true), None].repeat(4);
        assert_eq!(left, [one_empty, four_others].concat());
    }

    /// A sheet with the record that it was asked of.
    struct Asked {
        first: u64,
        rounds: u16,
        tree: Option<Plan>,
        columns: Sheet,
    }

    impl Asked {
        /// Its last round is past 2^64 − 1.
        fn is_past(&self) -> bool {
            u128::from(self.first) + u128::from(self.rounds) > 1 << 64
        }
    }

    fn all_asked() -> Vec<Asked> {
        let mut held = Held::empty();
        let mut all = Vec::new();
        for step in border_sheets() {
            change(&mut held, step);
            if let Step::Sheet { first, rounds } = step {
                all.push(Asked {
                    first,
                    rounds,
                    tree: held.record.tree(),
                    columns: sheet(&held.plan, first, rounds),
                });
            }
        }
        all
    }

    /// Counted by hand: 9 plans with 22 sheets, and 19 changes with 6 sheets.
    #[test]
    fn sheets_are_of_every_kind() {
        let all = all_asked();
        let count = |is: &dyn Fn(&Asked) -> bool| all.iter().filter(|it| is(it)).count();
        assert_eq!(all.len(), 9 * 22 + 19 * 6);
        assert_eq!(count(&Asked::is_past), 9 * 7 + 19 * 3);
        assert_eq!(count(&|it| it.rounds == 0), 9 * 2);
        assert_eq!(count(&|it| it.rounds == 1), 9 * 2 + 19);
        assert_eq!(count(&|it| it.rounds == 2), 9 * 6);
        assert_eq!(count(&|it| it.rounds == 65_534), 9 * 2 + 19);
        assert_eq!(count(&|it| it.rounds == 65_535), 9 * 5 + 19);
        // as begun, and with its one line closed
        assert_eq!(count(&|it| it.tree == Some(Plan::empty())), 22 + 6);
        // five writes
        assert_eq!(count(&|it| it.tree.is_none()), 5 * 6);
    }

    /// 11 and 4 sheets have 300 rounds or more. Without an idle round are period 1, the periods 3,
    /// 6, 9, 6, 9, 9, and case F with line 0; and of case F itself the rounds 0 to 299.
    #[test]
    fn long_sheets_without_idle_rounds() {
        let all = all_asked();
        let long = all.iter().filter(|it| it.rounds >= 300);
        let owned = long.filter(|it| it.columns.idle == 0);
        assert_eq!(owned.count(), 11 + 11 + 4 + 1);
    }

    /// Places in the list of plans.
    const EMPTY: usize = 0;
    const EVERY_ROUND: usize = 1;
    const LONGEST: usize = 2;
    const FIVE: usize = 3;
    const CASE_A: usize = 4;
    const NO_IDLE: usize = 5;
    const CASE_F: usize = 6;
    const FIRST_AND_LAST: usize = 7;
    const EVERY_LINE: usize = 8;

    const MOST: u64 = u64::MAX;

    fn line(&(first, rounds, turns, idle): &Columns) -> String {
        let mut columns = [0; LINES].map(|turns: u64| turns.to_string());
        for &(line, count) in turns {
            columns[line] = count.to_string();
        }
        format!("sheet {first} {rounds} {} {idle}", columns.join(" "))
    }

    /// Expects these among the sheets of the plan at a place in the list, after so many of its
    /// changes.
    fn assert_printed(at: usize, changes: usize, expected: &[Columns]) {
        let (calls, all_changes) = plans().swap_remove(at);
        let text = answers(&asked_after_each(&calls, &all_changes));
        let sheets: Vec<&str> = text.lines().filter(|it| it.starts_with("sheet")).collect();
        let (as_made, changed) = sheets.split_at(SHEETS.len());
        let parts: Vec<&[&str]> = changed.chunks(FEWER_SHEETS.len()).collect();
        let asked = [&[as_made], parts.as_slice()].concat()[changes];
        for columns in expected {
            let line = line(columns);
            assert!(asked.contains(&line.as_str()), "{at} {changes} {line}");
        }
    }

    /// Of a plan emptied again and of each record that is no tree too.
    #[test]
    fn sheets_of_the_empty_plan() {
        let made: [Columns; 4] = [
            (0, 0, &[], 0),
            (0, 300, &[], 300),
            (MOST, 1, &[], 1),
            (MOST - 150, 65_534, &[], 65_534),
        ];
        assert_printed(EMPTY, 0, &made);
        let idle = FEWER_SHEETS.map(|(first, rounds)| (first, rounds, &[][..], rounds.into()));
        for (at, changes) in [
            (EMPTY, 2),
            (EMPTY, 3),
            (EVERY_ROUND, 2),
            (LONGEST, 2),
            (FIVE, 2),
            (CASE_A, 4),
        ] {
            assert_printed(at, changes, &idle);
        }
    }

    /// Counted by hand; 2^64 leaves 1 when divided by 3 or 5, 2 by 7, 4 by 12 and 16 by 4,095.
    #[test]
    fn sheets_of_one_line() {
        // 12@0, later 7@0
        let twelve: [Columns; 2] = [
            (0, 400, &[(5, 34)], 366),
            (MOST, 65_535, &[(5, 5_461)], 60_074),
        ];
        assert_printed(EMPTY, 1, &twelve);
        assert_printed(EMPTY, 4, &[(MOST - 200, 500, &[(5, 71)], 429)]);
        // 1@0, then 7@0
        let every: [Columns; 2] = [(0, 2, &[(0, 2)], 0), (MOST, 65_535, &[(0, 65_535)], 0)];
        assert_printed(EVERY_ROUND, 0, &every);
        assert_printed(EVERY_ROUND, 1, &[(MOST - 3, 9, &[(0, 1)], 8)]);
        // 4,095@0, then 4,095@4,094
        let longest: [Columns; 5] = [
            (0, 65_535, &[(63, 17)], 65_518),
            (MOST - 65_534, 65_535, &[(63, 16)], 65_519),
            (MOST - 150, 300, &[(63, 1)], 299),
            (MOST, 300, &[], 300),
            (MOST, 65_535, &[(63, 16)], 65_519),
        ];
        assert_printed(LONGEST, 0, &longest);
        let last_start: [Columns; 2] = [(MOST - 3, 9, &[], 9), (MOST - 200, 500, &[(63, 1)], 499)];
        assert_printed(LONGEST, 1, &last_start);
        // 5@0, then 3@0
        let five: [Columns; 3] = [
            (MOST - 1, 4, &[(62, 1)], 3),
            (MOST, 2, &[(62, 1)], 1),
            (MOST, 300, &[(62, 60)], 240),
        ];
        assert_printed(FIVE, 0, &five);
        assert_printed(FIVE, 1, &[(MOST - 3, 9, &[(62, 3)], 6)]);
    }

    /// Counted by hand, in whole runs of 24 rounds and the rest; 2^64 leaves 16 when divided by 24.
    #[test]
    fn sheets_of_case_a() {
        let most = [(1, 16_384), (2, 10_923), (3, 8_192), (5, 5_461)];
        let past = [(1, 75), (2, 50), (3, 38), (5, 25)];
        let made: [Columns; 3] = [
            (0, 1, &[(1, 1)], 0),
            (0, 65_535, &most, 24_575),
            (MOST, 300, &past, 112),
        ];
        assert_printed(CASE_A, 0, &made);
        // line 2 is closed, then 24@1, then 24@13
        let closed: Columns = (MOST - 3, 9, &[(1, 3), (3, 1), (5, 1)], 4);
        assert_printed(CASE_A, 1, &[closed]);
        let opened: [Columns; 2] = [
            (0, 400, &[(1, 100), (2, 17), (3, 50), (5, 34)], 199),
            (MOST - 200, 500, &[(1, 125), (2, 21), (3, 63), (5, 41)], 250),
        ];
        assert_printed(CASE_A, 2, &opened);
        let written: [Columns; 2] = [
            (0, 400, &[(1, 100), (2, 17), (3, 50), (5, 34)], 199),
            (MOST - 3, 9, &[(1, 3), (2, 1), (3, 1), (5, 1)], 3),
        ];
        assert_printed(CASE_A, 3, &written);
    }

    /// Counted by hand: 3@0, 6@1, 9@2, 6@4, 9@5 and 9@8 in runs of 18 rounds, where 2^64 leaves
    /// 16; then without 6@4.
    #[test]
    fn sheets_of_a_plan_without_idle_rounds() {
        let turns = [(1, 100), (2, 50), (3, 33), (4, 50), (5, 33), (6, 34)];
        assert_printed(NO_IDLE, 0, &[(MOST, 300, &turns, 0)]);
        let closed = [(1, 3), (2, 2), (3, 1), (5, 1), (6, 1)];
        assert_printed(NO_IDLE, 1, &[(MOST - 3, 9, &closed, 1)]);
    }

    /// Counted by hand: line k of case F has the rounds t where 2^(k−1) divides t + 1 and 2^k does
    /// not. Of the 300 numbers from 2^64 − 150 on one is a multiple of 2,048; of the 65,535 from
    /// 2^64 on 32 are, which line 0 then has.
    #[test]
    fn sheets_of_case_f() {
        let turns = [150, 75, 38, 18, 10, 4, 2, 2];
        let few: Vec<(usize, u64)> = (1..).zip(turns).collect();
        assert_printed(CASE_F, 0, &[(MOST - 150, 300, &few, 1)]);
        let turns = [32, 32_767, 16_384, 8_192, 4_096, 2_048];
        let more = [1_024, 512, 256, 128, 64, 32];
        let most: Vec<(usize, u64)> = (0..).zip(turns.into_iter().chain(more)).collect();
        assert_printed(CASE_F, 1, &[(MOST, 65_535, &most, 0)]);
    }

    /// Counted by hand: 10@0, 15@1 and 4,095@2; 2^64 leaves 6 when divided by 10, 1 by 15 and 16
    /// by 4,095.
    #[test]
    fn sheets_of_the_first_and_the_last_line() {
        let made: [Columns; 3] = [
            (1, 2, &[(31, 1), (63, 1)], 0),
            (MOST - 1, 4, &[(63, 1)], 3),
            (MOST, 65_535, &[(0, 6_553), (31, 16), (63, 4_369)], 54_597),
        ];
        assert_printed(FIRST_AND_LAST, 0, &made);
        assert_printed(FIRST_AND_LAST, 1, &[(MOST - 3, 9, &[(63, 1)], 8)]);
        assert_printed(FIRST_AND_LAST, 2, &[(MOST - 200, 500, &[(31, 1)], 499)]);
    }

    /// Counted by hand: the lines 0 to 62 have their numbers as starts, and line 63 stands at 103,
    /// in the node above line 40. The rounds that leave 104 to 125 when divided by 126 are idle;
    /// then those of line 0 too.
    #[test]
    fn sheets_of_all_lines() {
        let columns = |turns: &dyn Fn(usize) -> u64| -> Vec<(usize, u64)> {
            (0..LINES).map(|line| (line, turns(line))).collect()
        };
        let in_300 = columns(&|line| match line {
            0..=39 => 5,
            40..=47 => 3,
            _ => 2,
        });
        let made: [Columns; 2] = [(0, 2, &[(0, 1), (1, 1)], 0), (0, 300, &in_300, 44)];
        assert_printed(EVERY_LINE, 0, &made);
        let in_400 = columns(&|line| match line {
            0 => 0,
            1..=21 => 7,
            22..=39 => 6,
            _ => 3,
        });
        assert_printed(EVERY_LINE, 1, &[(0, 400, &in_400, 73)]);
    }
}
