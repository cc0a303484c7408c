//! Reasons at the borders, for the script of calls (`script.rs`): plans made by hand, each with
//! calls that are answered or refused, some struck by two checks, and with numbers that need more
//! bits than a plan's; then the same calls after a change of the plan, and on a damaged record
//! (document 02, Ask 7).

use crate::reason::Asked;
use crate::script::{opens_in_turn, Step};
use crate::tree::{LAST_LINE, LAST_PERIOD};

/// Period, level, offset and class.
type Numbers = [u64; 4];

/// A plan, and what is asked of it as its calls make it and after each of its changes, the last
/// of which leaves no tree.
struct AskedPlan {
    calls: Vec<Step>,
    changes: Vec<Step>,
    asked: Vec<Numbers>,
    /// Answered with a line, and asked again with each of the numbers in more bits.
    widened: Vec<Numbers>,
}

const OF_CASE_A: [Numbers; 45] = [
    // every node and class for period 2, refused with 5
    [2, 0, 0, 0],
    [2, 0, 0, 1],
    [2, 0, 0, 2],
    [2, 1, 0, 0],
    [2, 1, 0, 1],
    [2, 1, 1, 0],
    [2, 1, 1, 1],
    [2, 2, 2, 0],
    [2, 2, 3, 0],
    // for period 12, which has room
    [12, 0, 0, 0],
    [12, 0, 0, 1],
    [12, 1, 0, 0],
    [12, 1, 1, 0],
    [12, 1, 1, 2],
    [12, 1, 1, 3],
    [12, 2, 2, 0],
    [12, 2, 2, 1],
    [12, 2, 3, 0],
    [12, 2, 3, 1],
    [12, 2, 3, 2],
    // for other periods: where a step does not divide, the class may be any number
    [5, 0, 0, 0],
    [5, 1, 0, 0],
    [5, 1, 1, 7],
    [6, 2, 2, 1],
    [6, 2, 3, 0],
    [6, 2, 3, 1],
    [5, 1, 0, u64::MAX],
    [LAST_PERIOD, 2, 3, 4],
    // lines stand here
    [12, 2, 0, 0],
    [12, 2, 1, 0],
    [12, 3, 2, 0],
    [12, 3, 3, 0],
    // nothing stands here, or a node of another level or offset
    [12, 0, 1, 0],
    [12, 1, 2, 0],
    [12, 1, 3, 0],
    [12, 2, 4, 0],
    [12, 2, 5, 0],
    [12, 3, 0, 0],
    [12, 11, 0, 0],
    // 2 before 10, and 10 before all that comes after it
    [0, 0, 0, 0],
    [0, 4, 0, 0],
    [0, 1, 1, 9],
    [4_096, 2, 0, 9],
    [5, 2, 0, 9],
    [7, 9, 9, 9],
];

pub fn border_reasons() -> Vec<Step> {
    let plans = plans().into_iter();
    plans.flat_map(|it| it.steps()).collect()
}

impl AskedPlan {
    fn steps(&self) -> Vec<Step> {
        let mut steps = [&[Step::Begin], self.calls.as_slice(), &self.reasons()].concat();
        for &change in &self.changes {
            steps.push(change);
            steps.extend(self.reasons());
        }
        steps
    }

    fn reasons(&self) -> Vec<Step> {
        let wide = self.widened.iter().flat_map(|&numbers| wider(numbers));
        let all = self.asked.iter().chain(&self.widened).copied().chain(wide);
        all.map(reason_step).collect()
    }
}

fn reason_step([period, level, offset, class]: Numbers) -> Step {
    Step::Reason(Asked {
        period,
        level,
        offset,
        class,
    })
}

/// In place of one of the numbers another, which equals it modulo 2^8, 2^12, 2^16, 2^32 or 2^63, or
/// 2^64 − 1.
fn wider(numbers: Numbers) -> Vec<Numbers> {
    let mut all = Vec::new();
    for at in 0..numbers.len() {
        let added = [8, 12, 16, 32, 63].map(|bits| numbers[at] + (1 << bits));
        for number in added.into_iter().chain([u64::MAX]) {
            let mut other = numbers;
            other[at] = number;
            all.push(other);
        }
    }
    all
}

fn plans() -> Vec<AskedPlan> {
    vec![
        empty(),
        case_a(),
        case_f(),
        falling_numbers(),
        several_edges_in_a_class(),
        every_round(),
        longest_period(),
        largest_step(),
        every_line(),
    ]
}

/// The last change is a weight out of range.
fn empty() -> AskedPlan {
    AskedPlan {
        calls: vec![],
        changes: vec![Step::Open(5, 12), Step::Close(5), Step::Write(0, 4_096)],
        asked: vec![
            [0, 0, 0, 0],
            [4_096, 0, 0, 0],
            [1, 0, 0, 0],
            [1, 0, 0, 1],
            [12, 0, 0, 0],
            [12, 0, 0, 1],
            [12, 0, 0, 12],
            [12, 0, 1, 0],
            [12, 1, 0, 0],
            [LAST_PERIOD, 0, 0, 0],
            [LAST_PERIOD, 0, 0, 3],
        ],
        widened: vec![],
    }
}

/// The lines 1, 2, 3 and 5. Line 2 closes, and with it class 0 of its node is free; then line 1
/// has a root of another weight.
fn case_a() -> AskedPlan {
    AskedPlan {
        calls: opens_in_turn(&[4, 6, 8, 2, 12]),
        changes: vec![Step::Close(2), Step::Write(22, 3)],
        asked: OF_CASE_A.to_vec(),
        widened: vec![[12, 1, 0, 1], [12, 1, 1, 1], [24, 2, 2, 0]],
    }
}

/// Line k has period 2^k and stands under edge 0 of the node of level k − 1. When line 10 closes,
/// the two last nodes are joined. The last edge of line 11 is its weight in the end.
fn case_f() -> AskedPlan {
    let powers: Vec<u64> = (1..=11).map(|power| 1 << power).collect();
    AskedPlan {
        calls: opens_in_turn(&powers),
        changes: vec![Step::Close(10), Step::Write(261, 4)],
        asked: vec![
            [1, 0, 0, 0],
            [2, 0, 0, 1],
            [2_048, 0, 0, 0],
            [2_048, 0, 0, 1],
            [2_048, 0, 0, 2],
            [2_048, 5, 31, 1],
            [2_048, 9, 511, 0],
            [2_048, 10, 1_023, 1],
            [2_048, 10, 1_023, 2],
            [1_024, 10, 1_023, 0],
            [1_024, 10, 1_023, 1],
            [512, 10, 1_023, 0],
            [96, 5, 31, 0],
            [96, 5, 31, 1],
            [96, 6, 63, 0],
            [LAST_PERIOD, 0, 0, 0],
            [LAST_PERIOD, 1, 1, 0],
            [2_048, 10, 511, 0],
            [2_048, 10, 1_022, 0],
            [2_048, 11, 1_023, 0],
            [2_048, 11, 2_047, 0],
            [2_048, 12, 0, 0],
            [4_096, 10, 1_023, 0],
        ],
        widened: vec![[2_048, 9, 511, 1], [2_048, 10, 1_023, 0]],
    }
}

/// As case F, with the numbers from 63 down, so that the lowest stands deepest. A row of the
/// lowest line gets an edge that is its weight.
fn falling_numbers() -> AskedPlan {
    let opens = (1..=11).map(|power| Step::Open(64 - power, 1 << power));
    AskedPlan {
        calls: opens.collect(),
        changes: vec![Step::Close(53), Step::Write(54 * 22 + 1, 2)],
        asked: vec![
            [1, 0, 0, 0],
            [2, 0, 0, 0],
            [3, 0, 0, 0],
            [32, 5, 31, 0],
            [2_048, 5, 31, 0],
            [2_048, 9, 511, 0],
            [2_048, 10, 1_023, 0],
            [2_048, 10, 1_023, 1],
        ],
        widened: vec![[2, 0, 0, 1], [2_048, 5, 31, 1]],
    }
}

/// Under the edges 0 to 4 of a root of weight 6 stand the lines 40, 30, 50, 20 and 10, two of them
/// under nodes of their own. Line 10 closes; line 30 stands where line 40 does.
fn several_edges_in_a_class() -> AskedPlan {
    let lines = [(40, 6), (30, 6), (50, 12), (20, 6), (10, 24)];
    AskedPlan {
        calls: lines.map(|(line, period)| Step::Open(line, period)).into(),
        changes: vec![Step::Close(10), Step::Write(30 * 22 + 1, 0)],
        asked: vec![
            [1, 0, 0, 0],
            [5, 0, 0, 0],
            [2, 0, 0, 0],
            [2, 0, 0, 1],
            [2, 0, 0, 2],
            [3, 0, 0, 0],
            [3, 0, 0, 1],
            [3, 0, 0, 2],
            [3, 0, 0, 3],
            [6, 0, 0, 0],
            [6, 0, 0, 1],
            [6, 0, 0, 2],
            [6, 0, 0, 3],
            [6, 0, 0, 5],
            [6, 0, 0, 6],
            [3, 1, 2, 0],
            [6, 1, 2, 0],
            [6, 1, 4, 0],
            [12, 1, 2, 0],
            [12, 1, 2, 1],
            [12, 1, 4, 0],
            [12, 1, 4, 1],
            [12, 1, 4, 2],
            [24, 1, 4, 3],
            [24, 1, 4, 4],
            [6, 1, 0, 0],
            [6, 1, 3, 0],
            [6, 1, 5, 0],
        ],
        widened: vec![[6, 0, 0, 4], [24, 1, 4, 0]],
    }
}

/// Every round owned; then the line has period 7; then its edge is not below its weight.
fn every_round() -> AskedPlan {
    AskedPlan {
        calls: vec![Step::Open(7, 1)],
        changes: vec![Step::Write(7 * 22, 7), Step::Write(7 * 22 + 1, 7)],
        asked: vec![
            [1, 0, 0, 1],
            [7, 0, 0, 1],
            [7, 0, 0, 6],
            [7, 0, 0, 7],
            [8, 0, 0, 1],
            [LAST_PERIOD, 0, 0, 0],
            [LAST_PERIOD, 0, 0, 1],
            [1, 1, 0, 0],
            [7, 1, 0, 0],
            [0, 1, 0, 0],
        ],
        widened: vec![[1, 0, 0, 0], [7, 0, 0, 0]],
    }
}

/// Line 63 at 0, line 62 at 1 and line 0 at 2. Then line 63 stands under the last edge, and then
/// has a weight out of range.
fn longest_period() -> AskedPlan {
    let lines = [LAST_LINE, LAST_LINE - 1, 0];
    let row = LAST_LINE * 22;
    AskedPlan {
        calls: lines.map(|line| Step::Open(line, LAST_PERIOD)).into(),
        changes: vec![Step::Write(row + 1, 4_094), Step::Write(row, 4_096)],
        asked: vec![
            [LAST_PERIOD, 0, 0, 0],
            [LAST_PERIOD, 0, 0, 3],
            [LAST_PERIOD, 0, 0, 4_094],
            [LAST_PERIOD, 0, 0, LAST_PERIOD],
            [LAST_PERIOD, 0, 0, 4_096],
            [819, 0, 0, 0],
            [819, 0, 0, 818],
            [819, 0, 0, 819],
            [3, 0, 0, 0],
            [3, 0, 0, 1],
            [3, 0, 0, 2],
            [3, 0, 0, 3],
            [1, 0, 0, 0],
            [4_094, 0, 0, 0],
            [4_094, 0, 0, 1],
            [LAST_PERIOD, 1, 0, 0],
        ],
        widened: vec![[LAST_PERIOD, 0, 0, 1], [LAST_PERIOD, 0, 0, 2]],
    }
}

/// Line 1 stands under edge 0 of a node of step 2,047, line 2 under edge 1 of the root. Line 2
/// then stands where that node does.
fn largest_step() -> AskedPlan {
    AskedPlan {
        calls: opens_in_turn(&[4_094, 2_047]),
        changes: vec![Step::Write(45, 2_046), Step::Write(45, 0)],
        asked: vec![
            [2_047, 0, 0, 0],
            [2_047, 0, 0, 2_046],
            [2_047, 0, 0, 2_047],
            [2_047, 1, 0, 0],
            [2_047, 1, 0, 1],
            [4_094, 1, 0, 1],
            [4_094, 1, 0, 2],
            [4_094, 1, 1, 0],
            [4_093, 0, 0, 0],
            [4_093, 1, 0, 0],
            [23, 0, 0, 1],
            [23, 0, 0, 21],
            [23, 0, 0, 22],
            [23, 1, 0, 0],
        ],
        widened: vec![[2_047, 0, 0, 1], [4_094, 1, 0, 0]],
    }
}

/// All 64 lines: the lines 1 to 63 stand each under a node of weight 2, under the edges 0 to 62
/// of a root of weight 65, and line 0 under one of weight 3, under edge 63. Then a number stands
/// in a row that is not used.
fn every_line() -> AskedPlan {
    AskedPlan {
        calls: [opens_in_turn(&[130; 63]), vec![Step::Open(0, 195)]].concat(),
        changes: vec![Step::Close(1), Step::Write(63 * 22 + 5, 1)],
        asked: vec![
            [1, 0, 0, 0],
            [5, 0, 0, 0],
            [5, 0, 0, 2],
            [5, 0, 0, 3],
            [13, 0, 0, 10],
            [13, 0, 0, 12],
            [65, 0, 0, 0],
            [65, 0, 0, 62],
            [65, 0, 0, 64],
            [65, 0, 0, 65],
            [130, 1, 0, 0],
            [130, 1, 0, 1],
            [130, 1, 62, 1],
            [130, 1, 63, 0],
            [130, 1, 64, 0],
            [195, 1, 63, 1],
            [195, 1, 63, 2],
            [195, 1, 63, 3],
            [66, 1, 62, 0],
            [130, 2, 62, 0],
        ],
        widened: vec![[65, 0, 0, 63], [130, 1, 62, 0], [195, 1, 63, 0]],
    }
}

#[cfg(test)]
mod tests {
    use super::*;
    use crate::script::tests::{answers, trees_left_by_writes};

    /// Places in the list of plans.
    const EMPTY: usize = 0;
    const CASE_A: usize = 1;
    const CASE_F: usize = 2;
    const FALLING: usize = 3;
    const SEVERAL_EDGES: usize = 4;
    const EVERY_ROUND: usize = 5;
    const LONGEST: usize = 6;
    const LARGEST_STEP: usize = 7;
    const EVERY_LINE: usize = 8;

    /// Each write does what its plan says.
    #[test]
    fn writes_leave_another_tree_or_none() {
        let left = trees_left_by_writes(&border_reasons());
        let twice = [Some(true), None].repeat(3);
        assert_eq!(left, [vec![None; 5], twice, vec![None]].concat());
    }

    /// What is printed of the plan at a place in the list, after so many of its changes.
    fn printed(at: usize, changes: usize) -> Vec<String> {
        let it = plans().swap_remove(at);
        let text = answers(&it.steps());
        let said = text.lines().filter_map(|it| it.strip_prefix("reason "));
        let all: Vec<String> = said.map(str::to_string).collect();
        let mut parts = all.chunks(it.reasons().len());
        parts.nth(changes).unwrap().to_vec()
    }

    #[test]
    fn a_damaged_record_is_the_empty_plan() {
        for (at, it) in plans().into_iter().enumerate() {
            let empty = answers(&it.reasons());
            let said = empty.lines().filter_map(|it| it.strip_prefix("reason "));
            let damaged = printed(at, it.changes.len());
            assert!(said.eq(damaged.iter().map(String::as_str)), "{at}");
        }
    }

    /// As long as the plan is as its calls made it, each of the widened is answered with a line,
    /// and none of these answers with another number, but for periods that are still in range.
    #[test]
    fn numbers_in_more_bits_are_told() {
        let mut in_range = 0;
        for it in plans() {
            for &numbers in &it.widened {
                let said = |numbers| {
                    let steps = [it.calls.as_slice(), &[reason_step(numbers)]].concat();
                    let text = answers(&steps);
                    text.lines().last().unwrap().to_string()
                };
                assert!(said(numbers).contains(" 0 line "), "{numbers:?}");
                let all = wider(numbers).into_iter();
                let (small, large): (Vec<Numbers>, Vec<Numbers>) =
                    all.partition(|it| it[0] != numbers[0] && it[0] <= LAST_PERIOD);
                in_range += small.len();
                assert!(
                    large.into_iter().all(|it| said(it).ends_with(" -")),
                    "{numbers:?}"
                );
            }
        }
        // of the 18 widened all but those of 4,094 and 4,095
        assert_eq!(in_range, 15);
    }

    fn assert_printed(at: usize, changes: usize, expected: &[&str]) {
        let printed = printed(at, changes);
        for said in expected {
            assert!(printed.iter().any(|it| it == said), "{at} {changes} {said}");
        }
    }

    #[test]
    fn reasons_in_the_empty_plan() {
        let none = ["1 0 0 0 10 -", "12 0 0 12 10 -", "4095 0 0 3 10 -"];
        let out_of_range = ["0 0 0 0 2 -", "4096 0 0 0 2 -"];
        for changes in [0, 2, 3] {
            assert_printed(EMPTY, changes, &none);
            assert_printed(EMPTY, changes, &out_of_range);
        }
        // 12@0: d is 1, 12 and 3
        assert_printed(EMPTY, 1, &["1 0 0 0 0 line 5", "1 0 0 1 11 -"]);
        assert_printed(EMPTY, 1, &["12 0 0 0 0 line 5", "12 0 0 1 12 -"]);
        assert_printed(EMPTY, 1, &["4095 0 0 0 0 line 5", "4095 0 0 3 11 -"]);
        assert_printed(EMPTY, 1, &["12 0 0 12 11 -", "12 1 0 0 10 -"]);
        assert_printed(EMPTY, 1, &out_of_range);
    }

    /// Found by hand, as in `reason.rs`.
    #[test]
    fn reasons_in_case_a() {
        assert_printed(CASE_A, 0, &["2 0 0 0 0 line 1", "2 0 0 1 0 line 2"]);
        assert_printed(CASE_A, 0, &["2 1 0 0 0 line 1", "2 1 1 0 0 line 2"]);
        assert_printed(CASE_A, 0, &["2 2 2 0 0 step", "2 2 3 0 0 step"]);
        assert_printed(CASE_A, 0, &["12 1 0 1 0 line 3", "12 1 1 1 0 line 5"]);
        assert_printed(CASE_A, 0, &["12 1 1 2 12 -", "12 1 1 3 11 -"]);
        assert_printed(CASE_A, 0, &["5 1 1 7 0 step", "5 0 0 0 0 line 1"]);
        assert_printed(CASE_A, 0, &["5 1 0 18446744073709551615 0 step"]);
        for nowhere in ["12 2 0 0", "12 3 3 0", "12 1 2 0", "5 2 0 9", "7 9 9 9"] {
            assert_printed(CASE_A, 0, &[&format!("{nowhere} 10 -")]);
        }
        for out_of_range in ["0 0 0 0", "0 4 0 0", "4096 2 0 9", "4108 1 1 1"] {
            assert_printed(CASE_A, 0, &[&format!("{out_of_range} 2 -")]);
        }
        // 268 leaves one class at the node of weight 3, 12 three
        assert_printed(CASE_A, 0, &["268 1 0 1 0 line 3", "268 1 1 1 11 -"]);
        // line 2 is closed
        assert_printed(CASE_A, 1, &["2 0 0 1 0 line 5", "2 1 1 0 0 line 5"]);
        assert_printed(CASE_A, 1, &["12 1 1 0 12 -", "12 1 1 1 0 line 5"]);
    }

    /// Found by hand: from a node on, line k is the lowest where it stands under edge 0, and in
    /// the falling sequence the deepest one is.
    #[test]
    fn reasons_under_eleven_nodes() {
        assert_printed(CASE_F, 0, &["1 0 0 0 0 line 1", "2 0 0 1 0 line 2"]);
        assert_printed(CASE_F, 0, &["2048 5 31 1 0 line 7", "96 5 31 0 0 line 6"]);
        assert_printed(CASE_F, 0, &["96 5 31 1 11 -", "96 6 63 0 0 step"]);
        let last = ["2048 10 1023 0 0 line 11", "2048 10 1023 1 12 -"];
        assert_printed(CASE_F, 0, &last);
        assert_printed(CASE_F, 0, &["2048 10 1023 2 11 -", "512 10 1023 0 0 step"]);
        assert_printed(CASE_F, 0, &["2048 11 1023 0 10 -", "2048 11 2047 0 10 -"]);
        assert_printed(CASE_F, 1, &["2048 9 511 0 12 -", "2048 9 511 1 0 line 11"]);
        assert_printed(FALLING, 0, &["1 0 0 0 0 line 53", "2 0 0 0 0 line 63"]);
        assert_printed(FALLING, 0, &["2 0 0 1 0 line 53", "32 5 31 0 0 line 53"]);
        assert_printed(FALLING, 0, &["2048 5 31 0 0 line 58"]);
        assert_printed(FALLING, 1, &["2 0 0 1 0 line 54", "2048 10 1023 0 10 -"]);
    }

    /// Found by hand, as in `reason.rs`.
    #[test]
    fn reasons_with_several_edges_in_a_class() {
        let at = SEVERAL_EDGES;
        assert_printed(at, 0, &["3 0 0 0 0 line 20", "3 0 0 1 0 line 10"]);
        assert_printed(at, 0, &["2 0 0 0 0 line 10", "2 0 0 1 0 line 20"]);
        assert_printed(
            at,
            0,
            &["6 0 0 0 0 line 40", "6 0 0 5 12 -", "6 0 0 6 11 -"],
        );
        assert_printed(at, 0, &["3 1 2 0 0 step", "6 1 2 0 0 line 50"]);
        assert_printed(
            at,
            0,
            &["12 1 4 0 0 line 10", "12 1 4 1 12 -", "12 1 4 2 11 -"],
        );
        assert_printed(at, 0, &["6 1 3 0 10 -", "6 1 5 0 10 -"]);
        assert_printed(at, 1, &["3 0 0 1 0 line 30", "2 0 0 0 0 line 40"]);
        assert_printed(
            at,
            1,
            &["1 0 0 0 0 line 20", "6 0 0 4 12 -", "6 1 4 0 10 -"],
        );
    }

    /// Found by hand: 1@0, then 7@0, where 7 divides 4,095.
    #[test]
    fn reasons_under_a_root_of_weight_1() {
        assert_printed(EVERY_ROUND, 0, &["1 0 0 0 0 line 7", "4095 0 0 0 0 line 7"]);
        assert_printed(EVERY_ROUND, 0, &["1 0 0 1 11 -", "4095 0 0 1 11 -"]);
        assert_printed(EVERY_ROUND, 0, &["1 1 0 0 10 -", "0 1 0 0 2 -"]);
        assert_printed(EVERY_ROUND, 1, &["7 0 0 0 0 line 7", "7 0 0 6 12 -"]);
        assert_printed(EVERY_ROUND, 1, &["7 0 0 7 11 -", "4095 0 0 1 12 -"]);
    }

    /// Found by hand: 4,094 leaves 818 when divided by 819, and 2 by 3; 2,046 leaves 22 by 23.
    #[test]
    fn reasons_under_large_weights() {
        let ends = ["4095 0 0 1 0 line 62", "4095 0 0 4094 12 -"];
        assert_printed(LONGEST, 0, &ends);
        assert_printed(LONGEST, 0, &["4095 0 0 4095 11 -", "4094 0 0 1 11 -"]);
        assert_printed(LONGEST, 0, &["819 0 0 0 0 line 63", "3 0 0 2 0 line 0"]);
        let last = ["4095 0 0 4094 0 line 63", "819 0 0 818 0 line 63"];
        assert_printed(LONGEST, 1, &last);
        assert_printed(LONGEST, 1, &["4095 0 0 0 12 -", "3 0 0 2 0 line 0"]);
        assert_printed(LARGEST_STEP, 0, &["4094 1 0 0 0 line 1", "4094 1 0 1 12 -"]);
        assert_printed(LARGEST_STEP, 0, &["2047 0 0 1 0 line 2", "2047 1 0 1 11 -"]);
        assert_printed(LARGEST_STEP, 0, &["4093 1 0 0 0 step", "23 0 0 22 12 -"]);
        assert_printed(LARGEST_STEP, 1, &["23 0 0 22 0 line 2", "23 0 0 1 12 -"]);
    }

    /// Found by hand: modulo 5 line 0's edge, 63, is of class 3; line 6 follows line 1 in class 0.
    #[test]
    fn reasons_with_every_line_open() {
        assert_printed(EVERY_LINE, 0, &["5 0 0 0 0 line 1", "5 0 0 3 0 line 0"]);
        assert_printed(EVERY_LINE, 0, &["13 0 0 10 0 line 11", "65 0 0 64 12 -"]);
        assert_printed(EVERY_LINE, 0, &["130 1 62 0 0 line 63", "130 1 62 1 12 -"]);
        assert_printed(EVERY_LINE, 0, &["195 1 63 0 0 line 0", "195 1 63 3 11 -"]);
        assert_printed(EVERY_LINE, 0, &["66 1 62 0 0 step", "130 1 64 0 10 -"]);
        assert_printed(EVERY_LINE, 1, &["5 0 0 0 0 line 6", "130 1 0 0 10 -"]);
    }
}
