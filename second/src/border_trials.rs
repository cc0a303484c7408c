//! Trials at the borders, for the script of calls (`script.rs`): of lines and periods in and
//! out of range, some struck by two checks, on several plans and on a damaged record of each
//! (document 02, Ask 3).

use crate::record::RECORD_NUMBERS;
use crate::script::{opens_in_turn, Step};
use crate::tree::{LAST_LINE, LAST_PERIOD};

/// In fewer bits 2^32 and 2^32 + 1 would be lines 0 and 1.
const LINES: [u64; 7] = [
    0,
    1,
    LAST_LINE,
    LAST_LINE + 1,
    1 << 32,
    1 << 32 | 1,
    u64::MAX,
];

/// In fewer bits 65,537 and 2^32 + 1 would be 1.
const PERIODS: [u64; 16] = [
    0,
    1,
    2,
    3,
    4,
    6,
    12,
    LAST_PERIOD - 1,
    LAST_PERIOD,
    LAST_PERIOD + 1,
    65_535,
    65_536,
    65_537,
    1 << 32,
    1 << 32 | 1,
    u64::MAX,
];

/// Each plan is tried as it was opened, and once more with a number written over that leaves
/// no tree.
pub fn border_trials() -> Vec<Step> {
    let plans = plans().into_iter();
    plans
        .flat_map(|(calls, no_tree)| {
            let begins = [vec![Step::Begin], calls].concat();
            [begins, every_trial(), vec![no_tree], every_trial()].concat()
        })
        .collect()
}

fn every_trial() -> Vec<Step> {
    let trials = LINES.map(|line| PERIODS.map(|period| Step::Trial(line, period)));
    trials.concat()
}

/// The calls that make each plan, and the write that damages it.
fn plans() -> Vec<(Vec<Step>, Step)> {
    let last = RECORD_NUMBERS as u64 - 1;
    vec![
        // a weight out of range
        (Vec::new(), Step::Write(0, 4_096)),
        // case A: line 1 has a root of another weight than the others
        (opens_in_turn(&[4, 6, 8, 2, 12]), Step::Write(22, 3)),
        // line 11, with 11 nodes above it: its last edge is its weight
        (eleven_nodes(), Step::Write(263, 2)),
        // every round owned: line 2 stands where line 1 does
        (opens_in_turn(&[1]), Step::Write(44, 1)),
        // a number in a row that is not used
        (every_line(), Step::Write(last, 65_535)),
        // the longest period gets a longer one
        (opens_in_turn(&[4_095]), Step::Write(24, 2)),
        // line 4 stands where line 1 does
        (two_edges_in_one_class(), Step::Write(89, 0)),
    ]
}

/// 11 nodes above a line, first by a split of the tenth; then case F, where another line finds
/// room in the last node.
fn eleven_nodes() -> Vec<Step> {
    let powers: Vec<u64> = (1..=11).map(|power| 1 << power).collect();
    let ten_nodes = [&powers[..9], &[2_048]].concat();
    let split = vec![Step::Trial(0, 1_024), Step::Begin];
    let room = vec![Step::Trial(0, 2_048)];
    [
        opens_in_turn(&ten_nodes),
        split,
        opens_in_turn(&powers),
        room,
    ]
    .concat()
}

/// All 64 lines; the last to be opened adds the most nodes that an open can add, one for each
/// of 63 edges and one of its own.
fn every_line() -> Vec<Step> {
    let before = [65, 130, 195, 260].map(|period| Step::Trial(0, period));
    let last = vec![Step::Open(0, 195)];
    [opens_in_turn(&[130; 63]), before.to_vec(), last].concat()
}

/// Edges 0 and 3 of a root of weight 6, one class modulo 3.
fn two_edges_in_one_class() -> Vec<Step> {
    let closes = vec![Step::Close(2), Step::Close(3)];
    [opens_in_turn(&[6; 4]), closes].concat()
}

#[cfg(test)]
mod tests {
    use super::*;
    use crate::ask::show;
    use crate::record::Held;
    use crate::script::change;
    use crate::script::tests::answers;

    /// Places in the list of plans.
    const EMPTY: usize = 0;
    const CASE_A: usize = 1;
    const CASE_F: usize = 2;
    const EVERY_ROUND: usize = 3;
    const EVERY_LINE: usize = 4;
    const LONGEST: usize = 5;
    const ONE_CLASS: usize = 6;

    /// The plan at a place in the list, before its write.
    fn held(at: usize) -> Held {
        let mut held = Held::empty();
        let (calls, _) = plans().swap_remove(at);
        calls.into_iter().for_each(|call| change(&mut held, call));
        held
    }

    #[test]
    fn writes_leave_no_tree() {
        for (at, (_, no_tree)) in plans().into_iter().enumerate() {
            let mut held = held(at);
            change(&mut held, no_tree);
            assert_eq!(held.record.tree(), None, "{at}");
        }
    }

    #[test]
    fn one_plan_has_every_line_open() {
        let plan = held(EVERY_LINE).plan;
        assert!((0..=LAST_LINE).all(|line| show(&plan, line).is_ok()));
    }

    /// What is printed for one plan, after the calls that make it.
    fn printed(at: usize) -> (String, String) {
        let (calls, no_tree) = plans().swap_remove(at);
        let sound = answers(&[calls.clone(), every_trial()].concat());
        let damaged = answers(&[calls.clone(), vec![no_tree], every_trial()].concat());
        let lines = damaged.lines().skip(calls.len() + 1);
        (sound, lines.map(|line| format!("{line}\n")).collect())
    }

    #[test]
    fn a_damaged_record_is_the_empty_plan() {
        let empty = answers(&every_trial());
        for at in 0..plans().len() {
            assert_eq!(printed(at).1, empty, "{at}");
        }
    }

    fn assert_printed(at: usize, trials: &[&str]) {
        let text = printed(at).0;
        for trial in trials {
            let line = format!("trial {trial}");
            assert!(text.lines().any(|printed| printed == line), "{line}");
        }
    }

    #[test]
    fn trials_on_the_empty_plan() {
        assert_printed(
            EMPTY,
            &[
                "0 1 0 0 1 whole",
                "63 4095 0 0 1 whole",
                "0 0 2 - - -",
                "1 65537 2 - - -",
                "63 4294967297 2 - - -",
                "64 1 1 - - -",
                "4294967296 1 1 - - -",
                "4294967297 4294967297 1 - - -",
                "18446744073709551615 18446744073709551615 1 - - -",
            ],
        );
    }

    /// Line 1 is open and line 0 is not: 1 before 2, 2 before 3, 3 before 5.
    #[test]
    fn the_first_check_that_strikes_is_told() {
        for at in [CASE_A, CASE_F, EVERY_ROUND, LONGEST, ONE_CLASS] {
            assert_printed(at, &["64 0 1 - - -", "1 0 2 - - -", "1 4096 2 - - -"]);
            assert_printed(at, &["0 1 5 - - -", "1 1 3 - - -"]);
        }
        assert_printed(
            EVERY_LINE,
            &["64 65536 1 - - -", "0 0 2 - - -", "63 1 3 - - -"],
        );
    }

    /// Each figure found by hand.
    #[test]
    fn trials_tell_starts_and_nodes() {
        assert_printed(CASE_A, &["0 2 5 - - -", "0 4 5 - - -", "0 4095 5 - - -"]);
        assert_printed(CASE_A, &["0 6 0 5 0 whole", "63 12 0 5 1 whole"]);
        assert_printed(CASE_F, &["0 1024 0 1023 1 split", "0 2048 0 2047 0 whole"]);
        assert_printed(CASE_F, &["0 2 5 - - -", "0 4094 5 - - -"]);
        assert_printed(EVERY_ROUND, &["0 1 5 - - -", "0 4095 5 - - -"]);
        assert_printed(EVERY_LINE, &["0 65 0 63 63 split", "0 130 0 63 0 whole"]);
        assert_printed(EVERY_LINE, &["0 195 0 63 64 split", "0 260 0 63 1 whole"]);
        assert_printed(LONGEST, &["0 3 0 1 1 split", "0 12 0 1 2 split"]);
        assert_printed(LONGEST, &["63 4095 0 1 0 whole", "0 4094 5 - - -"]);
        assert_printed(ONE_CLASS, &["0 3 0 1 1 split", "0 4095 0 1 2 split"]);
        assert_printed(ONE_CLASS, &["0 2 5 - - -", "0 6 0 1 0 whole"]);
        assert_printed(ONE_CLASS, &["0 12 0 1 1 whole", "0 4 5 - - -"]);
    }
}
