//! The tasks of weaving: two plans woven into a record that is lent.

use super::{Task, TOGETHER};
use crate::inputs::{pair_of, pair_with_line_in_both, plan_of};
use crate::{Calls, Record, RECORD};
use std::hint::black_box;

fn weave(calls: Calls, [a, b]: &[Record; 2], woven: &mut Record, expected: i64) {
    let answer = (calls.weave)(black_box(a), black_box(b), black_box(woven));
    assert_eq!(answer, expected);
}

fn weaves_of(calls: Calls, pair: [Record; 2], expected: i64) -> Task {
    let mut woven = [0; RECORD];
    Box::new(move || (0..TOGETHER).for_each(|_| weave(calls, &pair, &mut woven, expected)))
}

/// Two plans of so many lines each are woven.
pub fn weaves(calls: Calls, lines: usize) -> Task {
    weaves_of(calls, pair_of(lines as u64), 0)
}

/// A plan of so many lines is woven with the empty one.
pub fn weaves_with_empty(calls: Calls, lines: usize) -> Task {
    weaves_of(calls, [plan_of(lines as u64), [0; RECORD]], 0)
}

/// Two plans of so many lines each, one of which is open in both, are refused with 15.
pub fn weaves_refused(calls: Calls, lines: usize) -> Task {
    weaves_of(calls, pair_with_line_in_both(lines as u64), -15)
}
