//! Two plans woven into one.

use super::owner::times_of;
use super::paths::{is_closed, legal, length};
use super::{plan_in, plan_in_mut, refused, Path, Plan, CLOSED, EMPTY};
use crate::Record;

/// Some line is open in both plans.
fn open_in_both(a: &Plan, b: &Plan) -> bool {
    let mut lines = a.iter().zip(b);
    lines.any(|(a, b)| !is_closed(a) && !is_closed(b))
}

/// The doubled period of some line passes 4,095.
fn doubled_out_of_range(plan: &Plan) -> bool {
    plan.iter()
        .any(|path| !is_closed(path) && 4095 < 2 * times_of(path).period)
}

/// The woven path of an open line is written: the root's row in front of its own. The one row of a root of weight 1 is left out.
fn weave_line(woven: &mut Path, path: &Path, side: u16) {
    *woven = CLOSED;
    woven[0] = [2, side];
    if path[0][0] == 1 {
        return;
    }
    let count = length(path);
    woven[1..=count].copy_from_slice(&path[..count]);
}

/// The open lines of a side are written.
fn weave_side(woven: &mut Plan, plan: &Plan, side: u16) {
    for (woven, path) in woven.iter_mut().zip(plan) {
        if !is_closed(path) {
            weave_line(woven, path, side);
        }
    }
}

/// Two plans that are trees.
fn weave_trees(a: &Plan, b: &Plan) -> Result<Plan, i64> {
    if open_in_both(a, b) {
        return Err(refused(15));
    }
    if doubled_out_of_range(a) || doubled_out_of_range(b) {
        return Err(refused(16));
    }
    let mut woven = EMPTY;
    weave_side(&mut woven, a, 0);
    weave_side(&mut woven, b, 1);
    Ok(woven)
}

/// The plan of a record. A record that is no tree counts as the empty plan.
fn tree_in(rows: &Record) -> &Plan {
    let plan = plan_in(rows);
    if legal(plan) {
        plan
    } else {
        &EMPTY
    }
}

/// Weaves two plan records into a third, which then has the woven tree.
pub fn weave(a: &Record, b: &Record, woven: &mut Record) -> i64 {
    match weave_trees(tree_in(a), tree_in(b)) {
        Ok(plan) => {
            *plan_in_mut(woven) = plan;
            0
        }
        Err(answer) => answer,
    }
}
