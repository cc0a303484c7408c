//! The sheet of so many rounds: the turns of each line, and the idle rounds, which the walk counts round by round.

use super::owner::{owner_of, times_of, until_turn, Times};
use super::paths::{is_closed, legal};
use super::{plan_in, Path, Plan, LINES};
use crate::{Record, Sheet};
use std::array;

/// How many rounds a line with these times owns among so many that begin with `first`. Fewer rounds than `needed` end
/// before its next turn.
fn turns_of(times: Times, first: u64, rounds: u16) -> u64 {
    let needed = until_turn(times, first) + 1;
    let asked = u64::from(rounds);
    if asked < needed {
        return 0;
    }
    (asked - needed) / times.period + 1
}

/// The turns of a line. A closed line has none.
fn line_turns(path: &Path, first: u64, rounds: u16) -> u16 {
    if is_closed(path) {
        return 0;
    }
    turns_of(times_of(path), first, rounds) as u16
}

fn idle_rounds(plan: &Plan, first: u64, rounds: u16) -> u16 {
    let is_idle = |&ahead: &u16| owner_of(plan, first, ahead).is_none();
    (0..rounds).filter(is_idle).count() as u16
}

/// The turns of each line and the idle rounds, among so many that begin with `first`, past 2^64 too. A record that is
/// no tree counts as the empty plan.
pub fn sheet(rows: &Record, first: u64, rounds: u16, sheet: &mut Sheet) -> i64 {
    let plan = plan_in(rows);
    let [turns @ .., idle] = sheet;
    if !legal(plan) {
        *turns = [0; LINES];
        *idle = rounds;
        return 0;
    }
    *turns = array::from_fn(|line| line_turns(&plan[line], first, rounds));
    *idle = idle_rounds(plan, first, rounds);
    0
}
