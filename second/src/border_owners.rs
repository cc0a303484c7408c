//! Owners at the borders, for the script of calls (`script.rs`): in case F's plan, where a line
//! has 11 nodes above it, and in one whose lower node has the largest step that there is, 2,047
//! (document 02, Ask 2), of rounds near 0, 2^32 and 2^64.

use crate::ask::show;
use crate::border_turns::border_rounds;
use crate::script::{opened_in_turn, Step};
use crate::tree::{Plan, LAST_LINE};
use std::collections::BTreeSet;

pub fn border_owners() -> Vec<Step> {
    let powers: Vec<u64> = (1..=11).map(|power| 1 << power).collect();
    let plans: [&[u64]; 2] = [&powers, &[4_094, 2_047]];
    let asked = plans.map(|periods| {
        let (opens, held) = opened_in_turn(periods);
        let owners = rounds_in(&held.plan).into_iter().map(Step::Owner);
        opens.into_iter().chain(owners).collect::<Vec<Step>>()
    });
    asked.concat()
}

/// The border rounds of every open line.
pub(crate) fn rounds_in(plan: &Plan) -> BTreeSet<u64> {
    let shown = (0..=LAST_LINE).filter_map(|line| show(plan, line).ok());
    shown.flat_map(|shown| border_rounds(&shown)).collect()
}

#[cfg(test)]
mod tests {
    use super::*;
    use crate::ask::owner;

    /// The line that a round fits by period and start (The lists of demand 3, 18).
    fn fitting(times: &[(u64, u64)], round: u64) -> Option<u8> {
        let fits = |&(period, start): &(u64, u64)| round % period == start;
        times.iter().position(fits).map(|at| at as u8 + 1)
    }

    /// How many of the rounds asked are owned, and how many are idle.
    fn owned_and_idle(times: &[(u64, u64)]) -> (usize, usize) {
        let periods: Vec<u64> = times.iter().map(|&(period, _)| period).collect();
        let plan = opened_in_turn(&periods).1.plan;
        let rounds = rounds_in(&plan);
        for border in [0, (1 << 32) - 1, 1 << 32, (1 << 32) + 1, u64::MAX] {
            assert!(rounds.contains(&border), "{border}");
        }
        for &round in &rounds {
            assert_eq!(owner(&plan, round).line(), fitting(times, round), "{round}");
        }
        let owned = |round: &&u64| fitting(times, **round).is_some();
        let owned = rounds.iter().filter(owned).count();
        (owned, rounds.len() - owned)
    }

    #[test]
    fn owners_fit_periods_and_starts() {
        let powers: Vec<(u64, u64)> = (1..=11).map(|k| (1 << k, (1 << (k - 1)) - 1)).collect();
        assert_eq!(owned_and_idle(&powers), (89, 2));
        assert_eq!(owned_and_idle(&[(4_094, 0), (2_047, 1)]), (6, 10));
    }
}
