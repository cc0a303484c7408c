//! Weaving, with what has to be true of every two plans.

use gaplinte::{raw, Owner, Plan, Refusal, Round};

/// Weaves two plans, which stay as found. A record that is lent for the woven plan gets it, whatever it was, or stays as
/// found where the call is refused.
pub fn weave(a: &Plan, b: &Plan) -> Result<Plan, Refusal> {
    let (found_a, found_b) = (a.clone(), b.clone());
    let woven = a.weave(b);
    let (zeros, damaged) = ([0; raw::PLAN_NUMBERS], [65_535; raw::PLAN_NUMBERS]);
    for found in [zeros, damaged, *a.record(), *b.record()] {
        let mut lent = found;
        let answer = raw::weave(a.record(), b.record(), &mut lent);
        let expected = match &woven {
            Ok(plan) => (0, *plan.record()),
            Err(refusal) => (-i64::from(refusal.number()), found),
        };
        assert_eq!((answer, lent), expected);
    }
    assert_eq!((a, b), (&found_a, &found_b));
    woven
}

/// The owner of round t is that of round t div 2, in the first plan for an even t and in the second for an odd one. From
/// an idle round the next owned one of the same side is twice as far off as in that side's plan. That of the other side,
/// whose next round is one later, is twice as far off and one more.
pub fn expect_owner(woven: &Plan, (a, b): (&Plan, &Plan), round: u64) {
    let half = Round(round / 2);
    let (same, other) = match round % 2 {
        0 => (a.owner(half), b.owner(half)),
        _ => (b.owner(half), a.owner(Round(half.0 + 1))),
    };
    let expected = match same {
        Owner::Line(line) => Owner::Line(line),
        Owner::Idle { .. } => {
            let of_same = until_owned(same).map(|rest| 2 * rest);
            let of_other = until_owned(other).map(|rest| 2 * rest + 1);
            let rest = of_same.into_iter().chain(of_other).min().unwrap_or(0);
            Owner::Idle { rest }
        }
    };
    assert_eq!(woven.owner(Round(round)), expected, "round {round}");
}

/// How far off the next owned round is, 0 for an owned one. `None` in an empty plan.
fn until_owned(owner: Owner) -> Option<u64> {
    match owner {
        Owner::Line(_) => Some(0),
        Owner::Idle { rest: 0 } => None,
        Owner::Idle { rest } => Some(rest),
    }
}

/// So many of the first rounds, and of the last.
pub fn expect_owners(woven: &Plan, sides: (&Plan, &Plan), rounds: u64) {
    for round in (0..rounds).chain(u64::MAX - rounds + 1..=u64::MAX) {
        expect_owner(woven, sides, round);
    }
}
