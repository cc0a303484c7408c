//! The starts that the candidates of generated plans offer (document 02, Ask 6). Only for tests.

use crate::ask::show;
use crate::lists::generate;
use crate::naive::offered_starts;
use crate::orders::{run_order, ORDER_BYTES};
use crate::random::Random;
use crate::shapes::Shape;
use crate::tree::{Candidate, Plan, Start, LAST_PERIOD};
use std::collections::BTreeSet;

/// The plans that a list leaves on its way, after every fourth order.
pub(crate) fn plans_of(list: &[u8]) -> Vec<Plan> {
    let (mut plan, mut plans) = (Plan::empty(), Vec::new());
    for (at, order) in list.chunks_exact(ORDER_BYTES).enumerate() {
        let _ = run_order(&mut plan, [order[0], order[1], order[2]]);
        plans.extend((at % 4 == 3).then(|| plan.clone()));
    }
    plans
}

/// 1 to 60, and every divisor and multiple of the period of an open line.
pub(crate) fn periods_for(plan: &Plan) -> BTreeSet<u16> {
    let shown = (0..64).filter_map(|line| show(plan, line).ok());
    let open: BTreeSet<u16> = shown.map(|shown| shown.period.0).collect();
    let fits = |period: &u16| {
        let meets = |it: &u16| it.is_multiple_of(*period) || period.is_multiple_of(*it);
        open.iter().any(meets)
    };
    let fitting = (1..=LAST_PERIOD as u16).filter(fits);
    fitting.chain(1..=60).collect()
}

/// In rising sequence, found by the search that an open makes.
fn offers(plan: &Plan, period: u16) -> Vec<u16> {
    let root = plan.root.as_ref();
    let candidates = root.map_or_else(Vec::new, |root| root.candidates(period));
    let starts = candidates.iter().map(Candidate::start);
    in_rising_sequence(starts.map(|Start(round)| round).collect())
}

fn in_rising_sequence(mut starts: Vec<u16>) -> Vec<u16> {
    starts.sort_unstable();
    starts
}

/// Two candidates never offer the same start (Ask 6, 3), and the second search finds the same
/// offers. Answers how many there are.
fn offers_that_differ(plan: &Plan, period: u16) -> usize {
    let offers = offers(plan, period);
    let rise = offers.windows(2).all(|pair| pair[0] < pair[1]);
    assert!(rise, "{period} {offers:?} {plan:?}");
    let again = in_rising_sequence(offered_starts(plan, period));
    assert_eq!(offers, again, "{period} {plan:?}");
    offers.len()
}

/// So many lists; at least so often there must be two candidates or more.
fn check_plans(shape: Shape, lists: usize, least: usize) {
    let mut random = Random::new(51);
    let mut several = 0;
    for _ in 0..lists {
        for plan in plans_of(&generate(shape, &mut random)) {
            let counts = periods_for(&plan).into_iter();
            let counts = counts.map(|period| offers_that_differ(&plan, period));
            several += counts.filter(|&count| count > 1).count();
        }
    }
    assert!(several > least, "{shape:?} {several}");
}

#[test]
fn no_two_offers_are_one_start_in_sparse_plans() {
    check_plans(Shape::Sparse, 100, 10_000);
}

#[test]
fn no_two_offers_are_one_start_in_full_plans() {
    check_plans(Shape::Full, 10, 4_000);
}

#[test]
fn no_two_offers_are_one_start_in_deep_plans() {
    check_plans(Shape::Deep, 50, 35_000);
}

#[test]
fn no_two_offers_are_one_start_in_prime_plans() {
    check_plans(Shape::Primes, 50, 20_000);
}

#[test]
fn no_two_offers_are_one_start_in_joining_plans() {
    check_plans(Shape::Joining, 30, 20_000);
}
