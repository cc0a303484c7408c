//! An open of a line that is not open, with a period in range on a plan that is not empty, is
//! refused with 5 exactly when each class of each node has a reason (document 02, Ask 7, 3). On
//! generated plans. Only for tests.

use crate::ask::show;
use crate::lists::generate;
use crate::offers::{periods_for, plans_of};
use crate::random::Random;
use crate::reason::{nodes, reason, Asked, Reason};
use crate::refusal::Refusal;
use crate::shapes::Shape;
use crate::tree::{gcd, Plan, Position};

/// What is said of a period, a node and a class.
fn said(plan: &Plan, period: u16, at: &Position, class: u16) -> Result<Reason, Refusal> {
    reason(
        plan,
        Asked {
            period: period.into(),
            level: at.level() as u64,
            offset: at.offset.into(),
            class: class.into(),
        },
    )
}

/// Each class of each node has a line, where the step divides the period, and otherwise the node
/// has a step that does not.
fn every_class_has_a_reason(plan: &Plan, period: u16) -> bool {
    nodes(plan).iter().all(|(position, node)| {
        if !period.is_multiple_of(position.step) {
            return said(plan, period, position, 0) == Ok(Reason::Step);
        }
        let mut classes = 0..gcd(node.weight, period / position.step);
        classes.all(|class| matches!(said(plan, period, position, class), Ok(Reason::Line(_))))
    })
}

/// No call is refused with 12. How many classes a node has is not known here: they are tried up to
/// the first answer that is not a line.
fn no_class_is_refused_with_12(plan: &Plan, period: u16) -> bool {
    nodes(plan).iter().all(|(position, _)| {
        let mut said = (0..).map(|class| said(plan, period, position, class));
        let last = said.find(|it| !matches!(it, Ok(Reason::Line(_))));
        last != Some(Err(Refusal::NoLine))
    })
}

/// Whether the open is refused with 5; the reasons must say the same.
fn is_refused_with_5(plan: &Plan, line: u64, period: u16) -> bool {
    let opened = plan.clone().open(line, period.into());
    let refused = opened == Err(Refusal::NoCandidate);
    assert!(refused || opened.is_ok(), "{line} {period} {opened:?}");
    let every = every_class_has_a_reason(plan, period);
    assert_eq!(every, refused, "{period} {plan:?}");
    let none = no_class_is_refused_with_12(plan, period);
    assert_eq!(none, refused, "{period} {plan:?}");
    refused
}

fn closed_line(plan: &Plan) -> Option<u64> {
    (0..64).find(|&line| show(plan, line).is_err())
}

/// So many lists of a shape; at least so many opens must be refused, and as many must not.
fn check_plans(shape: Shape, lists: usize, least: usize) {
    let mut random = Random::new(61);
    let mut counts = [0; 2];
    for _ in 0..lists {
        let plans = plans_of(&generate(shape, &mut random)).into_iter();
        for plan in plans.filter(|plan| *plan != Plan::empty()) {
            let Some(line) = closed_line(&plan) else {
                continue;
            };
            for period in periods_for(&plan) {
                counts[usize::from(is_refused_with_5(&plan, line, period))] += 1;
            }
        }
    }
    assert!(
        counts.iter().all(|&count| count > least),
        "{shape:?} {counts:?}"
    );
}

#[test]
fn sparse_plans() {
    check_plans(Shape::Sparse, 100, 20_000);
}

#[test]
fn full_plans() {
    check_plans(Shape::Full, 3, 5_000);
}

#[test]
fn deep_plans() {
    check_plans(Shape::Deep, 5, 8_000);
}

#[test]
fn prime_plans() {
    check_plans(Shape::Primes, 12, 15_000);
}

#[test]
fn joining_plans() {
    check_plans(Shape::Joining, 6, 10_000);
}
