//! Calls on different plans in different threads: each plan is as if its calls were the only ones.

use gaplinte::{Answered, Owner, Plan, Refusal, Round, Walker};
use second::lists;
use second::random::Random;
use second::shapes::Shape;
use std::thread;

const THREADS: u64 = 4;
const LISTS: usize = 200;

type Told = Vec<Result<Answered, Refusal>>;

/// Lists, one after the other on one plan, with all that they answer and some questions after each.
fn run(seed: u64) -> (Plan, Vec<Told>, Walker) {
    let mut random = Random::new(seed);
    let mut plan = Plan::new();
    let mut walker = Walker::default();
    let mut answers = Vec::new();
    for shape in Shape::ALL.into_iter().cycle().take(LISTS) {
        let list = lists::generate(shape, &mut random);
        answers.push(plan.run_list(&list).unwrap());
        for _ in 0..20 {
            let next = plan.owner(walker.next);
            assert_eq!(walker.walk(&plan), Ok(next));
        }
        for open in plan.lines() {
            assert_eq!(plan.owner(Round(open.start.0)), Owner::Line(open.line));
        }
    }
    (plan, answers, walker)
}

#[test]
fn different_plans() {
    let alone: Vec<_> = (0..THREADS).map(run).collect();
    assert!(alone.windows(2).all(|pair| pair[0].1 != pair[1].1));
    thread::scope(|scope| {
        let threads: Vec<_> = (0..THREADS)
            .map(|seed| scope.spawn(move || run(seed)))
            .collect();
        for (thread, alone) in threads.into_iter().zip(alone) {
            assert_eq!(thread.join().unwrap(), alone);
        }
    });
}

/// One plan may be asked in several threads while none changes it.
#[test]
fn one_plan_that_is_only_asked() {
    let (plan, ..) = run(7);
    let owners = |plan: &Plan| -> Vec<_> {
        let rounds = (0..10_000).chain(u64::MAX - 10_000..=u64::MAX);
        rounds.map(|round| plan.owner(Round(round))).collect()
    };
    let alone = owners(&plan);
    assert!(alone.iter().any(|owner| owner.line().is_some()));
    thread::scope(|scope| {
        let threads: Vec<_> = (0..THREADS)
            .map(|_| scope.spawn(|| owners(&plan)))
            .collect();
        for thread in threads {
            assert_eq!(thread.join().unwrap(), alone);
        }
    });
}
