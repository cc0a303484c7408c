//! Trials among the steps of a generated script (`script.rs`). They are drawn from random
//! numbers of their own, so that the other steps are the same as without them.

use crate::ask::show;
use crate::random::Random;
use crate::record::Held;
use crate::script::{change, Step};
use crate::tree::{Plan, LAST_LINE, LAST_PERIOD};

/// Before one open in three the same trial, so that the open then shows whether it was right
/// (Ask 3, 4); after each write, and after every other show, one with a line and a period
/// drawn for the plan.
pub(crate) fn with_trials(steps: &[Step], seed: u64) -> Vec<Step> {
    let mut random = Random::new(!seed);
    let mut held = Held::empty();
    let mut all = Vec::new();
    for &step in steps {
        if let Step::Open(line, period) = step {
            all.extend((random.below(3) == 0).then_some(Step::Trial(line, period)));
        }
        change(&mut held, step);
        all.push(step);
        let asks = match step {
            Step::Write(..) => true,
            Step::Show(_) => random.below(2) == 0,
            _ => false,
        };
        all.extend(asks.then(|| drawn_trial(&held.plan, &mut random)));
    }
    all
}

fn drawn_trial(plan: &Plan, random: &mut Random) -> Step {
    Step::Trial(drawn_line(plan, random), drawn_period(plan, random))
}

/// Mostly a line that is not open, if there is one.
fn drawn_line(plan: &Plan, random: &mut Random) -> u64 {
    let is_closed = |line: &u64| show(plan, *line).is_err();
    let closed: Vec<u64> = (0..=LAST_LINE).filter(is_closed).collect();
    match random.below(16) {
        0 => LAST_LINE + 1 + random.draw() / 2,
        1 => random.below(LAST_LINE + 2),
        _ if closed.is_empty() => random.below(LAST_LINE + 1),
        _ => random.pick(&closed),
    }
}

/// Mostly a divisor or a multiple of the period of an open line, as these often fit.
fn drawn_period(plan: &Plan, random: &mut Random) -> u64 {
    let any = 1 + random.below(LAST_PERIOD);
    let mut periods = open_periods(plan);
    if periods.is_empty() {
        periods.push(any);
    }
    let period = random.pick(&periods);
    match random.below(16) {
        0 => random.pick(&[0, LAST_PERIOD + 1, 1 << 16 | any, 1 << 32 | any, u64::MAX]),
        1 | 2 => any,
        3..=8 => random.pick(&divisors(period)),
        _ => drawn_multiple(period, random),
    }
}

pub(crate) fn open_periods(plan: &Plan) -> Vec<u64> {
    let shown = (0..=LAST_LINE).filter_map(|line| show(plan, line).ok());
    shown.map(|shown| shown.period.0.into()).collect()
}

pub(crate) fn divisors(period: u64) -> Vec<u64> {
    let divides = |divisor: &u64| period.is_multiple_of(*divisor);
    (1..=period).filter(divides).collect()
}

/// Up to the longest period.
pub(crate) fn drawn_multiple(number: u64, random: &mut Random) -> u64 {
    number * (1 + random.below(LAST_PERIOD / number))
}

#[cfg(test)]
mod tests {
    use super::*;
    use crate::script::tests::answers;
    use crate::script::{generated, generated_calls};
    use crate::shapes::Shape;
    use std::collections::BTreeSet;

    fn is_trial(step: &Step) -> bool {
        matches!(step, Step::Trial(..))
    }

    #[test]
    fn other_steps_stay_and_a_larger_count_adds() {
        for shape in Shape::ALL {
            let with = |count: u64| with_trials(&generated_calls(5, count, shape), 5);
            let script = with(6);
            assert!(with(9).starts_with(&script));
            assert!(script.iter().any(is_trial));
            let others = script.into_iter().filter(|step| !is_trial(step));
            assert!(others.eq(generated_calls(5, 6, shape)));
        }
    }

    /// The generated part of the script that `.ci/run` composes.
    fn stored() -> Vec<Step> {
        Shape::ALL.map(|shape| generated(1, 10, shape)).concat()
    }

    /// Each refusal and each of the small figures is among the answers.
    #[test]
    fn every_kind_of_answer_is_told() {
        let text = answers(&stored());
        let trials = text.lines().filter(|line| line.starts_with("trial"));
        let told: BTreeSet<String> = trials
            .map(|line| match line.split(' ').collect::<Vec<_>>()[3..] {
                ["0", _, added, split] => format!("{added} {split}"),
                [refusal, ..] => refusal.to_string(),
                [] => unreachable!("a trial prints its result"),
            })
            .collect();
        for answer in ["1", "2", "3", "5", "0 whole", "1 whole"] {
            assert!(told.contains(answer), "{answer}");
        }
        for answer in ["1 split", "2 split", "3 split", "4 split"] {
            assert!(told.contains(answer), "{answer}");
        }
    }

    #[test]
    fn trials_are_put_to_damaged_records() {
        let mut held = Held::empty();
        let mut damaged = 0;
        for step in stored() {
            change(&mut held, step);
            damaged += u64::from(is_trial(&step) && held.record.tree().is_none());
        }
        assert!(damaged >= 50, "{damaged}");
    }

    /// `trial LINE PERIOD 0 START ADDED SPLIT` and then `open LINE PERIOD 0 START`, or both
    /// refused with the same number. The trial is an open on a copy, so that a difference
    /// would be one of printing; that each result is among them can fail too.
    #[test]
    fn opens_after_the_same_trial_print_its_answer() {
        let text = answers(&stored());
        let lines: Vec<Vec<&str>> = text.lines().map(|it| it.split(' ').collect()).collect();
        let mut results = BTreeSet::new();
        for pair in lines.windows(2) {
            let (trial, open) = (&pair[0], &pair[1]);
            let same = trial[0] == "trial" && open[0] == "open" && trial[1..3] == open[1..3];
            if same {
                assert_eq!(trial[3..5], open[3..5]);
                results.insert(trial[3]);
            }
        }
        assert_eq!(results, BTreeSet::from(["0", "1", "2", "3", "5"]));
    }
}
