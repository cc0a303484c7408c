//! Sheets among the steps of a generated script (`script.rs`). They are drawn from random
//! numbers of their own, so that the other steps are the same as without them.

use crate::random::Random;
use crate::script::Step;

/// A sheet after each write, and after one open or close in twenty, refused or not.
pub(crate) fn with_sheets(steps: &[Step], seed: u64) -> Vec<Step> {
    let mut random = Random::new(seed ^ 1 << 63);
    let mut all = Vec::new();
    for &step in steps {
        all.push(step);
        let asks = match step {
            Step::Write(..) => true,
            Step::Open(..) | Step::Close(_) => random.below(20) == 0,
            _ => false,
        };
        all.extend(asks.then(|| drawn_sheet(&mut random)));
    }
    all
}

fn drawn_sheet(random: &mut Random) -> Step {
    let rounds = drawn_rounds(random);
    let first = drawn_first(rounds, random);
    Step::Sheet { first, rounds }
}

/// Mostly below 400.
fn drawn_rounds(random: &mut Random) -> u16 {
    let drawn = match random.below(16) {
        0 => random.below(3),
        1 => 65_535 - random.below(2),
        2 => random.below(65_536),
        _ => random.below(400),
    };
    drawn as u16
}

/// Near 0, 2^32 or 2^64, or any. Of those near 2^32 or 2^64 most have rounds on both sides.
fn drawn_first(rounds: u16, random: &mut Random) -> u64 {
    let (away, before) = (random.below(6), random.below(u64::from(rounds) + 1));
    let firsts = [
        away,
        (1 << 32) - before,
        u64::MAX - before,
        u64::MAX - away,
        random.draw(),
    ];
    random.pick(&firsts)
}

#[cfg(test)]
mod tests {
    use super::*;
    use crate::drawn_trials::with_trials;
    use crate::record::Held;
    use crate::script::{change, generated, generated_calls};
    use crate::shapes::Shape;
    use crate::tree::Plan;

    fn is_sheet(step: &Step) -> bool {
        matches!(step, Step::Sheet { .. })
    }

    #[test]
    fn other_steps_stay_and_a_larger_count_adds() {
        for shape in Shape::ALL {
            let without = |count: u64| with_trials(&generated_calls(5, count, shape), 5);
            let script = with_sheets(&without(6), 5);
            assert!(with_sheets(&without(9), 5).starts_with(&script));
            assert!(script.iter().any(is_sheet));
            let others = script.into_iter().filter(|step| !is_sheet(step));
            assert!(others.eq(without(6)));
        }
    }

    /// The generated part of the script that `.ci/run` composes.
    fn stored() -> Vec<Step> {
        Shape::ALL.map(|shape| generated(1, 10, shape)).concat()
    }

    #[test]
    fn rounds_are_few_and_many_and_near_each_border() {
        let sheets = stored().into_iter().filter_map(|step| match step {
            Step::Sheet { first, rounds } => Some((first, rounds)),
            _ => None,
        });
        let sheets: Vec<(u64, u16)> = sheets.collect();
        let count = |is: &dyn Fn(u64, u16) -> bool| {
            let all = sheets.iter();
            all.filter(|&&(first, rounds)| is(first, rounds)).count()
        };
        assert!(4 * count(&|_, rounds| rounds < 400) > 3 * sheets.len());
        assert!(count(&|_, rounds| rounds < 3) > 5);
        assert!(count(&|_, rounds| rounds > 60_000) > 10);
        assert!(count(&|first, _| first < 6) > 20);
        let past = |border: u128| {
            count(&|first, rounds| {
                let (first, end) = (u128::from(first), u128::from(first) + u128::from(rounds));
                first < border && border < end
            })
        };
        assert!(past(1 << 32) > 20, "{}", past(1 << 32));
        assert!(past(1 << 64) > 50, "{}", past(1 << 64));
    }

    /// No tree, the empty plan, and a plan with lines.
    #[test]
    fn sheets_are_put_to_every_kind_of_record() {
        let mut seen = [0; 3];
        let mut held = Held::empty();
        for step in stored() {
            change(&mut held, step);
            if is_sheet(&step) {
                let kind = match held.record.tree() {
                    None => 0,
                    Some(plan) if plan == Plan::empty() => 1,
                    Some(_) => 2,
                };
                seen[kind] += 1;
            }
        }
        assert!(seen[0] >= 50 && seen[1] > 0 && seen[2] >= 100, "{seen:?}");
    }
}
