//! Reasons among the steps of a generated script (`script.rs`). They are drawn from random
//! numbers of their own, so that the other steps are the same as without them.

use crate::ask::{show, Shown};
use crate::drawn_trials::{divisors, drawn_multiple, open_periods};
use crate::random::Random;
use crate::reason::{nodes, Asked};
use crate::record::Held;
use crate::script::{change, Step};
use crate::tree::{gcd, Node, Plan, Position, LAST_LINE, LAST_PERIOD};

/// Of more classes than these some are drawn.
const MOST_CLASSES: u16 = 12;

/// Before the first owner that is asked of a list's plan, reasons at every node and where no node
/// is; after each write some at nodes of the plan before it and of the plan after it.
pub(crate) fn with_reasons(steps: &[Step], seed: u64) -> Vec<Step> {
    let mut random = Random::new(seed ^ 1 << 62);
    let mut held = Held::empty();
    let mut asked = false;
    let mut all = Vec::new();
    for &step in steps {
        if matches!(step, Step::Owner(_)) && !asked {
            all.extend(reasons_of_list(&held.plan, &mut random));
            asked = true;
        }
        asked = asked && step != Step::Begin;
        let before = held.plan.clone();
        change(&mut held, step);
        all.push(step);
        if matches!(step, Step::Write(..)) {
            all.extend(reasons_after_write(&before, &held.plan, &mut random));
        }
    }
    all
}

/// Of periods that are likely to fit and of any, at every node; then at places of lines, and with
/// numbers that no node has.
fn reasons_of_list(plan: &Plan, random: &mut Random) -> Vec<Step> {
    let mut all = Vec::new();
    for period in drawn_periods(plan, random) {
        for (position, node) in nodes(plan) {
            all.extend(reasons_at(period, &position, node, random));
        }
    }
    all.extend((0..4).filter_map(|_| at_drawn_line(plan, random)));
    all.extend((0..12).map(|_| one_number_changed(plan, random)));
    all.into_iter().map(Step::Reason).collect()
}

/// The first is asked of a record that may be no tree any more, at a node that it had.
fn reasons_after_write(before: &Plan, after: &Plan, random: &mut Random) -> [Step; 3] {
    let drawn = [
        at_drawn_node(before, random),
        at_drawn_node(after, random),
        one_number_changed(after, random),
    ];
    drawn.map(Step::Reason)
}

/// That of an open line, a divisor and a multiple of such a one, a multiple of a node's step, and
/// any.
fn drawn_periods(plan: &Plan, random: &mut Random) -> [u64; 5] {
    let any = 1 + random.below(LAST_PERIOD);
    let mut open = open_periods(plan);
    let mut steps: Vec<u64> = nodes(plan).iter().map(|(it, _)| it.step.into()).collect();
    if open.is_empty() {
        (open, steps) = (vec![any], vec![1]);
    }
    let [above, below, step] = [&open, &open, &steps].map(|numbers| random.pick(numbers));
    [
        random.pick(&open),
        random.pick(&divisors(above)),
        drawn_multiple(below, random),
        drawn_multiple(step, random),
        any,
    ]
}

/// Every class and the first number that is none, or of many classes some; one number alone where
/// the step does not divide the period.
fn reasons_at(period: u64, position: &Position, node: &Node, random: &mut Random) -> Vec<Asked> {
    let classes = match classes_for(period, position, node) {
        None => vec![random.below(3)],
        Some(d) if d <= MOST_CLASSES => (0..=d.into()).collect(),
        Some(d) => some_classes(d, node, random),
    };
    let asked = |class| at(period, position, class);
    classes.into_iter().map(asked).collect()
}

fn at(period: u64, position: &Position, class: u64) -> Asked {
    Asked {
        period,
        level: position.level() as u64,
        offset: position.offset.into(),
        class,
    }
}

/// How many classes there are, if the step divides the period (Opening a line, 2).
fn classes_for(period: u64, position: &Position, node: &Node) -> Option<u16> {
    let period = u16::try_from(period).ok()?;
    let divides = period.is_multiple_of(position.step);
    divides.then(|| gcd(node.weight, period / position.step))
}

/// Six with an edge, three others, which may have none, and the first number that is none.
fn some_classes(d: u16, node: &Node, random: &mut Random) -> Vec<u64> {
    let mut classes: Vec<u64> = (0..6).map(|_| class_of_edge(d, node, random)).collect();
    classes.extend([0; 2].map(|_| random.below(d.into())));
    classes.extend([u64::from(d) - 1, d.into()]);
    classes
}

fn class_of_edge(d: u16, node: &Node, random: &mut Random) -> u64 {
    let edges: Vec<u16> = node.edges.keys().copied().collect();
    u64::from(random.pick(&edges) % d)
}

/// Where an open line stands, of its own period: there its level is the number of nodes above it,
/// and its offset the start.
fn at_drawn_line(plan: &Plan, random: &mut Random) -> Option<Asked> {
    let all = (0..=LAST_LINE).filter_map(|line| show(plan, line).ok());
    let open: Vec<Shown> = all.collect();
    let shown = (!open.is_empty()).then(|| random.pick(&open))?;
    let above = shown.path.iter().filter(|row| row.weight > 0);
    Some(Asked {
        period: shown.period.0.into(),
        level: above.count() as u64,
        offset: shown.start.0.into(),
        class: 0,
    })
}

/// A class with an edge at a node whose step divides the period. In the empty plan where the root
/// would be.
fn at_drawn_node(plan: &Plan, random: &mut Random) -> Asked {
    let nodes = nodes(plan);
    let at_root = at(1 + random.below(LAST_PERIOD), &Position::root(), 0);
    if nodes.is_empty() {
        return at_root;
    }
    let (position, node) = &nodes[random.below(nodes.len() as u64) as usize];
    let period = drawn_multiple(position.step.into(), random);
    let d = classes_for(period, position, node).unwrap_or(1);
    at(period, position, class_of_edge(d, node, random))
}

/// Such a call, mostly with a period out of range or with another level, offset or class.
fn one_number_changed(plan: &Plan, random: &mut Random) -> Asked {
    let mut asked = at_drawn_node(plan, random);
    match random.below(5) {
        0 => {
            let wide = other_number(1 << 12 | asked.period, random);
            asked.period = random.pick(&[0, LAST_PERIOD + 1, wide]);
        }
        1 => asked.level = other_number(asked.level, random),
        2 => asked.offset = other_number(asked.offset, random),
        3 => asked.class = other_number(asked.class, random),
        _ => {}
    }
    asked
}

/// One or two more, or the same number in fewer bits, or any.
fn other_number(number: u64, random: &mut Random) -> u64 {
    let any = random.draw();
    random.pick(&[
        number + 1,
        number + 2,
        1 << 16 | number,
        1 << 32 | number,
        any,
    ])
}

#[cfg(test)]
mod tests {
    use super::*;
    use crate::drawn_sheets::with_sheets;
    use crate::drawn_trials::with_trials;
    use crate::reason::{reason, Reason};
    use crate::refusal::Refusal;
    use crate::script::{generated, generated_calls};
    use crate::shapes::Shape;

    fn is_reason(step: &Step) -> bool {
        matches!(step, Step::Reason(_))
    }

    #[test]
    fn other_steps_stay_and_a_larger_count_adds() {
        for shape in Shape::ALL {
            let without = |count: u64| {
                let calls = generated_calls(5, count, shape);
                with_sheets(&with_trials(&calls, 5), 5)
            };
            let script = with_reasons(&without(6), 5);
            assert!(with_reasons(&without(9), 5).starts_with(&script));
            assert!(script.iter().any(is_reason));
            let others = script.into_iter().filter(|step| !is_reason(step));
            assert!(others.eq(without(6)));
        }
    }

    /// The reasons of the generated part of the script that `.ci/run` composes, each with the
    /// record that it is put to.
    fn stored(shape: Shape) -> Vec<(Held, Asked)> {
        let mut held = Held::empty();
        let mut all = Vec::new();
        for step in generated(1, 10, shape) {
            change(&mut held, step);
            if let Step::Reason(asked) = step {
                all.push((held.clone(), asked));
            }
        }
        all
    }

    /// Nodes between the one that is asked for and the line that is told.
    fn nodes_between(plan: &Plan, asked: Asked, line: u8) -> u64 {
        let shown = show(plan, line.into()).unwrap();
        let above = shown.path.iter().filter(|row| row.weight > 0);
        above.count() as u64 - asked.level - 1
    }

    /// Lines right under an edge of the class, one node deeper, and two or more.
    #[test]
    fn lines_are_told_from_every_depth() {
        let mut seen = [0; 3];
        for (held, asked) in Shape::ALL.map(stored).into_iter().flatten() {
            if let Ok(Reason::Line(line)) = reason(&held.plan, asked) {
                let between = nodes_between(&held.plan, asked, line);
                seen[between.min(2) as usize] += 1;
            }
        }
        assert!(seen.iter().all(|&count| count > 150), "{seen:?}");
    }

    /// Mostly at a node that the record had before, where a line would be told.
    #[test]
    fn reasons_are_put_to_damaged_records() {
        let (mut held, mut before) = (Held::empty(), Held::empty());
        let mut counts = [0; 2];
        for step in Shape::ALL.map(|shape| generated(1, 10, shape)).concat() {
            if matches!(step, Step::Write(..)) {
                before = held.clone();
            }
            change(&mut held, step);
            let Step::Reason(asked) = step else { continue };
            if held.record.tree().is_none() {
                let had_line = matches!(reason(&before.plan, asked), Ok(Reason::Line(_)));
                counts[usize::from(had_line)] += 1;
            }
        }
        assert!(counts[0] >= 40 && counts[1] >= 100, "{counts:?}");
    }

    /// For the periods at every node there are those whose open is refused with 5, and others
    /// (Ask 7, 3).
    #[test]
    fn reasons_are_of_periods_with_room_and_without() {
        let mut seen = [0; 2];
        for (held, asked) in Shape::ALL.map(stored).into_iter().flatten() {
            let closed = (0..=LAST_LINE).find(|&line| show(&held.plan, line).is_err());
            let opened = closed.map(|line| held.plan.clone().open(line, asked.period));
            match opened {
                Some(Ok(_)) => seen[0] += 1,
                Some(Err(Refusal::NoCandidate)) => seen[1] += 1,
                _ => {}
            }
        }
        assert!(seen.iter().all(|&count| count > 1_000), "{seen:?}");
    }
}
