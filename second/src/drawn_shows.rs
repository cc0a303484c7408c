//! Shows among the steps of a generated script (`script.rs`): what a close leaves of the nodes
//! above its line (document 02, Ask 8). Nothing is drawn for them, and the other steps are the
//! same as without them.

use crate::ask::{show, Row};
use crate::record::Held;
use crate::script::{change, Step};
use crate::tree::{Plan, LAST_LINE};
use std::cmp::Reverse;

/// Lines that are shown after a close, if there are so many.
const LINES_SHOWN: usize = 4;

/// After each close that is not refused, the lines that stood under the most of the nodes above its
/// line.
pub(crate) fn with_shows(steps: &[Step]) -> Vec<Step> {
    let mut held = Held::empty();
    let mut all = Vec::new();
    for &step in steps {
        let before = held.plan.clone();
        change(&mut held, step);
        all.push(step);
        if let Step::Close(line) = step {
            all.extend(shows_of_close(&before, line));
        }
    }
    all
}

fn shows_of_close(before: &Plan, line: u64) -> Vec<Step> {
    let Some(way) = used_rows(before, line) else {
        return Vec::new();
    };
    let mut others: Vec<(Reverse<usize>, u64)> = (0..=LAST_LINE)
        .filter(|&other| other != line)
        .filter_map(|other| {
            Some((
                Reverse(nodes_shared(&way, &used_rows(before, other)?)),
                other,
            ))
        })
        .collect();
    others.sort_unstable();
    let nearest = others.into_iter().take(LINES_SHOWN);
    nearest.map(|(_, other)| Step::Show(other)).collect()
}

/// Those of an open line.
fn used_rows(plan: &Plan, line: u64) -> Option<Vec<Row>> {
    let path = show(plan, line).ok()?.path;
    Some(path.into_iter().take_while(|row| row.weight > 0).collect())
}

/// Rows that are equal from the root on: two lines stand under one node more than these.
fn nodes_shared(way: &[Row], other: &[Row]) -> usize {
    let pairs = way.iter().zip(other);
    pairs.take_while(|(one, two)| one == two).count()
}

#[cfg(test)]
mod tests {
    use super::*;
    use crate::naive_joining::close;
    use crate::script::{generated, generated_calls, opened_in_turn};
    use crate::shapes::Shape;

    #[test]
    fn other_steps_stay_and_a_larger_count_adds() {
        for shape in Shape::ALL {
            let without = |count: u64| generated_calls(5, count, shape);
            let script = with_shows(&without(6));
            assert!(with_shows(&without(9)).starts_with(&script));
            assert!(script.len() > without(6).len());
            let mut all = script.iter();
            assert!(without(6).iter().all(|step| all.any(|it| it == step)));
        }
    }

    /// In case F six nodes are above line 6, and all above the lines from 7 on; ten of the eleven
    /// above line 11 are above line 10.
    #[test]
    fn the_nearest_lines_are_shown() {
        let powers: Vec<u64> = (1..=11).map(|power| 1 << power).collect();
        let (opens, _) = opened_in_turn(&powers);
        for (line, shown) in [(6, [7, 8, 9, 10]), (11, [10, 9, 8, 7]), (1, [2, 3, 4, 5])] {
            let (closes, shows) = ([Step::Close(line); 2], shown.map(Step::Show));
            let steps = [opens.as_slice(), &closes].concat();
            let expected = [opens.as_slice(), &closes[..1], &shows, &closes[1..]].concat();
            assert_eq!(with_shows(&steps), expected);
        }
        assert_eq!(with_shows(&[Step::Close(0)]), [Step::Close(0)]);
    }

    /// How many closes of the generated part of the script that `.ci/run` composes join a node, how
    /// many of these one node more than once or nodes of several levels, and how many shows after
    /// them tell another path than before.
    fn shown_in_stored_script() -> [usize; 3] {
        let [mut joining, mut several, mut moved] = [0; 3];
        let mut held = Held::empty();
        for steps in Shape::ALL.map(|shape| generated(1, 10, shape)) {
            for (at, &step) in steps.iter().enumerate() {
                let before = held.plan.clone();
                change(&mut held, step);
                let Step::Close(line) = step else { continue };
                if show(&before, line).is_err() {
                    continue;
                }
                let joins: usize = close(&before, line as u8).joins.iter().sum();
                joining += usize::from(joins > 0);
                several += usize::from(joins > 1);
                let shows = steps[at + 1..].iter().map_while(|step| match step {
                    Step::Show(line) => Some(line),
                    _ => None,
                });
                let was_moved =
                    |line: &&u64| used_rows(&before, **line) != used_rows(&held.plan, **line);
                moved += shows.take(LINES_SHOWN).filter(was_moved).count();
            }
        }
        [joining, several, moved]
    }

    #[test]
    fn stored_closes_join_often() {
        let counts = shown_in_stored_script();
        let is_often = counts
            .iter()
            .zip([60, 5, 100])
            .all(|(count, least)| *count >= least);
        assert!(is_often, "{counts:?}");
    }
}
