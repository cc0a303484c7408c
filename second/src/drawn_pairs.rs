//! Pairs of plans drawn at random, to be woven (document 02, Ask 10).

use crate::ask::show;
use crate::drawn_trees::drawn_tree;
use crate::lists::generate;
use crate::orders::run;
use crate::random::Random;
use crate::shapes::Shape;
use crate::tree::{Plan, LAST_LINE};
use crate::weave::is_too_long;

/// The plan that a generated list leaves, or every third time a drawn tree.
pub(crate) fn drawn_side(shape: Shape, random: &mut Random) -> Plan {
    if random.below(3) == 0 {
        return drawn_tree(random);
    }
    let list = generate(shape, random);
    let mut plan = Plan::empty();
    run(&mut plan, &list, &mut vec![0; list.len()]).expect("the list is short and whole");
    plan
}

/// Two sides, of which mostly so many lines are closed that they can be woven. Only for tests.
#[cfg(test)]
pub(crate) fn drawn_pair(shape: Shape, random: &mut Random) -> [Plan; 2] {
    let mut sides = [drawn_side(shape, random), drawn_side(shape, random)];
    if random.below(6) > 0 {
        for line in lines_in_both(&sides[0], &sides[1]) {
            close(&mut sides[random.below(2) as usize], line);
        }
    }
    if random.below(6) > 0 {
        for side in &mut sides {
            too_long_lines(side)
                .into_iter()
                .for_each(|line| close(side, line));
        }
    }
    sides
}

/// Of an open line.
pub(crate) fn close(side: &mut Plan, line: u64) {
    side.close(line).expect("the line is open");
}

pub(crate) fn lines_in_both(a: &Plan, b: &Plan) -> Vec<u64> {
    let is_in_both = |&line: &u64| show(a, line).is_ok() && show(b, line).is_ok();
    (0..=LAST_LINE).filter(is_in_both).collect()
}

/// Lines whose doubled period is out of range.
pub(crate) fn too_long_lines(side: &Plan) -> Vec<u64> {
    (0..=LAST_LINE)
        .filter(|&line| is_too_long(side, line))
        .collect()
}
