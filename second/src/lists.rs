//! Generated order lists, for the scripts, the long lists and the tests, and the rounds
//! asked after one. One seed and shape give the same lists always.

use crate::ask::show;
use crate::random::Random;
use crate::shapes::{Drawing, Shape};
use crate::tree::{Plan, LAST_LINE};

/// The bytes of one list.
pub fn generate(shape: Shape, random: &mut Random) -> Vec<u8> {
    let stock = shape.stock(random);
    let orders = stock.orders;
    let mut drawing = Drawing::new(stock);
    (0..orders).flat_map(|_| drawing.order(random)).collect()
}

/// The rounds asked after a list: 0 to 11, 2^32 − 4 to 2^32 + 3, 2^64 − 8 to 2^64 − 1, 8 below
/// 8,192, 8 of 64 bits, and for each of 8 lines drawn from 0 to 63, if it is open, one of 64
/// bits that fits it.
pub(crate) fn rounds(plan: &Plan, random: &mut Random) -> Vec<u64> {
    let mut rounds: Vec<u64> = (0..12).collect();
    rounds.extend((1 << 32) - 4..(1 << 32) + 4);
    rounds.extend(u64::MAX - 7..=u64::MAX);
    rounds.extend((0..8).map(|_| random.below(8_192)));
    rounds.extend((0..8).map(|_| random.draw()));
    for _ in 0..8 {
        let (line, far) = (random.below(LAST_LINE + 1), random.draw());
        rounds.extend(round_that_fits(plan, line, far));
    }
    rounds
}

/// `far` chooses among the rounds that fit the line (The lists of demand 3, 18).
pub(crate) fn round_that_fits(plan: &Plan, line: u64, far: u64) -> Option<u64> {
    let shown = show(plan, line).ok()?;
    let period = u64::from(shown.period.0);
    Some(far % (u64::MAX / period) * period + u64::from(shown.start.0))
}

#[cfg(test)]
mod tests {
    use super::*;
    use crate::ask::owner;
    use crate::orders::{fields, run, run_order, ORDER_BYTES};
    use std::collections::BTreeSet;

    fn drawn(seed: u64, count: usize, shape: Shape) -> Vec<Vec<u8>> {
        let mut random = Random::new(seed);
        (0..count).map(|_| generate(shape, &mut random)).collect()
    }

    #[test]
    fn one_seed_gives_the_same_lists_and_a_larger_count_adds() {
        for shape in Shape::ALL {
            let lists = drawn(3, 5, shape);
            assert_eq!(lists, drawn(3, 5, shape));
            assert_ne!(lists, drawn(4, 5, shape));
            assert!(drawn(3, 9, shape).starts_with(&lists));
        }
    }

    /// Every result that a list can give, and every faulty order, in each shape.
    #[test]
    fn each_shape_gives_each_result() {
        for shape in Shape::ALL {
            let mut random = Random::new(11);
            let (mut results, mut faults) = (BTreeSet::new(), BTreeSet::new());
            for _ in 0..200 {
                let mut plan = Plan::empty();
                for order in generate(shape, &mut random).chunks_exact(ORDER_BYTES) {
                    let order = [order[0], order[1], order[2]];
                    let result = run_order(&mut plan, order);
                    results.insert(result.map_or_else(|refusal| refusal.number(), |_| 0));
                    let bits = fields(order);
                    faults.insert((bits.kind, bits.period == 0, bits.filler == 0));
                }
            }
            assert_eq!(results, BTreeSet::from([0, 2, 3, 4, 5, 6]), "{shape:?}");
            for fault in [
                (0, true, true),
                (0, false, false),
                (1, true, false),
                (1, false, true),
                (2, false, true),
                (3, true, true),
            ] {
                assert!(faults.contains(&fault), "{shape:?} {fault:?}");
            }
        }
    }

    fn plans(shape: Shape, count: usize) -> Vec<Plan> {
        drawn(12, count, shape)
            .into_iter()
            .map(|list| {
                let mut plan = Plan::empty();
                run(&mut plan, &list, &mut vec![0; list.len()]).unwrap();
                plan
            })
            .collect()
    }

    fn open_lines(plan: &Plan) -> usize {
        (0..64).filter(|&line| show(plan, line).is_ok()).count()
    }

    #[test]
    fn full_lists_reach_64_open_lines() {
        let most = plans(Shape::Full, 200).iter().map(open_lines).max();
        assert_eq!(most, Some(64));
    }

    /// Nodes above the line that has the most.
    fn most_nodes(plan: &Plan) -> usize {
        let shown = (0..64).filter_map(|line| show(plan, line).ok());
        let nodes = shown.map(|shown| shown.path.iter().filter(|row| row.weight > 0).count());
        nodes.max().unwrap_or(0)
    }

    /// One list in 20 leaves a line under 11 nodes, and one in four a line under 9 or more.
    #[test]
    fn deep_lists_reach_11_nodes() {
        let most: Vec<usize> = plans(Shape::Deep, 200).iter().map(most_nodes).collect();
        let reach = |nodes: usize| most.iter().filter(|&&count| count >= nodes).count();
        assert!(reach(11) >= 10 && reach(9) >= 50, "{most:?}");
        assert_eq!(reach(12), 0);
    }

    #[test]
    fn sparse_lists_leave_few_lines_and_some_are_empty() {
        let most = plans(Shape::Sparse, 200).iter().map(open_lines).max();
        assert!(most.is_some_and(|most| (1..=6).contains(&most)), "{most:?}");
        assert!(drawn(11, 200, Shape::Sparse).iter().any(Vec::is_empty));
    }

    /// The fixed and the drawn rounds are 44; each one more has an owner.
    #[test]
    fn rounds_are_near_the_borders_and_fit_open_lines() {
        for shape in Shape::ALL {
            let mut random = Random::new(13);
            let mut fitting = 0;
            for plan in plans(shape, 40) {
                let rounds = rounds(&plan, &mut random);
                assert!((44..=52).contains(&rounds.len()));
                for border in [0, 11, (1 << 32) - 4, (1 << 32) + 3, u64::MAX - 7, u64::MAX] {
                    assert!(rounds.contains(&border), "{shape:?} {border}");
                }
                assert!(rounds[44..]
                    .iter()
                    .all(|&round| owner(&plan, round).line().is_some()));
                fitting += rounds.len() - 44;
            }
            assert!(fitting > 0, "{shape:?}");
        }
    }
}
