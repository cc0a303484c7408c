//! `second long-list SEED ORDERS SHAPE`: the bytes of one generated order list of exactly
//! so many orders, malformed ones among them, for document 01's program `book`.
//!
//! It is put together from generated lists (`lists`), all on one plan. Before each of them
//! every open line is closed, or about half of them, or none, so that the orders find the
//! emptied plan, plans with gaps and full ones.
//! One seed and shape give the same orders always; a larger ORDERS only adds orders.

use crate::ask::show;
use crate::lists;
use crate::orders::{pack, run, LONGEST_LIST, ORDER_BYTES};
use crate::random::Random;
use crate::shapes::Shape;
use crate::tree::{Plan, LAST_LINE};

/// Orders of the longest list (Orders, 6).
pub const MOST_ORDERS: usize = LONGEST_LIST / ORDER_BYTES;

/// The bytes of the list.
pub fn generate(seed: u64, orders: usize, shape: Shape) -> Vec<u8> {
    let mut random = Random::new(seed);
    let mut plan = Plan::empty();
    let mut list = Vec::new();
    while list.len() < orders * ORDER_BYTES {
        let mut part = closes(&plan, &mut random);
        part.extend(lists::generate(shape, &mut random));
        run(&mut plan, &part, &mut vec![0; part.len()]).expect("a part is short and whole");
        list.extend(part);
    }
    list.truncate(orders * ORDER_BYTES);
    list
}

/// Orders that close all open lines, half of them, or, every second time, none.
fn closes(plan: &Plan, random: &mut Random) -> Vec<u8> {
    let closed_in_four = random.pick(&[4, 2, 0, 0]);
    let lines = (0..=LAST_LINE).filter(|&line| show(plan, line).is_ok());
    lines
        .filter(|_| random.below(4) < closed_in_four)
        .flat_map(|line| pack(1, line, 0).expect("the line is within its field"))
        .collect()
}

#[cfg(test)]
mod tests {
    use super::*;
    use crate::orders::run_order;
    use std::collections::BTreeSet;

    #[test]
    fn lists_have_exactly_so_many_orders_and_more_only_add() {
        for shape in Shape::ALL {
            let longest = generate(5, MOST_ORDERS, shape);
            assert_eq!(longest.len(), LONGEST_LIST);
            for orders in [0, 1, 2, 999, 5_000] {
                let list = generate(5, orders, shape);
                assert_eq!(list.len(), orders * ORDER_BYTES);
                assert!(longest.starts_with(&list));
            }
            assert_ne!(longest, generate(6, MOST_ORDERS, shape));
        }
    }

    /// Every result, many different plans, and the emptied plan again and again.
    #[test]
    fn long_lists_bring_every_result_to_the_end() {
        for shape in Shape::ALL {
            let list = generate(7, 6_000, shape);
            let mut plan = Plan::empty();
            let (mut results, mut emptied) = (BTreeSet::new(), 0);
            for (at, order) in list.chunks_exact(ORDER_BYTES).enumerate() {
                let result = run_order(&mut plan, [order[0], order[1], order[2]]);
                if at >= 4_000 {
                    results.insert(result.map_or_else(|refusal| refusal.number(), |_| 0));
                }
                emptied += usize::from(result == Ok(None) && plan == Plan::empty());
            }
            assert_eq!(results, BTreeSet::from([0, 2, 3, 4, 5, 6]), "{shape:?}");
            assert!(emptied > 4, "{shape:?} {emptied}");
        }
    }
}
