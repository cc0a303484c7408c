//! Plans in the library's record and in the second program's.

use gaplinte::{raw, Plan};
use second::drawn_trees::drawn_tree;
use second::lists;
use second::random::Random;
use second::record::{Held, Record};
use second::shapes::Shape;
use std::array;

#[derive(Clone)]
pub struct Both {
    pub plan: Plan,
    pub held: Held,
}

impl Both {
    pub fn empty() -> Both {
        Both::of(Held::empty())
    }

    pub fn of(held: Held) -> Both {
        let plan = Plan::from_record(numbers(&held.record));
        Both { plan, held }
    }

    /// Runs a list on both. Every answer is the same.
    pub fn run(&mut self, list: &[u8]) {
        let mut answers = vec![0xee; list.len()];
        let mut expected = answers.clone();
        self.plan.run_list_into(list, &mut answers).unwrap();
        self.held.run(list, &mut expected).unwrap();
        assert_eq!(answers, expected);
    }
}

pub fn numbers(record: &Record) -> [u16; raw::PLAN_NUMBERS] {
    array::from_fn(|place| record.number(place))
}

/// Plans of generated lists of each shape, after every 16 orders, and as many drawn trees, of which most could not be
/// booked.
pub fn plans(seed: u64, lists_of_a_shape: usize) -> Vec<Both> {
    let mut random = Random::new(seed);
    let mut plans = vec![Both::empty()];
    for shape in Shape::ALL.repeat(lists_of_a_shape) {
        let mut plan = Both::empty();
        for orders in lists::generate(shape, &mut random).chunks(3 * 16) {
            plan.run(orders);
            plans.push(plan.clone());
            let mut held = Held::empty();
            held.plan = drawn_tree(&mut random);
            held.record = Record::of(&held.plan);
            plans.push(Both::of(held));
        }
    }
    plans
}
