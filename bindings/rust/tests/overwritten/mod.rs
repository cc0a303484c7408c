//! Plans whose records were written over, after generated lists of every shape.

use gaplinte::Plan;
use second::lists;
use second::random::Random;
use second::record::{drawn_write, Held};
use second::shapes::Shape;
use std::array;

const WRITES: usize = 8;

/// Hands over the plan after each write, with the random numbers that go on.
pub fn each_overwritten(
    seed: u64,
    lists_of_a_shape: usize,
    mut ask: impl FnMut(&Plan, &mut Random),
) {
    let mut random = Random::new(seed);
    for shape in Shape::ALL.repeat(lists_of_a_shape) {
        let list = lists::generate(shape, &mut random);
        let mut held = Held::empty();
        held.run(&list, &mut vec![0; list.len()]).unwrap();
        for _ in 0..WRITES {
            let (place, number) = drawn_write(&held.record, &mut random);
            held.write(place, number);
            let plan = Plan::from_record(array::from_fn(|place| held.record.number(place)));
            ask(&plan, &mut random);
        }
    }
}
