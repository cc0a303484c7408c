//! Generated pairs of plans, and what they are woven into (document 02, Ask 10). Only for tests.

use crate::ask::owner_at;
use crate::drawn_pairs::{drawn_pair, drawn_side, lines_in_both, too_long_lines};
use crate::naive::{is_tree, nodes, times, Time};
use crate::naive_joining::{paths, plan_of};
use crate::naive_weaving::{by_paths, by_rounds, turns_walked};
use crate::random::Random;
use crate::record::Record;
use crate::refusal::Refusal;
use crate::shapes::Shape;
use crate::tree::Plan;
use crate::weave::weave;

/// Two plans, and what they were woven into.
struct Checked {
    sides: [Plan; 2],
    woven: Plan,
}

impl Checked {
    /// Weaves, and tells the plan or the refusal in the two other ways.
    fn of(sides: [Plan; 2]) -> Result<Checked, u8> {
        let [a, b] = &sides;
        let woven = weave(a, b).map_err(Refusal::number);
        let over_paths = by_paths(&paths(a), &paths(b)).map(|paths| plan_of(&paths));
        assert_eq!(woven, over_paths, "{sides:?}");
        let turns = woven.as_ref().map(turns_walked).map_err(|&number| number);
        let of_rounds = by_rounds(&turns_walked(a), &turns_walked(b));
        assert_eq!(turns, of_rounds, "{sides:?}");
        Ok(Checked {
            woven: woven?,
            sides,
        })
    }

    fn check(&self, random: &mut Random) {
        self.has_its_form();
        self.times_are_doubled();
        self.rounds_are_those_of_the_sides_in_turn(random);
        self.no_lines_meet();
    }

    /// A tree of the form that every plan must have, at most 11 nodes above each line included, and
    /// the tree of its record.
    fn has_its_form(&self) {
        assert!(is_tree(&self.woven), "{:?}", self.woven);
        let most = paths(&self.woven).values().map(Vec::len).max();
        assert!(most.is_none_or(|most| most <= 11), "{:?}", self.woven);
        assert_eq!(Record::of(&self.woven).tree().as_ref(), Some(&self.woven));
    }

    /// The lines are those of the two sides, and no other (Ask 10, 4).
    fn times_are_doubled(&self) {
        let of_side = |odd: usize| {
            let all = times(&self.sides[odd]).into_iter();
            all.map(move |it| (it.line, 2 * it.period, 2 * it.start + odd as u16))
        };
        let mut expected: Vec<(u8, u16, u16)> = of_side(0).chain(of_side(1)).collect();
        expected.sort_unstable();
        let found = times(&self.woven).into_iter();
        let found: Vec<_> = found.map(|it| (it.line, it.period, it.start)).collect();
        assert_eq!(found, expected, "{:?}", self.sides);
    }

    /// From 0, across 2^32 and 2^64, and anywhere.
    fn rounds_are_those_of_the_sides_in_turn(&self, random: &mut Random) {
        let across = |border: u128| border - 200..border + 200;
        let near = (0..10_000).chain(across(1 << 32)).chain(across(1 << 64));
        for round in near.chain((0..200).map(|_| random.draw().into())) {
            let side = &self.sides[(round % 2) as usize];
            let expected = owner_at(side, round / 2);
            assert_eq!(owner_at(&self.woven, round), expected, "{round}");
        }
    }

    /// Lines of two sides, and lines of one: the rounds of the one over as many of its periods as
    /// the other's has rounds, which is a common multiple of both (Ask 10, 5).
    fn no_lines_meet(&self) {
        let all = times(&self.woven);
        for (at, one) in all.iter().enumerate() {
            for other in &all[..at] {
                assert!(!meet(one, other), "{one:?} {other:?} {:?}", self.sides);
            }
        }
    }
}

fn meet(one: &Time, other: &Time) -> bool {
    let rounds = (u32::from(one.start)..).step_by(one.period.into());
    let mut rounds = rounds.take(other.period.into());
    rounds.any(|round| round % u32::from(other.period) == other.start.into())
}

/// How many pairs there are of each kind.
#[derive(Debug, Default)]
struct Counts {
    woven: usize,
    in_both: usize,
    too_long: usize,
    /// Refused with 15, though a doubled period passes 4,095 too.
    either: usize,
    /// Of those that are woven: a side is empty, both are, a side's root has weight 1.
    one_empty: usize,
    both_empty: usize,
    weight_1: usize,
    /// A line stands under 11 nodes.
    deep: usize,
    /// More than 40 lines.
    many: usize,
}

impl Counts {
    fn add(&mut self, sides: &[Plan; 2], woven: &Result<Checked, u8>) {
        match woven {
            Ok(checked) => self.add_woven(checked),
            Err(15) => {
                let is_too_long = sides.iter().any(|side| !too_long_lines(side).is_empty());
                self.in_both += 1;
                self.either += usize::from(is_too_long);
            }
            Err(number) => {
                assert_eq!(*number, 16);
                self.too_long += 1;
            }
        }
    }

    fn add_woven(&mut self, Checked { sides, woven }: &Checked) {
        let empty = sides.iter().filter(|side| side.root.is_none()).count();
        let weight_1 = |side: &Plan| side.root.as_ref().is_some_and(|root| root.weight == 1);
        let is_deep = nodes(woven).iter().any(|it| it.position.level() == 10);
        self.woven += 1;
        self.one_empty += usize::from(empty == 1);
        self.both_empty += usize::from(empty == 2);
        self.weight_1 += usize::from(sides.iter().any(weight_1));
        self.deep += usize::from(is_deep);
        self.many += usize::from(times(woven).len() > 40);
    }

    fn all(&self) -> [usize; 9] {
        [
            self.woven,
            self.in_both,
            self.too_long,
            self.either,
            self.one_empty,
            self.both_empty,
            self.weight_1,
            self.deep,
            self.many,
        ]
    }
}

/// Weaves so many pairs; of each kind there must be at least so many, in the sequence of `Counts`.
fn check_pairs(shape: Shape, pairs: usize, least: [usize; 9]) {
    let mut random = Random::new(101);
    let mut counts = Counts::default();
    for _ in 0..pairs {
        let sides = drawn_pair(shape, &mut random);
        let woven = Checked::of(sides.clone());
        counts.add(&sides, &woven);
        if let Ok(checked) = woven {
            checked.check(&mut random);
        }
    }
    let mut both = counts.all().into_iter().zip(least);
    assert!(
        both.all(|(count, least)| count >= least),
        "{shape:?} {counts:?}"
    );
}

#[test]
fn pairs_of_sparse_lists() {
    check_pairs(Shape::Sparse, 1_000, [700, 8, 100, 3, 200, 30, 30, 0, 0]);
}

#[test]
fn pairs_of_full_lists() {
    check_pairs(Shape::Full, 400, [200, 30, 30, 5, 80, 10, 5, 0, 100]);
}

#[test]
fn pairs_of_deep_lists() {
    check_pairs(Shape::Deep, 800, [500, 40, 100, 8, 70, 3, 20, 25, 0]);
}

#[test]
fn pairs_of_prime_lists() {
    check_pairs(Shape::Primes, 500, [300, 30, 20, 2, 60, 5, 8, 0, 5]);
}

#[test]
fn pairs_of_joining_lists() {
    check_pairs(Shape::Joining, 600, [450, 10, 20, 0, 50, 2, 15, 0, 0]);
}

/// A woven plan is a side of the next one, as side A and as side B, until a line would be too long.
#[test]
fn woven_plans_are_woven_again() {
    let mut random = Random::new(102);
    let mut most = 0;
    for shape in Shape::ALL.repeat(20) {
        let mut plan = drawn_side(shape, &mut random);
        let mut times = 0;
        while too_long_lines(&plan).is_empty() && times < 12 {
            let mut other = drawn_side(shape, &mut random);
            let of_other = [lines_in_both(&plan, &other), too_long_lines(&other)].concat();
            for line in of_other {
                let _ = other.close(line);
            }
            let mut sides = [plan, other];
            sides.rotate_left(random.below(2) as usize);
            let checked = Checked::of(sides).expect("no line is in both or too long");
            checked.check(&mut random);
            plan = checked.woven;
            times += 1;
        }
        most = most.max(times);
    }
    assert!(most >= 5, "{most}");
}
