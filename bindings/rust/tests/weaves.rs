//! Pairs of plans woven by the second program too. Every answer agrees, and so does every path of the woven plan, at
//! first and after the bookings that go on.

mod both;
mod weaving;

use both::{numbers, plans, Both};
use gaplinte::{raw, Plan, Refusal};
use second::lists;
use second::random::Random;
use second::record::{drawn_write, Held, Record};
use second::shapes::Shape;
use second::weave as of_second;
use std::collections::BTreeMap;
use weaving::{expect_owner, expect_owners, weave};

/// The longest period that can be doubled.
const LONGEST: u64 = 2047;

impl Both {
    /// Weaves the two in both programs, and gives the woven plan or the number of the refusal.
    fn weave(&self, other: &Both) -> Result<Both, u8> {
        let answer = weave(&self.plan, &other.plan).map_err(Refusal::number);
        let woven = of_second::weave(&self.held.plan, &other.held.plan);
        let woven = woven.map_err(second::refusal::Refusal::number).map(|plan| {
            let record = Record::of(&plan);
            Both::of(Held { record, plan })
        });
        assert_eq!(answer.as_ref(), woven.as_ref().map(|it| &it.plan));
        woven
    }

    /// The plan with 0 written over the rows of some lines, so that no node is joined.
    fn without(&self, lines: &[u64]) -> Both {
        let mut record = self.held.record.clone();
        let of_line = raw::PLAN_NUMBERS / 64;
        for line in lines {
            for place in 0..of_line {
                record.write(*line as usize * of_line + place, 0);
            }
        }
        let plan = record.plan();
        Both::of(Held { record, plan })
    }
}

fn lines(plan: &Plan) -> Vec<u64> {
    plan.lines().map(|it| it.line.0).collect()
}

fn long_lines(plan: &Plan) -> Vec<u64> {
    let long = plan.lines().filter(|it| it.period.0 > LONGEST);
    long.map(|it| it.line.0).collect()
}

/// Of those that are open in both, each in one of two lists.
fn shared_out(a: &Plan, b: &Plan, random: &mut Random) -> [Vec<u64>; 2] {
    let of_b = lines(b);
    let in_both = lines(a).into_iter().filter(|line| of_b.contains(line));
    let (from_a, from_b) = in_both.partition(|_| random.below(2) == 0);
    [from_a, from_b]
}

/// The two, mostly without what would be refused.
fn apart(mut a: Both, mut b: Both, random: &mut Random) -> [Both; 2] {
    if random.below(6) > 0 {
        let [from_a, from_b] = shared_out(&a.plan, &b.plan, random);
        (a, b) = (a.without(&from_a), b.without(&from_b));
    }
    if random.below(6) > 0 {
        a = a.without(&long_lines(&a.plan));
        b = b.without(&long_lines(&b.plan));
    }
    [a, b]
}

fn any(plans: &[Both], random: &mut Random) -> Both {
    plans[random.below(plans.len() as u64) as usize].clone()
}

fn drawn_pair(plans: &[Both], random: &mut Random) -> [Both; 2] {
    let (a, b) = (any(plans, random), any(plans, random));
    apart(a, b, random)
}

fn has_root_of_weight_1(plan: &Plan) -> bool {
    plan.lines().any(|it| it.period.0 == 1)
}

/// Above the line that has the most.
fn most_nodes(plan: &Plan) -> usize {
    let (lines, _) = plan.record().as_chunks::<22>();
    let nodes = |line: &[u16; 22]| line.iter().step_by(2).filter(|&&weight| weight > 0).count();
    lines.iter().map(nodes).max().unwrap_or(0)
}

/// What is woven of two plans, or what refuses them.
fn kind(a: &Plan, b: &Plan, woven: &Result<Both, u8>) -> &'static str {
    let sides = [a, b];
    let empty = sides
        .iter()
        .filter(|it| it.lines().next().is_none())
        .count();
    let of_weight_1 = sides.iter().filter(|it| has_root_of_weight_1(it)).count();
    match woven {
        Err(15) => "15",
        Err(16) => "16",
        Err(_) => "another refusal",
        Ok(_) if empty == 2 => "two empty sides",
        Ok(_) if empty == 1 && of_weight_1 == 1 => "a root of weight 1 alone",
        Ok(_) if empty == 1 => "an empty side",
        Ok(_) if of_weight_1 == 2 => "two roots of weight 1",
        Ok(_) if of_weight_1 == 1 => "a root of weight 1 and a tree",
        Ok(it) if most_nodes(&it.plan) == 11 => "eleven nodes",
        Ok(_) => "two trees",
    }
}

const KINDS: [&str; 9] = [
    "15",
    "16",
    "a root of weight 1 alone",
    "a root of weight 1 and a tree",
    "an empty side",
    "eleven nodes",
    "two empty sides",
    "two roots of weight 1",
    "two trees",
];

/// Weaves so many drawn pairs, and tells how often each kind came about. Each is met.
fn weave_drawn(seed: u64, count: usize) -> BTreeMap<&'static str, usize> {
    let plans = plans(seed, 10);
    let mut random = Random::new(seed);
    let mut seen = BTreeMap::new();
    for _ in 0..count {
        let [a, b] = drawn_pair(&plans, &mut random);
        let woven = a.weave(&b);
        *seen.entry(kind(&a.plan, &b.plan, &woven)).or_insert(0) += 1;
        if let Ok(woven) = woven {
            let sides = (&a.plan, &b.plan);
            expect_owners(&woven.plan, sides, 2);
            expect_owner(&woven.plan, sides, random.draw());
        }
    }
    assert!(seen.keys().eq(&KINDS), "{seen:?}");
    seen
}

#[test]
fn drawn_pairs() {
    weave_drawn(41, 10_000);
}

/// After every few orders the paths are the same, and mostly they have changed.
#[test]
fn bookings_go_on() {
    let plans = plans(42, 10);
    let mut random = Random::new(42);
    let mut changes = 0;
    for _ in 0..1000 {
        let [a, b] = drawn_pair(&plans, &mut random);
        let Ok(mut woven) = a.weave(&b) else {
            continue;
        };
        let shape = random.pick(&Shape::ALL);
        for orders in lists::generate(shape, &mut random).chunks(3 * 8) {
            let found = woven.plan.clone();
            woven.run(orders);
            assert_eq!(*woven.plan.record(), numbers(&woven.held.record));
            changes += usize::from(woven.plan != found);
        }
    }
    assert!(changes > 1000, "{changes}");
}

/// A woven plan with another one, on either side, up to five times.
#[test]
fn woven_again() {
    let plans = plans(43, 10);
    let mut random = Random::new(43);
    let mut seen = [0; 6];
    for _ in 0..1000 {
        let (mut plan, mut times) = (any(&plans, &mut random), 0);
        for _ in 0..5 {
            let mut sides = apart(plan.clone(), any(&plans, &mut random), &mut random);
            random.shuffle(&mut sides);
            if let Ok(woven) = sides[0].weave(&sides[1]) {
                (plan, times) = (woven, times + 1);
            }
        }
        seen[times] += 1;
    }
    assert!(seen[4] + seen[5] > 100, "{seen:?}");
}

/// Of two records with numbers written over: whether A is a tree, whether B is, and the answer. A record that is no
/// tree is a side without lines: no line is in both then, and only the other side can have a period that is too long.
const DAMAGED_KINDS: [(bool, bool, Option<u8>); 8] = [
    (false, false, None),
    (false, true, None),
    (false, true, Some(16)),
    (true, false, None),
    (true, false, Some(16)),
    (true, true, None),
    (true, true, Some(15)),
    (true, true, Some(16)),
];

/// Each kind is met, and no other.
#[test]
fn damaged_records() {
    let plans = plans(44, 10);
    let mut random = Random::new(44);
    let mut seen = BTreeMap::new();
    for _ in 0..1000 {
        let mut sides = drawn_pair(&plans, &mut random);
        for _ in 0..8 {
            let side = &mut sides[random.below(2) as usize];
            let (place, number) = drawn_write(&side.held.record, &mut random);
            side.held.write(place, number);
            *side = Both::of(side.held.clone());
            let [a, b] = &sides;
            let answer = a.weave(b).err();
            let kind = (a.plan.is_tree(), b.plan.is_tree(), answer);
            *seen.entry(kind).or_insert(0) += 1;
        }
    }
    assert!(seen.keys().eq(&DAMAGED_KINDS), "{seen:?}");
}

/// Not run by the gate. Optimized it takes half a minute:
///
///     cargo test --release --offline --manifest-path bindings/rust/Cargo.toml --test weaves -- --ignored --nocapture
#[test]
#[ignore = "takes a minute where it is not optimized"]
fn a_hundred_thousand_drawn_pairs() {
    for (kind, count) in weave_drawn(45, 100_000) {
        println!("{kind}: {count}");
    }
}
