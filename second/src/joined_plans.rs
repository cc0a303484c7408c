//! The closes of generated lists and what they join (document 02, Ask 8). Only for tests.

use crate::drawn_pairs::drawn_pair;
use crate::lists::generate;
use crate::naive::{is_tree, nodes, times, Placed, Time};
use crate::naive_joining::{close, paths, plan_of, Closed};
use crate::orders::{read, run_order, Order, ORDER_BYTES};
use crate::random::Random;
use crate::shapes::Shape;
use crate::tree::{gcd, Node, Plan, Under, LAST_PERIOD};
use crate::weave::weave;
use std::collections::{BTreeMap, BTreeSet};

/// A close that was not refused.
struct Checked {
    line: u8,
    /// Of the line that went.
    start: u16,
    before: Plan,
    /// Without the line and the nodes that it leaves empty, before anything is joined.
    between: Plan,
    after: Plan,
    closed: Closed,
}

impl Checked {
    fn of(before: Plan, line: u8, after: Plan) -> Checked {
        let closed = close(&before, line);
        let start = times(&before).into_iter().find(|it| it.line == line);
        Checked {
            line,
            start: start.expect("the line is open").start,
            before,
            between: plan_of(&closed.between),
            after,
            closed,
        }
    }

    fn check(&self) {
        self.is_that_of_the_second_way();
        self.others_keep_their_starts();
        self.periods_keep_a_candidate();
        self.nothing_is_left_to_be_joined();
        self.other_nodes_are_as_they_were();
    }

    /// The plan has the paths that the close over paths gives, and no node that is on none of them.
    fn is_that_of_the_second_way(&self) {
        assert_eq!(paths(&self.after), self.closed.after, "{:?}", self.before);
        assert_eq!(self.after, plan_of(&self.closed.after));
    }

    /// Start and period of every other line (Ask 8, 4).
    fn others_keep_their_starts(&self) {
        let facts = |plan: &Plan| -> Vec<(u8, u16, u16)> {
            let all = times(plan).into_iter();
            all.map(|it: Time| (it.line, it.period, it.start)).collect()
        };
        let mut expected = facts(&self.before);
        expected.retain(|&(line, _, _)| line != self.line);
        assert_eq!(facts(&self.after), expected, "{:?}", self.before);
    }

    /// Every period that had a candidate before the joining (Ask 8, 5).
    fn periods_keep_a_candidate(&self) {
        if self.after == self.between {
            return;
        }
        let (between, after) = (nodes(&self.between), nodes(&self.after));
        for period in 1..=LAST_PERIOD as u16 {
            let has_candidate = |all: &[Placed]| all.iter().any(|it| is_candidate(it, period));
            let lost = has_candidate(&between) && !has_candidate(&after);
            assert!(!lost, "{period} {:?}", self.between);
        }
    }

    /// A node was above the line if the line's start is a round that leads to it (The tree, 12).
    fn was_above(&self, it: &Placed) -> bool {
        self.start % it.position.step == it.position.offset
    }

    /// Each node that was above the line is joined as often as it can be (Ask 8, 2 and 3).
    fn nothing_is_left_to_be_joined(&self) {
        let after = nodes(&self.after);
        for it in after.iter().filter(|it| self.was_above(it)) {
            let below = it.node.edges.values().map(|under| match under {
                Under::Node(node) => Some(node.weight),
                Under::Line(_) => None,
            });
            let weights: BTreeSet<Option<u16>> = below.collect();
            let can_be_joined = weights.len() == 1 && !weights.contains(&None);
            assert!(!can_be_joined, "{:?} {:?}", self.before, self.after);
        }
    }

    /// A node that was not above the line goes if a node that was takes its place in; any other
    /// keeps step, offset, weight and all that stands under it. No node is new.
    fn other_nodes_are_as_they_were(&self) {
        let (between, after) = (nodes(&self.between), nodes(&self.after));
        let takes_in = |above: &Placed, it: &Placed| {
            let span = above.position.step * above.node.weight;
            let is_under = it.position.offset % above.position.step == above.position.offset;
            is_under && (above.position.step + 1..span).contains(&it.position.step)
        };
        let of_after = by_place(&after);
        for it in between.iter().filter(|it| !self.was_above(it)) {
            let mut above = after.iter().filter(|it| self.was_above(it));
            let expected = (!above.any(|above| takes_in(above, it))).then_some(it.node);
            let found = of_after.get(&place(it)).copied();
            assert_eq!(found, expected, "{:?} {:?}", self.before, self.after);
        }
        let of_between = by_place(&between);
        assert!(of_after.keys().all(|place| of_between.contains_key(place)));
    }
}

/// Step and offset, which no two nodes share.
fn place(it: &Placed) -> (u16, u16) {
    (it.position.step, it.position.offset)
}

fn by_place<'a>(all: &[Placed<'a>]) -> BTreeMap<(u16, u16), &'a Node> {
    all.iter().map(|it| (place(it), it.node)).collect()
}

/// Some class has no edge: those of the edges are fewer than d (Opening a line, 2).
fn is_candidate(it: &Placed, period: u16) -> bool {
    let step = it.position.step;
    period.is_multiple_of(step) && {
        let d = gcd(it.node.weight, period / step);
        let taken: BTreeSet<u16> = it.node.edges.keys().map(|edge| edge % d).collect();
        taken.len() < d.into()
    }
}

/// How many closes there are of each kind.
#[derive(Clone, Copy, Debug, Default, PartialEq, Eq)]
struct Counts {
    closes: usize,
    joins: usize,
    /// Closes that join a node.
    joining: usize,
    /// Closes that join one node more than once.
    again: usize,
    /// Closes that join nodes of more than one level.
    levels: usize,
    /// Closes that join a node, but not the deepest that remains.
    above: usize,
    /// Closes that join a node, and leave no node empty.
    none_empty: usize,
}

impl Counts {
    fn add(&mut self, closed: &Closed) {
        let joins: usize = closed.joins.iter().sum();
        self.closes += 1;
        self.joins += joins;
        if joins == 0 {
            return;
        }
        let levels = closed.joins.iter().filter(|&&times| times > 0);
        let deepest = closed.deepest_level();
        self.joining += 1;
        self.again += usize::from(closed.joins.iter().any(|&times| times > 1));
        self.levels += usize::from(levels.count() > 1);
        self.above += usize::from(deepest.is_some_and(|level| closed.joins[level] == 0));
        self.none_empty += usize::from(deepest == Some(closed.joins.len() - 1));
    }

    fn all(&self) -> [usize; 7] {
        [
            self.closes,
            self.joins,
            self.joining,
            self.again,
            self.levels,
            self.above,
            self.none_empty,
        ]
    }
}

/// At least so many there must be of each kind, in the sequence of `Counts`.
fn assert_often(counts: &Counts, least: [usize; 7]) {
    let mut pairs = counts.all().into_iter().zip(least);
    let is_often = pairs.all(|(count, least)| count >= least);
    assert!(is_often, "{counts:?} {least:?}");
}

/// Checks every close of so many lists.
fn check_lists(shape: Shape, lists: usize, least: [usize; 7]) {
    let mut random = Random::new(71);
    let mut counts = Counts::default();
    for _ in 0..lists {
        let mut plan = Plan::empty();
        for order in generate(shape, &mut random).chunks_exact(ORDER_BYTES) {
            let order = [order[0], order[1], order[2]];
            let before = plan.clone();
            let answer = run_order(&mut plan, order);
            if let (Ok(Order::Close { line }), Ok(_)) = (read(order), answer) {
                let close = Checked::of(before, line, plan.clone());
                close.check();
                counts.add(&close.closed);
            }
        }
    }
    assert_often(&counts, least);
}

#[test]
fn closes_of_sparse_lists() {
    check_lists(Shape::Sparse, 600, [700, 150, 150, 0, 0, 0, 20]);
}

#[test]
fn closes_of_full_lists() {
    check_lists(Shape::Full, 200, [500, 50, 50, 0, 0, 0, 20]);
}

#[test]
fn closes_of_deep_lists() {
    check_lists(Shape::Deep, 400, [800, 400, 300, 30, 0, 0, 250]);
}

#[test]
fn closes_of_prime_lists() {
    check_lists(Shape::Primes, 600, [1_000, 15, 15, 0, 0, 0, 0]);
}

#[test]
fn closes_of_joining_lists() {
    check_lists(
        Shape::Joining,
        500,
        [10_000, 3_000, 2_500, 200, 80, 15, 2_000],
    );
}

/// A node of the tree of a record, however it came about: mostly of the weight of its level, so
/// that many can be joined, above nodes that can be joined too.
fn drawn_node(weights: &[u16], lines: &mut Vec<u8>, random: &mut Random) -> Node {
    let other = 2 + random.below(2) as u16;
    let weight = random.pick(&[weights[0], weights[0], weights[0], other]);
    let sure = random.below(weight.into()) as u16;
    let mut edges = BTreeMap::new();
    for edge in 0..weight {
        if edge == sure || random.below(2) == 0 {
            edges.insert(edge, drawn_under(&weights[1..], lines, random));
        }
    }
    Node { weight, edges }
}

fn drawn_under(weights: &[u16], lines: &mut Vec<u8>, random: &mut Random) -> Under {
    if weights.is_empty() || random.below(6) == 0 {
        let line = lines.len() as u8;
        lines.push(line);
        return Under::Line(line);
    }
    Under::Node(drawn_node(weights, lines, random))
}

/// Of two to six levels, which have the weight 2 or 3.
fn drawn_plan(random: &mut Random) -> (Plan, Vec<u8>) {
    let levels = 2 + random.below(5);
    let weights: Vec<u16> = (0..levels).map(|_| 2 + random.below(2) as u16).collect();
    let mut lines = Vec::new();
    let root = Some(drawn_node(&weights, &mut lines, random));
    (Plan { root }, lines)
}

#[test]
fn closes_in_drawn_trees() {
    let mut random = Random::new(73);
    let mut counts = Counts::default();
    for _ in 0..250 {
        let (plan, lines) = drawn_plan(&mut random);
        if lines.len() > 64 {
            continue;
        }
        assert!(is_tree(&plan));
        for line in lines {
            let mut after = plan.clone();
            after.close(line.into()).unwrap();
            let close = Checked::of(plan.clone(), line, after);
            close.check();
            counts.add(&close.closed);
        }
    }
    assert_often(&counts, [1_500, 3_000, 1_500, 100, 1_000, 1_000, 1_200]);
}

/// One line closes, and then another, and so on: the first closes are of nodes as the two sides had
/// them. The root is joined where all its nodes have one weight, those of two sides or of one
/// (document 02, Ask 10).
#[test]
fn closes_of_woven_plans() {
    let mut random = Random::new(74);
    let (mut counts, mut root_joins) = (Counts::default(), [0; 2]);
    for shape in Shape::ALL.repeat(40) {
        let [a, b] = drawn_pair(shape, &mut random);
        let Ok(mut plan) = weave(&a, &b) else {
            continue;
        };
        for _ in 0..6 {
            let lines: Vec<u8> = paths(&plan).into_keys().collect();
            if lines.is_empty() {
                break;
            }
            let (before, line) = (plan.clone(), random.pick(&lines));
            plan.close(line.into()).unwrap();
            let close = Checked::of(before, line, plan.clone());
            close.check();
            counts.add(&close.closed);
            // A root that was joined has a larger weight.
            let is_woven_root = nodes(&close.before)[0].node.weight == 2;
            if is_woven_root && close.closed.joins[0] > 0 {
                let between = close.closed.between.values();
                let edges: BTreeSet<u16> = between.map(|rows| rows[0].edge).collect();
                root_joins[edges.len() - 1] += 1;
            }
        }
    }
    assert_often(&counts, [500, 150, 150, 5, 5, 20, 60]);
    let [of_one_side, of_two_sides] = root_joins;
    assert!(of_one_side > 40 && of_two_sides > 5, "{root_joins:?}");
}
