//! What reason is asked: generated questions of a plan, and a fixed set of them for each plan that is measured.

use crate::inputs::{lines_where, one_of};
use crate::numbers::Numbers;
use crate::plain::search::Node;
use crate::plain::{self, paths, reason};
use crate::{Calls, Record, PLAIN, SEED};

/// How many questions are drawn for a set, of which a part is taken.
const DRAWN: usize = 10_000;

/// A period, a node by its level and offset, and a class.
#[derive(Clone, Copy, Debug)]
pub struct Question {
    period: u64,
    level: u64,
    offset: u64,
    class: u64,
}

impl Question {
    pub fn ask(self, calls: Calls, rows: &Record) -> i64 {
        (calls.reason)(rows, self.period, self.level, self.offset, self.class)
    }
}

/// A kind of outcome: a line, the step that does not divide, or a refusal with its number.
#[derive(Clone, Copy, Debug, PartialEq, Eq)]
pub enum Outcome {
    Line,
    Step,
    Refused(i64),
}

/// The outcomes that are measured.
pub const OUTCOMES: [Outcome; 5] = [
    Outcome::Line,
    Outcome::Step,
    Outcome::Refused(10),
    Outcome::Refused(11),
    Outcome::Refused(12),
];

pub fn outcome(answer: i64) -> Outcome {
    match answer {
        ..0 => Outcome::Refused(-answer),
        0..64 => Outcome::Line,
        64 => Outcome::Step,
        _ => panic!("{answer} is no answer of reason"),
    }
}

/// A node on the path of an open line. In the empty plan level 0, where none is.
fn node_on_path(rows: &Record, numbers: &mut Numbers) -> Node {
    let plan = plain::plan_in(rows);
    let line = one_of(&lines_where(rows, true), numbers).map_or(0, usize::from);
    let levels = paths::length(&plan[line]).max(1);
    reason::node_of(plan, line, numbers.below(levels as u64) as usize)
}

/// Periods that the node's step divides, and others.
fn period(node: Node, numbers: &mut Numbers) -> u64 {
    let step = u64::from(node.step);
    match numbers.below(2) {
        0 => step * (1 + numbers.below(4_095 / step)),
        _ => numbers.period(),
    }
}

/// 2^16, 2^32 or 2^48: what is lost where a number of 64 bits is cut.
fn lost_in_cut(numbers: &mut Numbers) -> u64 {
    1 << (16 * (1 + numbers.below(3)))
}

/// Mostly small classes, since most divisors are small; and some numbers of any size.
fn class(numbers: &mut Numbers) -> u64 {
    let bits = numbers.below(7);
    let small = numbers.below(1 << bits);
    match numbers.below(16) {
        0 => numbers.next() >> numbers.below(64),
        1 => small + lost_in_cut(numbers),
        _ => small,
    }
}

/// A question of a plan that is a tree: mostly of a node that it has.
pub fn question(rows: &Record, numbers: &mut Numbers) -> Question {
    let node = node_on_path(rows, numbers);
    let (mut level, mut offset) = (node.level as u64, u64::from(node.offset));
    match numbers.below(16) {
        0 => level = numbers.next() >> numbers.below(64),
        1 => offset = numbers.next() >> numbers.below(64),
        2 => level += 1,
        3 => offset += 1,
        4 => level += lost_in_cut(numbers),
        5 => offset += lost_in_cut(numbers),
        _ => (),
    }
    Question {
        period: period(node, numbers),
        level,
        offset,
        class: class(numbers),
    }
}

/// So many questions of a plan, from a fixed seed. Each outcome comes in its turn, but for the step in a plan that has
/// the root alone.
pub fn questions(rows: &Record, count: usize) -> Vec<Question> {
    let mut numbers = Numbers(SEED);
    let drawn: Vec<Question> = (0..DRAWN).map(|_| question(rows, &mut numbers)).collect();
    let with_outcome = |wanted: Outcome| -> Vec<Question> {
        let is_wanted = |question: &Question| outcome(question.ask(PLAIN, rows)) == wanted;
        drawn.iter().copied().filter(is_wanted).collect()
    };
    let mut parts: Vec<Vec<Question>> = OUTCOMES.map(with_outcome).into();
    parts.retain(|part| !part.is_empty());
    let turn = |at: usize| parts[at % parts.len()][at / parts.len()];
    (0..count).map(turn).collect()
}
