//! Weaves by both: the same answer, and the same record, whose rounds are those of the two plans in turn.

use super::{each_plan, open_lines};
use crate::inputs::{
    lines_where, pair_of, pair_with_line_in_both, plan_of, plan_of_line_alone, plan_of_powers,
};
use crate::measure::{PAIR_LINES, REFUSED_PAIR_LINES, WITH_EMPTY_LINES};
use crate::numbers::Numbers;
use crate::plain::owner::times_of;
use crate::{plain, Record, LIBRARY, PLAIN, RECORD};

const PAIRS: usize = 10_000;

/// How many rounds of each woven plan are asked.
const ROUNDS: usize = 10;

/// The longest period that can be doubled.
const LONGEST: u64 = 2_047;

/// What was seen in the generated weaves.
#[derive(Default)]
struct SeenWeaves {
    woven: usize,
    refused_15: usize,
    refused_16: usize,
    alone: usize,
    most_lines: usize,
}

impl SeenWeaves {
    /// Notes the answer to a pair, and the plan that is woven.
    fn weave(&mut self, pair: &[Record; 2], answer: i64, woven: &Record) {
        match answer {
            0 => self.woven(pair, woven),
            -15 => self.refused_15 += 1,
            -16 => self.refused_16 += 1,
            _ => panic!("{answer} is no answer of weaving"),
        }
    }

    fn woven(&mut self, pair: &[Record; 2], woven: &Record) {
        self.woven += 1;
        self.alone += usize::from(pair.iter().any(is_of_line_alone));
        self.most_lines = self.most_lines.max(open_lines(woven));
    }

    fn print(&self) {
        println!(
            "  {} woven, {} of them with a root of weight 1, {} refused with 15, {} with 16; woven plans of up to {} lines",
            self.woven, self.alone, self.refused_15, self.refused_16, self.most_lines
        );
    }
}

/// The record is a tree with a root of weight 1.
fn is_of_line_alone(rows: &Record) -> bool {
    let open = lines_where(rows, true);
    plain::is_tree(rows) && open.iter().any(|&line| rows[22 * usize::from(line)] == 1)
}

/// The line that owns a round, nothing where it is idle.
fn owned(rows: &Record, round: u64) -> Option<i64> {
    let owner = (PLAIN.owner)(rows, round);
    (owner < 64).then_some(owner)
}

/// The woven record is a tree, and in these rounds the even ones are those of the first plan, the odd ones those of the second.
fn assert_woven([a, b]: &[Record; 2], woven: &Record, rounds: impl Iterator<Item = u64>) {
    assert!(plain::is_tree(woven), "the woven record is no tree");
    for round in rounds {
        let side = if round % 2 == 0 { a } else { b };
        assert_eq!(owned(woven, round), owned(side, round / 2), "round {round}");
    }
}

/// One pair by both: the same answer and record, which are returned. What is lent to the two differs, so that all numbers
/// are written.
fn compare_weave([a, b]: &[Record; 2]) -> (i64, Record) {
    let (mut woven, mut other) = ([1; RECORD], [2; RECORD]);
    let answer = (LIBRARY.weave)(a, b, &mut woven);
    let other_answer = (PLAIN.weave)(a, b, &mut other);
    assert_eq!(answer, other_answer, "the answers differ");
    match answer {
        0 => assert!(woven == other, "the records differ"),
        _ => assert!(
            woven == [1; RECORD] && other == [2; RECORD],
            "a refusal changed the record"
        ),
    }
    (answer, woven)
}

/// Each line that is open in both plans is closed in one of them.
fn close_in_one(pair: &mut [Record; 2], numbers: &mut Numbers) {
    let [a, b] = pair.each_ref().map(|rows| lines_where(rows, true));
    for line in a.into_iter().filter(|line| b.contains(line)) {
        let side = numbers.below(2) as usize;
        (PLAIN.close)(&mut pair[side], line.into());
    }
}

/// The lines whose period cannot be doubled are closed.
fn close_long(rows: &mut Record) {
    for line in lines_where(rows, true) {
        let path = &plain::plan_in(rows)[usize::from(line)];
        if LONGEST < times_of(path).period {
            (PLAIN.close)(rows, line.into());
        }
    }
}

/// A pair of the two plans, in either sequence. Seven of eight have no line in both, and seven of eight no period that cannot
/// be doubled; one of sixteen has a plan with a root of weight 1.
fn drawn_pair(mut pair: [Record; 2], numbers: &mut Numbers) -> [Record; 2] {
    if numbers.below(16) == 0 {
        pair[0] = plan_of_line_alone(numbers.below(64));
    }
    if numbers.below(2) == 0 {
        pair.reverse();
    }
    if numbers.below(8) != 0 {
        close_in_one(&mut pair, numbers);
    }
    if numbers.below(8) != 0 {
        pair.iter_mut().for_each(close_long);
    }
    pair
}

/// Pairs of plans that lists leave, one after another, empty ones among them. Every fourth has a damaged copy in it.
pub fn compare_weaves() {
    let mut weaves = SeenWeaves::default();
    let mut earlier = [0; RECORD];
    let seen = each_plan(PAIRS, 10, |rows, record, numbers| {
        let pair = drawn_pair([earlier, *record], numbers);
        let (answer, woven) = compare_weave(&pair);
        if answer == 0 {
            assert_woven(&pair, &woven, (0..ROUNDS).map(|_| numbers.round()));
        }
        weaves.weave(&pair, answer, &woven);
        earlier = *rows;
    });
    println!("{PAIRS} pairs of plans: equal answers and records");
    weaves.print();
    seen.print_records();
}

/// A pair that is measured: the same record, or both refuse it.
fn compare_pair(pair: [Record; 2], expected: i64) {
    let (answer, woven) = compare_weave(&pair);
    assert_eq!(answer, expected);
    if answer == 0 {
        assert_woven(&pair, &woven, 0..10_000);
    }
}

/// The pairs that are measured, and case F's plan: the line of period 1,024 gets 11 nodes above it, that of 2,048 no room.
pub fn compare_measured_weaves() {
    let empty = [0; RECORD];
    for lines in PAIR_LINES {
        compare_pair(pair_of(lines as u64), 0);
    }
    for lines in WITH_EMPTY_LINES {
        compare_pair([plan_of(lines as u64), empty], 0);
    }
    for lines in REFUSED_PAIR_LINES {
        compare_pair(pair_with_line_in_both(lines as u64), -15);
    }
    let mut powers = plan_of_powers();
    compare_pair([empty, powers], -16);
    (PLAIN.close)(&mut powers, 10);
    compare_pair([empty, powers], 0);
}
