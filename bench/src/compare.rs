//! Both give the same answers and leave the same records and bytes, on generated calls, sheets, reasons, images, weaves
//! and lists.

mod images;
mod reasons;
mod sheets;
mod weaves;

use crate::inputs::{
    list_of, plan_of, plan_of_powers, rounds_under_11_nodes, rounds_where, ORDERS,
};
use crate::measure::{LINES, SPLIT_LINES, SPLIT_PERIOD, TOGETHER};
use crate::numbers::Numbers;
use crate::{plain, programs, Calls, Record, LIBRARY, PLAIN, RECORD, SEED};
use std::path::Path;

const CALLS: usize = 100_000;
const LISTS: usize = 10_000;
const PROGRAM_RUNS: usize = 200;

/// The longest rest that there can be: of the round after the turn of a plan's only line, of period 4,095.
const LONGEST_REST: i64 = 4_094;

/// What was seen in the generated calls.
#[derive(Default)]
struct Seen {
    answers: [usize; 9],
    joined: usize,
    owned: usize,
    longest_rest: i64,
    damaged: usize,
    no_tree: usize,
    most_lines: usize,
}

impl Seen {
    /// Notes an answer to an open, a close or a list.
    fn answer(&mut self, number: i64) {
        self.answers[-number.min(0) as usize] += 1;
    }

    /// Notes an answer to an owner call.
    fn owner(&mut self, value: i64) {
        match value {
            0..64 => self.owned += 1,
            _ => self.longest_rest = self.longest_rest.max(value - 64),
        }
    }

    /// A damaged copy of a record.
    fn damaged(&mut self, rows: &Record, numbers: &mut Numbers) -> Record {
        let mut copy = *rows;
        numbers.damage(&mut copy);
        self.damaged += 1;
        self.no_tree += usize::from(!plain::is_tree(&copy));
        copy
    }

    fn print(&self, what: &str) {
        println!("{what}: equal answers, records and bytes");
        println!("  answers by number, 0 to 8: {:?}", self.answers);
        self.print_records();
    }

    fn print_records(&self) {
        println!(
            "  {} on damaged records, {} of which are no tree; plans of up to {} lines",
            self.damaged, self.no_tree, self.most_lines
        );
    }
}

fn open_lines(rows: &Record) -> usize {
    (0..64).filter(|line| rows[22 * line] != 0).count()
}

/// Plans that lists leave, every `empty_every`th of them empty. Hands over each plan, and the record to be asked: for every
/// fourth plan that is a damaged copy.
fn each_plan(
    plans: usize,
    empty_every: usize,
    mut ask: impl FnMut(&Record, &Record, &mut Numbers),
) -> Seen {
    let mut numbers = Numbers(SEED);
    let mut rows = [0; RECORD];
    let mut seen = Seen::default();
    for turn in 0..plans {
        if turn % empty_every == 0 {
            rows = [0; RECORD];
        } else {
            plain::run_list(&mut rows, &numbers.list(), &mut [0; 2 * 39]);
        }
        let record = match turn % 4 {
            3 => seen.damaged(&rows, &mut numbers),
            _ => rows,
        };
        ask(&rows, &record, &mut numbers);
        seen.most_lines = seen.most_lines.max(open_lines(&rows));
    }
    seen
}

/// The rows of some other line than this one differ.
fn others_differ(one: &Record, two: &Record, line: u64) -> bool {
    let mut lines = (0..).zip(one.chunks(22).zip(two.chunks(22)));
    lines.any(|(other, (one, two))| other != line && one != two)
}

/// One generated open or close by both: the same answer, which is noted, and the same record afterwards.
fn compare_change(rows: &mut Record, numbers: &mut Numbers, seen: &mut Seen) {
    let line = match numbers.below(64) {
        0 => numbers.next(),
        _ => numbers.below(66),
    };
    let period = numbers.period();
    let opens = numbers.below(100) < 62;
    let before = *rows;
    let mut other = before;
    let call = |calls: Calls, rows: &mut Record| match opens {
        true => (calls.open)(rows, line, period),
        false => (calls.close)(rows, line),
    };
    let answer = call(LIBRARY, rows);
    assert_eq!(answer, call(PLAIN, &mut other), "the answers differ");
    assert!(*rows == other, "the records differ");
    let kept = 0 <= answer || *rows == before;
    assert!(kept, "a refusal changed the record");
    seen.answer(answer);
    seen.joined += usize::from(!opens && others_differ(&before, rows, line));
}

/// The owner of a round by both: the same answer, which is returned, a line or 64 plus the rest.
fn compare_owner(rows: &Record, round: u64) -> i64 {
    let owner = (LIBRARY.owner)(rows, round);
    assert_eq!(owner, (PLAIN.owner)(rows, round), "the owners differ");
    assert!((0..=64 + LONGEST_REST).contains(&owner));
    owner
}

/// Opens and closes, each with an owner asked before it. Every fourth is on a damaged copy.
fn compare_calls() {
    let mut numbers = Numbers(SEED);
    let mut rows = [0; RECORD];
    let mut seen = Seen::default();
    for turn in 0..CALLS {
        if turn % 2_000 == 0 {
            rows = [0; RECORD];
        }
        let mut copy;
        let record = if turn % 4 == 0 {
            copy = seen.damaged(&rows, &mut numbers);
            &mut copy
        } else {
            &mut rows
        };
        seen.owner(compare_owner(record, numbers.round()));
        compare_change(record, &mut numbers, &mut seen);
        seen.most_lines = seen.most_lines.max(open_lines(&rows));
    }
    seen.print(&format!("{CALLS} opens and closes, with as many owners"));
    println!(
        "  {} closes joined nodes; {} of the rounds are owned; the longest rest of the others is {}",
        seen.joined, seen.owned, seen.longest_rest
    );
}

/// One list by both, with so many bytes lent for its answers: the same answer, record and bytes.
fn compare_list(rows: &mut Record, list: &[u8], room: usize) -> i64 {
    let before = *rows;
    let mut other = before;
    let lent = vec![0xa5; room];
    let (mut answers, mut other_answers) = (lent.clone(), lent.clone());
    let answer = (LIBRARY.run_list)(rows, list, &mut answers);
    let other_answer = (PLAIN.run_list)(&mut other, list, &mut other_answers);
    assert_eq!(answer, other_answer, "the answers differ");
    assert!(*rows == other, "the records differ");
    assert!(answers == other_answers, "the bytes differ");
    let kept = answer == 0 || (*rows == before && answers == lent);
    assert!(kept, "a refusal changed the record or the bytes");
    answer
}

/// Lists of up to 39 orders, some of another length and some with too short a buffer. Every fourth is on a damaged copy.
fn compare_lists() {
    let mut numbers = Numbers(SEED);
    let mut rows = [0; RECORD];
    let mut seen = Seen::default();
    for turn in 0..LISTS {
        if turn % 100 == 0 {
            rows = [0; RECORD];
        }
        let list = numbers.list();
        let enough = list.len() / 3 * 2;
        let room = match numbers.below(8) {
            0 => numbers.below(1 + enough as u64) as usize,
            _ => enough + numbers.below(4) as usize,
        };
        let answer = if turn % 4 == 0 {
            compare_list(&mut seen.damaged(&rows, &mut numbers), &list, room)
        } else {
            compare_list(&mut rows, &list, room)
        };
        seen.answer(answer);
        seen.most_lines = seen.most_lines.max(open_lines(&rows));
    }
    for length in [65_532, 65_535, 65_536, 65_537, 65_538, 200_001] {
        compare_list(&mut rows, &vec![0; length], length);
    }
    seen.print(&format!("{LISTS} lists"));
}

/// The program `book`: the measured lists, some generated ones, and lists of other lengths.
fn compare_programs(folder: &Path) {
    let mut numbers = Numbers(SEED);
    for _ in 0..PROGRAM_RUNS {
        programs::compare(folder, &numbers.list());
    }
    for length in [0, 65_534, 65_535, 65_536, 65_538, 200_001] {
        programs::compare(folder, &vec![0; length]);
    }
    for lines in LINES {
        let list = list_of(lines);
        let bytes = programs::compare(folder, &list.bytes);
        println!(
            "`book` on {ORDERS} orders, {:.1} lines on average: {bytes} equal bytes\n  results 0 to 6: {:?}",
            list.mean_lines, list.answers
        );
    }
    println!("`book` on {PROGRAM_RUNS} generated lists and lists of other lengths: equal bytes\n");
}

/// The rounds that are measured under 11 nodes: both give case F's last line.
fn compare_under_11_nodes() {
    let rows = plan_of_powers();
    for round in rounds_under_11_nodes(TOGETHER) {
        assert_eq!(compare_owner(&rows, round), 10, "round {round}");
    }
}

/// The owned and the idle rounds that are measured: both give the same. No rest is 0, since no plan is empty.
fn compare_measured_rounds() {
    for lines in LINES {
        let rows = plan_of(lines as u64);
        for owned in [true, false] {
            for round in rounds_where(&rows, owned, TOGETHER) {
                let owner = compare_owner(&rows, round);
                assert_eq!(owner < 64, owned, "round {round}");
                assert_ne!(owner, 64, "round {round}");
            }
        }
    }
}

/// An open that is to split the root does so, and the close after it joins the root again.
fn assert_splits_and_joins(calls: Calls, before: &Record, line: u64) {
    let mut rows = *before;
    (calls.open)(&mut rows, line, SPLIT_PERIOD);
    assert!(others_differ(before, &rows, line), "the root is not split");
    (calls.close)(&mut rows, line);
    assert!(rows == *before, "the root is not joined");
}

/// The opens that split, and the closes that join, of both.
fn compare_measured_splits() {
    for lines in SPLIT_LINES {
        let line = lines as u64 - 1;
        assert_splits_and_joins(LIBRARY, &plan_of(line), line);
        assert_splits_and_joins(PLAIN, &plan_of(line), line);
    }
}

/// Everything that the two are compared on.
pub fn compare_answers(folder: &Path) {
    compare_calls();
    compare_under_11_nodes();
    compare_measured_rounds();
    compare_measured_splits();
    sheets::compare_sheets();
    sheets::compare_measured_sheets();
    reasons::compare_reasons();
    reasons::compare_measured_reasons();
    images::compare_images();
    images::compare_measured_images();
    weaves::compare_weaves();
    weaves::compare_measured_weaves();
    compare_lists();
    compare_programs(folder);
}
